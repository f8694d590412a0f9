The causes that explain names for refused grammars. Each is found in the bytes of the file at the offset of the
refusal.

Left recursion is shown at the definition of its first rule, with all rules of the cycle.

  $ printf "A <- B\nB <- A 'x'" > g
  $ pegtool explain g
  g:1:1: left recursion: A -> B -> A
  A <- B
  ^
  [2]
  $ printf 'A <- A' > g
  $ pegtool explain g
  g:1:1: left recursion: A -> A
  A <- A
  ^
  [2]

A loop is shown with its rule, a double or missing rule with its name.

  $ printf "A <- 'x'\nB <- ('y'?)*" > g
  $ pegtool explain g
  g:2:6: this repetition matches the empty text again and again, in B
  B <- ('y'?)*
       ^
  [2]
  $ printf "A <- 'x'\nA <- 'y'" > g
  $ pegtool explain g
  g:2:1: the rule A is defined twice
  A <- 'y'
  ^
  [2]
  $ printf "A <- 'x' Other" > g
  $ pegtool explain g
  g:1:10: the rule Other is not defined
  A <- 'x' Other
           ^
  [2]

A count of zero is out of its range, and is shown at its brace.

  $ printf "A <- 'x'{0}" > g
  $ pegtool explain g
  g:1:9: a count ends at 1 to 255, and its first number is at most its second
  A <- 'x'{0}
          ^
  [2]

A letter beyond ASCII is no part of a name, and is shown as it is.

  $ printf 'A <- \303\251' > g
  $ pegtool explain g | cat -A
  g:1:6: unexpected 'M-CM-)'$
  A <- M-CM-)$
       ^$

A second name before the arrow is shown as a whole, with its underscore and digit.

  $ printf "A next_1 <- 'x'" > g
  $ pegtool explain g
  g:1:3: unexpected next_1
  A next_1 <- 'x'
    ^
  [2]

A second count needs parentheses, and a parenthesis must be closed.

  $ printf "A <- 'x'{2}{3}" > g
  $ pegtool explain g
  g:1:12: unexpected '{'
  A <- 'x'{2}{3}
             ^
  [2]
  $ printf "A <- ('x'" > g
  $ pegtool explain g
  g:1:10: the file ends too early
  A <- ('x'
           ^
  [2]

A byte order mark is no spacing, and is named as what it is.

  $ printf "\357\273\277A <- 'x'" > g
  $ pegtool explain g | cat -A
  g:1:1: the notation has no byte order mark: remove it$
  M-oM-;M-?A <- 'x'$
  ^$

An escape that isn't one is shown at its backslash, also in a later line.

  $ printf 'A <- "a\\-b"' > g
  $ pegtool explain g
  g:1:8: \- isn't an escape: write a dash first in its class, as in [-a]
  A <- "a\-b"
         ^
  [2]
  $ printf "A <- '\\\\x4g'" > g
  $ pegtool explain g
  g:1:7: \x isn't an escape
  A <- '\x4g'
        ^
  [2]
  $ printf "A <- 'a\n\\\\\303\251'" > g
  $ pegtool explain g | cat -A
  g:2:1: \M-CM-) isn't an escape$
  \M-CM-)'$
  ^$

The signs that other notations have for the arrow are shown with the right form.

  $ printf "A = 'x'" > g
  $ pegtool explain g
  g:1:3: a definition is written NAME <- EXPRESSION
  A = 'x'
    ^
  [2]
  $ printf "A := 'x'" > g
  $ pegtool explain g
  g:1:3: a definition is written NAME <- EXPRESSION
  A := 'x'
    ^
  [2]
  $ printf "A -> 'x'" > g
  $ pegtool explain g
  g:1:3: a definition is written NAME <- EXPRESSION: write <- in place of ->
  A -> 'x'
    ^
  [2]
  $ printf "A => 'x'" > g
  $ pegtool explain g
  g:1:3: a definition is written NAME <- EXPRESSION: write <- in place of =>
  A => 'x'
    ^
  [2]
  $ printf "A < 'x'" > g
  $ pegtool explain g
  g:1:3: a definition is written NAME <- EXPRESSION
  A < 'x'
    ^
  [2]

The bar and the semicolon of other notations have sentences of their own.

  $ printf "A <- 'x' | 'y'" > g
  $ pegtool explain g
  g:1:10: alternatives are separated by /, not by |
  A <- 'x' | 'y'
           ^
  [2]
  $ printf "A <- 'x';" > g
  $ pegtool explain g
  g:1:9: a definition doesn't end in a semicolon
  A <- 'x';
          ^
  [2]

A parenthesis is closed that isn't open, as the last token of the file.

  $ printf "A <- 'x')" > g
  $ pegtool explain g
  g:1:9: unexpected ')'
  A <- 'x')
          ^
  [2]

Forms of other notations have sentences of their own. A comment of C has the same one wherever it is refused.

  $ printf "/* rules */\nA <- 'x'" > g
  $ pegtool explain g
  g:1:1: a comment begins with #
  /* rules */
  ^
  [2]
  $ printf "// rules\nA <- 'x'" > g
  $ pegtool explain g
  g:1:1: a comment begins with #
  // rules
  ^
  [2]
  $ printf "A <- 'x' /* an x */" > g
  $ pegtool explain g
  g:1:11: a comment begins with #
  A <- 'x' /* an x */
            ^
  [2]

A star after a slash and a blank is no comment, so it is only unexpected.

  $ printf "A <- 'x' / * 'y'" > g
  $ pegtool explain g
  g:1:12: unexpected '*'
  A <- 'x' / * 'y'
             ^
  [2]

A name with a colon is a label of PEG.js, unless a blank follows.

  $ printf "A <- first:'x'" > g
  $ pegtool explain g
  g:1:11: there are no labels: give the part a rule of its own
  A <- first:'x'
            ^
  [2]
  $ printf "A: 'x'" > g
  $ pegtool explain g
  g:1:2: a definition is written NAME <- EXPRESSION
  A: 'x'
   ^
  [2]

A backslash begins no token outside literals and classes, and braces hold only counts.

  $ printf 'A <- \\d+' > g
  $ pegtool explain g
  g:1:6: an escape is written in a literal or a class, as in [\t]
  A <- \d+
       ^
  [2]
  $ printf "A <- 'x' { return 1 }" > g
  $ pegtool explain g
  g:1:10: a count is written {2} or {2,4}
  A <- 'x' { return 1 }
           ^
  [2]

A count needs a second number. A comma without digits before it isn't such a count.

  $ printf "A <- 'x'{2,}" > g
  $ pegtool explain g
  g:1:9: a count needs both numbers: write e e+ for two or more
  A <- 'x'{2,}
          ^
  [2]
  $ printf "A <- 'x'{12,}" > g
  $ pegtool explain g
  g:1:9: a count needs both numbers: write e e+ for two or more
  A <- 'x'{12,}
          ^
  [2]
  $ printf "A <- 'x'{,3}" > g
  $ pegtool explain g
  g:1:9: a count is written {2} or {2,4}
  A <- 'x'{,3}
          ^
  [2]

LPeg's names of classes have a percent sign. The sign alone is only unexpected.

  $ printf 'A <- %%w+' > g
  $ pegtool explain g
  g:1:6: there are no named classes: write a class in brackets, as in [a-zA-Z0-9]
  A <- %w+
       ^
  [2]
  $ printf 'A <- %% w' > g
  $ pegtool explain g
  g:1:6: unexpected '%'
  A <- % w
       ^
  [2]

In peg/leg `<` begins a capture. In a line without an arrow before it, it is another sign for the arrow.

  $ printf "A <- < 'x' >" > g
  $ pegtool explain g
  g:1:6: there are no captures: give the part a rule of its own
  A <- < 'x' >
       ^
  [2]
  $ printf "A <- B\nB < 'x'" > g
  $ pegtool explain g
  g:2:3: a definition is written NAME <- EXPRESSION
  B < 'x'
    ^
  [2]

Peggy's `i` after a literal ignores case. After a blank it is a name.

  $ printf 'A <- "select"i' > g
  $ pegtool explain g
  g:1:14: a literal can't ignore case: write a class for each letter, as in [sS] [eE]
  A <- "select"i
               ^
  [2]
  $ printf "A <- 'select' i" > g
  $ pegtool explain g
  g:1:15: the rule i is not defined
  A <- 'select' i
                ^
  [2]
  $ printf "A <- 'select'id" > g
  $ pegtool explain g
  g:1:14: the rule id is not defined
  A <- 'select'id
               ^
  [2]

A no-break space looks like a space, so it is named.

  $ printf "A <-\302\240'x'" > g
  $ pegtool explain g | cat -A
  g:1:5: unexpected '\xC2\xA0' (no-break space): write a blank$
  A <-M-BM- 'x'$
      ^$
