Spacing in messages of explain: a rule that repeats blanks, and maybe comments, is left out if something else is
expected. So are the rules that only such rules call.

After `1 ` a comma, the bracket or more blanks may follow. Spacing repeats a class of blanks.

  $ printf '[1 2]' > t
  $ pegtool explain examples/json.peg t
  t:1:4: expected ',' or ']', found '2'
  [1 2]
     ^
  [1]
  $ pegtool explain examples/json.peg t --rules
  t:1:4: expected ',' in Array or ']' in Array, found '2'
  [1 2]
     ^
  [1]

With --terminals all items are written.

  $ pegtool explain examples/json.peg t --terminals
  t:1:4: expected ',', ']' or [ \t\r\n], found '2'
  [1 2]
     ^
  [1]

Blank, LineComment and BlockComment are called at 2, too. Spacing calls them, and no rule outside it does; BlockComment
calls itself.

  $ printf 'a ?' > t
  $ pegtool explain examples/cookbook/spacing.peg t
  t:1:3: expected the end or Word, found '?'
  a ?
    ^
  [1]

Within a comment nothing but spacing is expected, so it is written: BlockComment may begin again at 6.

  $ printf 'a /* b' > t
  $ pegtool explain examples/cookbook/spacing.peg t
  t:1:7: expected BlockComment, any byte or '*/', found the end
  a /* b
        ^
  [1]

Gap alone calls Break, but S calls EndOfLine, too, so that is expected.

  $ cat > g <<'END'
  > S <- Word Gap EndOfLine !.
  > Word <- [a-z]+
  > Gap <- ([ \t] / Break)*
  > Break <- '\\' EndOfLine
  > EndOfLine <- '\n'
  > END
  $ printf 'a?' > t
  $ pegtool explain g t
  t:1:2: expected [a-z] or EndOfLine, found '?'
  a?
   ^
  [1]

The end of the text is something else. The match ends at 1 and at 2, where only blanks could follow but the end.

  $ printf "S <- [a-z] Spacing\nSpacing <- ' '*" > g; printf 'a?' > t; printf 'a ?' > u
  $ pegtool explain g t u
  t:1:2: expected the end, found '?'
  a?
   ^
  u:1:3: expected the end, found '?'
  a ?
    ^
  [1]

Blanks and comments through several names: a comment begins with a sign, and a run of blanks is a plus.

  $ cat > g <<'END'
  > S <- Skip ('let' Skip)* !.
  > Skip <- (White / Remark)*
  > White <- [ \t]+ / Break
  > Break <- '\r\n' / '\n'
  > Remark <- Short / '(*' (!'*)' .)* '*)'
  > Short <- '--' (!'\n' .)*
  > END
  $ printf 'let x' > t
  $ pegtool explain g t
  t:1:5: expected the end or 'let', found 'x'
  let x
      ^
  [1]

These are no spacing: signs without blanks, blanks with letters, blanks that must be there, and a single blank.

  $ printf "S <- 'a' Signs 'b' Signs !.\nSigns <- ('+' / '-')*" > g; printf ax > t
  $ pegtool explain g t
  t:1:2: expected 'b', '+' or '-', found 'x'
  ax
   ^
  [1]
  $ printf "S <- '(' Text ')'\nText <- (' ' / [a-z])*" > g; printf '(1' > t
  $ pegtool explain g t
  t:1:2: expected ')', ' ' or Text, found '1'
  (1
   ^
  [1]
  $ printf "S <- 'a' Blanks 'b'\nBlanks <- ' '+" > g; printf ab > t
  $ pegtool explain g t
  t:1:2: expected Blanks, found 'b'
  ab
   ^
  [1]
  $ printf "S <- 'a' Blank 'b' / 'a' 'c'\nBlank <- ' '" > g; printf ab > t
  $ pegtool explain g t
  t:1:2: expected 'c' or Blank, found 'b'
  ab
   ^
  [1]
