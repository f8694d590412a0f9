The names of rules in messages of explain: a rule that fails at once where it is called stands for its items, and --rules
adds the rules of the others.

The class is the expression of Number, which is called where it fails.

  $ printf 'S <- Number\nNumber <- [0-9]' > g; printf z > t
  $ pegtool explain g t
  t:1:1: expected Number, found 'z'
  z
  ^
  [1]

Both classes have the name of their rule, which is written once; the literal has none.

  $ printf "Number <- [0-9] / [a-c]\nS <- Number / 'a'" > g; printf z > t
  $ pegtool explain g t --start S
  t:1:1: expected Number or 'a', found 'z'
  z
  ^
  [1]

With --rules a literal is followed by its rule. Product fails at once, so it is named in place of its literal.

  $ printf "Sum <- 'a'" > g; printf z > t
  $ pegtool explain g t --rules
  t:1:1: expected 'a' in Sum, found 'z'
  z
  ^
  [1]
  $ printf "Sum <- 'a' / Product / 'a'\nProduct <- 'a'" > g; printf z > t
  $ pegtool explain g t --rules
  t:1:1: expected 'a' in Sum or Product, found 'z'
  z
  ^
  [1]

Number is called at position 4, where its class fails; the blank before it is a literal.

  $ cat > g <<'END'
  > Sum <- Number (' '* '+' ' '* Number)* End
  > Number <- [0-9]+
  > End <- !.
  > END
  $ printf '1 + x' > t
  $ pegtool explain g t --memo 4096
  t:1:5: expected ' ' or Number, found 'x'
  1 + x
      ^
  [1]
  $ pegtool explain g t --memo 0
  t:1:5: expected ' ' or Number, found 'x'
  1 + x
      ^
  [1]

The name Number says its rule already, so --rules adds only that of the blank.

  $ pegtool explain g t --rules
  t:1:5: expected ' ' in Sum or Number, found 'x'
  1 + x
      ^
  [1]

With --terminals the class is written as in the grammar file.

  $ pegtool explain g t --terminals
  t:1:5: expected ' ' or [0-9], found 'x'
  1 + x
      ^
  [1]

With both options each item is written as in the file and followed by its rule.

  $ pegtool explain g t --rules --terminals
  t:1:5: expected ' ' in Sum or [0-9] in Number, found 'x'
  1 + x
      ^
  [1]

Number is called at position 0 and its class fails at 1, so it isn't named there.

  $ printf 1x > t
  $ pegtool explain g t
  t:1:2: expected the end, ' ', '+' or [0-9], found 'x'
  1x
   ^
  [1]

L is called at position 3, but there it tries the parenthesis alone. The class fails in the loop of the outer call, so a
letter is expected, and not only an L.

  $ printf "L <- '(' [a-z]+ L? ')'" > g; printf '(ab1' > t
  $ pegtool explain g t
  t:1:4: expected '(', [a-z] or ')', found '1'
  (ab1
     ^
  [1]
  $ pegtool explain g t --memo 0
  t:1:4: expected '(', [a-z] or ')', found '1'
  (ab1
     ^
  [1]

In an open comment any byte is expected, not only another comment: the dot is that of the outer call.

  $ printf "Comment <- '(;' (Comment / !';)' .)* ';)'" > g; printf '(;a' > t
  $ pegtool explain g t
  t:1:4: expected '(;', any byte or ';)', found the end
  (;a
     ^
  [1]

The class fails at 2 both in the loop of the first word and in the second call of Word, which is named. A second class
of Word fails in the first word alone.

  $ printf 'S <- Word+ !.\nWord <- [a-z]+' > g; printf 'ab?' > t
  $ pegtool explain g t
  t:1:3: expected the end or Word, found '?'
  ab?
    ^
  [1]
  $ printf 'S <- Word+ !.\nWord <- [a-z] [0-9a-z]*' > g
  $ pegtool explain g t
  t:1:3: expected the end, Word or [0-9a-z], found '?'
  ab?
    ^
  [1]

The rule Any is called at the end of the text, where its dot fails.

  $ printf "S <- 'a' Any\nAny <- .\n" > g; printf a > t
  $ pegtool explain g t
  t:1:2: expected Any, found the end
  a
   ^
  [1]

R is called at position 1 in the predicate alone, and at 0 outside it.

  $ printf "S <- !('a' R) R\nR <- 'a' [b]\n" > g; printf ax > t
  $ pegtool explain g t
  t:1:2: expected [b], found 'x'
  ax
   ^
  [1]

Each of the 30 levels doubles the steps of a run without a memo; D is called at 30.

  $ printf "A <- '(' A ')' 'x' / '(' A ')' 'y' / D\nD <- [0-9]\n" > g; printf '((((((((((((((((((((((((((((((?' > t
  $ pegtool explain g t
  t:1:31: expected '(' or D, found '?'
  ((((((((((((((((((((((((((((((?
                                ^
  [1]
