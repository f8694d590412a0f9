The message of explain for a grammar that is refused: its place, its cause, its line and a caret.

A parenthesis is closed that isn't open, in the first of two lines.

  $ printf "A <- 'x' )\nB <- 'y'\n" > g.peg
  $ pegtool explain g.peg
  g.peg:1:10: unexpected ')'
  A <- 'x' )
           ^
  [2]

The sign in the second line is the arrow of other notations.

  $ printf "Sum <- Product '+' Sum\nProduct = [0-9]+\n" > g.peg
  $ pegtool explain g.peg
  g.peg:2:9: a definition is written NAME <- EXPRESSION
  Product = [0-9]+
          ^
  [2]

The message is about the escape in the literal, not about the quote that is refused.

  $ printf "A <- B\nB <- 'a\\\\q'\n" > g.peg
  $ pegtool explain g.peg
  g.peg:2:8: \q isn't an escape
  B <- 'a\q'
         ^
  [2]

The parenthesis isn't closed where the file ends, in its second line.

  $ printf "A <- B\nB <- ('x'" > g.peg
  $ pegtool explain g.peg
  g.peg:2:10: the file ends too early
  B <- ('x'
           ^
  [2]

The first number of a count is greater than its second one.

  $ printf "A <- 'x'{3,2}\n" > g.peg
  $ pegtool explain g.peg
  g.peg:1:9: a count ends at 1 to 255, and its first number is at most its second
  A <- 'x'{3,2}
          ^
  [2]

The last of 201 parentheses is one too many; its line is shown from 80 bytes before it.

  $ (printf 'A <- B\nB <-\n'; printf '(%.0s' $(seq 201)) > g.peg
  $ pegtool explain g.peg
  g.peg:3:201: parentheses nest deeper than 200
  (((((((((((((((((((((((((((((((((((((((((((((((((((((((((((((((((((((((((((((((((
                                                                                  ^
  [2]

The second definition of A is shown, in line 3, since the first one is allowed.

  $ printf "A <- B\nB <- 'x'\nA <- 'y'\n" > g.peg
  $ pegtool explain g.peg
  g.peg:3:1: the rule A is defined twice
  A <- 'y'
  ^
  [2]

The missing rule is shown where it is called, at column 11 of line 2.

  $ printf "Sum <- Number '+' Sum\nNumber <- Digit+\n" > g.peg
  $ pegtool explain g.peg
  g.peg:2:11: the rule Digit is not defined
  Number <- Digit+
            ^
  [2]

The part of the star is optional, so the star could loop on the empty string.

  $ printf "A <- B 'x'\nB <- ('y'?)*\n" > g.peg
  $ pegtool explain g.peg
  g.peg:2:6: this repetition matches the empty text again and again, in B
  B <- ('y'?)*
       ^
  [2]

Sum begins with Product and Product with Sum, so both call each other at one position.

  $ printf "Sum <- Product '+' Sum / Product\nProduct <- Sum '*' Product / 'x'\n" > g.peg
  $ pegtool explain g.peg
  g.peg:1:1: left recursion: Sum -> Product -> Sum
  Sum <- Product '+' Sum / Product
  ^
  [2]

The cycle is in the third rule, whose definition begins at column 2.

  $ printf "Start <- 'x' End\nEnd <- !.\n Sum <- Sum '+' / Start\n" > g.peg
  $ pegtool explain g.peg
  g.peg:3:2: left recursion: Sum -> Sum
   Sum <- Sum '+' / Start
   ^
  [2]

A file of 1,048,577 blanks is one byte over the limit, which has no place.

  $ printf '%1048577s' '' > g.peg
  $ pegtool explain g.peg
  g.peg: the grammar file is longer than 1048576 bytes
  [2]

The counts make over 16 million instructions, and the message has no place.

  $ printf "A <- (('x'{255}){255}){255}" > g.peg
  $ pegtool explain g.peg
  g.peg: the code would have more than 1000000 instructions
  [2]
