The command table: what the expression of each rule can do (Ford 2004, section 3.5).

A rule that only calls itself has no outcome at all, and there is a table all the same.

  $ echo "T <- T" | pegtool table /dev/stdin
  {"table":[{"fails":false,"nothing":false,"rule":"T","something":false}]}

In the grammar of a^n b^n c^n only the first rule can fail (Ford 2004, section 3.4).

  $ printf "D <- &(A !'b') 'a'* B !.\nA <- 'a' A 'b' / ''\nB <- 'b' B 'c' / ''\n" > abc.peg
  $ pegtool table abc.peg
  {"table":[{"fails":true,"nothing":true,"rule":"D","something":true},{"fails":false,"nothing":true,"rule":"A","something":true},{"fails":false,"nothing":true,"rule":"B","something":true}]}

A rule that nothing calls has its entry, in the order of the file.

  $ printf "S <- 'a'\nT <- T\n" | pegtool table /dev/stdin
  {"table":[{"fails":true,"nothing":false,"rule":"S","something":true},{"fails":false,"nothing":false,"rule":"T","something":false}]}

A loop on the empty string has no outcome, an empty class only fails, and the end of the text consumes nothing.

  $ printf "Loop <- ''*\nNone <- []\nEnd <- !.\n" | pegtool table /dev/stdin
  {"table":[{"fails":false,"nothing":false,"rule":"Loop","something":false},{"fails":true,"nothing":false,"rule":"None","something":false},{"fails":true,"nothing":true,"rule":"End","something":false}]}

A right recursion can fail or consume a byte, and never matches the empty string.

  $ echo "S <- 'a' S / 'b'" | pegtool table /dev/stdin
  {"table":[{"fails":true,"nothing":false,"rule":"S","something":true}]}
