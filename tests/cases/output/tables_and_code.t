The lines of JSON that table and code print, each with exit status 0.

An optional literal never fails, and `T <- T` has no outcome at all (Ford 2004, section 3.5).

  $ printf "S <- 'a'?\nT <- T\n" > g; pegtool table g
  {"table":[{"fails":false,"nothing":true,"rule":"S","something":true},{"fails":false,"nothing":false,"rule":"T","something":false}]}

The call of B is the first instruction, and ranges of a class are in ascending order.

  $ printf "A <- B [c-e0-9]\nB <- ''\n" > g; pegtool code g
  {"code":[["end"],["call",1],["test",0,[[48,57],[99,101]]],["ret"],["ret"]],"entries":[1,4]}
