The warning TakesNothing: an item that matches no byte wherever the item before it ends, though it does elsewhere.

The first star takes all blanks, so the second one matches the empty string (Ford 2004, section 3.3).

  $ printf "S <- 'a' ' '* ' '* 'b'" | pegtool lint /dev/stdin
  {"warnings":[{"by":[9,13],"column":15,"end":18,"kind":"TakesNothing","line":1,"proved":true,"rule":"S","start":14}]}
  [1]

The rule _ is such a star, and it is called twice in a row.

  $ printf "S <- 'c' _ _ '('\n_ <- ' '*" | pegtool lint /dev/stdin
  {"warnings":[{"by":[9,10],"column":12,"end":12,"kind":"TakesNothing","line":1,"proved":true,"rule":"S","start":11}]}
  [1]

The rule T ends in the same star.

  $ printf "S <- T _ 'x'\nT <- 'a' _\n_ <- ' '*" | pegtool lint /dev/stdin
  {"warnings":[{"by":[5,6],"column":8,"end":8,"kind":"TakesNothing","line":1,"proved":true,"rule":"S","start":7}]}
  [1]

An optional item has nothing left after a repetition with its bytes, or after the end of the text.

  $ printf "S <- [a-z]+ [a-f]?" | pegtool lint /dev/stdin
  {"warnings":[{"by":[5,11],"column":13,"end":18,"kind":"TakesNothing","line":1,"proved":true,"rule":"S","start":12}]}
  [1]
  $ printf "S <- 'x' !. 'y'?" | pegtool lint /dev/stdin
  {"warnings":[{"by":[9,11],"column":13,"end":16,"kind":"TakesNothing","line":1,"proved":true,"rule":"S","start":12}]}
  [1]

The second repetition takes other bytes, or more bytes than the first one.

  $ printf "S <- ' '* 'x'*" | pegtool lint /dev/stdin
  {"warnings":[]}
  $ printf "S <- ' '* [ x]*" | pegtool lint /dev/stdin
  {"warnings":[]}

An optional item and a count may end before a blank, which is taken then.

  $ printf "S <- ' '? ' '*" | pegtool lint /dev/stdin
  {"warnings":[]}
  $ printf "S <- ' '{0,2} ' '*" | pegtool lint /dev/stdin
  {"warnings":[]}

The star of `'ab'` may end before an a that no b follows.

  $ printf "S <- 'ab'* 'a'?" | pegtool lint /dev/stdin
  {"warnings":[]}

A predicate matches no byte anywhere, so it has no warning after a repetition.

  $ printf "S <- ' '* !' ' 'x'" | pegtool lint /dev/stdin
  {"warnings":[]}
  $ printf 'S <- .* !.' | pegtool lint /dev/stdin
  {"warnings":[]}

A call of a rule that may end in other ways takes what is left.

  $ printf "S <- T ' '*\nT <- 'a' / 'b' ' '*" | pegtool lint /dev/stdin
  {"warnings":[]}
