The habit EmptyAlternative: an alternative but the last that has nothing written in it.

A leading slash has an empty alternative before it, at the end of the arrow.

  $ printf "S <- / 'a'" | pegtool lint /dev/stdin
  {"warnings":[{"column":5,"end":4,"kind":"EmptyAlternative","line":1,"proved":false,"rule":"S","start":4},{"by":[4,4],"column":8,"end":10,"kind":"NeverTried","line":1,"proved":true,"rule":"S","start":7}]}
  [1]

A doubled slash has an empty alternative between its slashes, and the one after it is never tried.

  $ printf "S <- 'a' // 'b'" | pegtool lint /dev/stdin
  {"warnings":[{"column":11,"end":10,"kind":"EmptyAlternative","line":1,"proved":false,"rule":"S","start":10},{"by":[10,10],"column":13,"end":15,"kind":"NeverTried","line":1,"proved":true,"rule":"S","start":12}]}
  [1]
  $ printf "S <- 'a' / / 'b'" | pegtool lint /dev/stdin
  {"warnings":[{"column":11,"end":10,"kind":"EmptyAlternative","line":1,"proved":false,"rule":"S","start":10},{"by":[10,10],"column":14,"end":16,"kind":"NeverTried","line":1,"proved":true,"rule":"S","start":13}]}
  [1]

In parentheses the empty alternative is at the end of the opening parenthesis.

  $ printf "S <- (/ 'a') 'b'" | pegtool lint /dev/stdin
  {"warnings":[{"column":7,"end":6,"kind":"EmptyAlternative","line":1,"proved":false,"rule":"S","start":6},{"by":[6,6],"column":9,"end":11,"kind":"NeverTried","line":1,"proved":true,"rule":"S","start":8}]}
  [1]
  $ printf "S <- () / 'a'" | pegtool lint /dev/stdin
  {"warnings":[{"column":7,"end":6,"kind":"EmptyAlternative","line":1,"proved":false,"rule":"S","start":6},{"by":[6,6],"column":11,"end":13,"kind":"NeverTried","line":1,"proved":true,"rule":"S","start":10}]}
  [1]

The last alternative may be empty, and an empty literal shows that nothing is meant.

  $ printf "S <- 'a' /" | pegtool lint /dev/stdin
  {"warnings":[]}
  $ printf "S <- 'a' / ''" | pegtool lint /dev/stdin
  {"warnings":[]}
  $ printf "S <- '' / 'a'" | pegtool lint /dev/stdin
  {"warnings":[{"by":[5,7],"column":11,"end":13,"kind":"NeverTried","line":1,"proved":true,"rule":"S","start":10}]}
  [1]

A sequence, empty parentheses in one, and slashes in a literal or class aren't empty alternatives.

  $ printf "S <- 'a' 'b' / 'c'" | pegtool lint /dev/stdin
  {"warnings":[]}
  $ printf "S <- 'a' ()" | pegtool lint /dev/stdin
  {"warnings":[]}
  $ printf "S <- 'a//b' / [/]" | pegtool lint /dev/stdin
  {"warnings":[]}
