The warning NoEffect: an optional, a star or a predicate that always matches the empty string, or an optional that
changes nothing.

The part never matches, so the optional and the star always match the empty string.

  $ printf "S <- 'a' []?" | pegtool lint /dev/stdin
  {"warnings":[{"column":10,"end":12,"kind":"NoEffect","line":1,"proved":true,"rule":"S","start":9}]}
  [1]
  $ printf "S <- 'a' T*\nT <- 'b' []" | pegtool lint /dev/stdin
  {"warnings":[{"column":10,"end":11,"kind":"NoEffect","line":1,"proved":true,"rule":"S","start":9},{"column":6,"end":23,"kind":"NeverMatches","line":2,"proved":true,"rule":"T","start":17}]}
  [1]

T is a star and never fails, so `T?` is T and `&T` tests nothing.

  $ printf "S <- T? 'b'\nT <- 'a'*" | pegtool lint /dev/stdin
  {"warnings":[{"column":6,"end":7,"kind":"NoEffect","line":1,"proved":true,"rule":"S","start":5}]}
  [1]
  $ printf "S <- &T 'b'\nT <- 'a'*" | pegtool lint /dev/stdin
  {"warnings":[{"column":6,"end":7,"kind":"NoEffect","line":1,"proved":true,"rule":"S","start":5}]}
  [1]

The empty class always fails, so `![]` always succeeds; the empty literal needs no question mark.

  $ printf "S <- ![] 'a'" | pegtool lint /dev/stdin
  {"warnings":[{"column":6,"end":8,"kind":"NoEffect","line":1,"proved":true,"rule":"S","start":5}]}
  [1]
  $ printf "S <- ''? 'a'" | pegtool lint /dev/stdin
  {"warnings":[{"column":6,"end":8,"kind":"NoEffect","line":1,"proved":true,"rule":"S","start":5}]}
  [1]

Each part of these operators can both match and fail, so each operator has an effect.

  $ printf "S <- 'a'? 'b'" | pegtool lint /dev/stdin
  {"warnings":[]}
  $ printf "S <- T* 'b'\nT <- 'a'" | pegtool lint /dev/stdin
  {"warnings":[]}
  $ printf "S <- T? 'b'\nT <- 'a' 'c'?" | pegtool lint /dev/stdin
  {"warnings":[]}
  $ printf "S <- 'a' &'b' 'b'" | pegtool lint /dev/stdin
  {"warnings":[]}

A plus of the empty class is an alternative that never matches, not one without effect.

  $ printf "S <- []+ / 'a'" | pegtool lint /dev/stdin
  {"warnings":[{"column":6,"end":8,"kind":"NeverMatches","line":1,"proved":true,"rule":"S","start":5}]}
  [1]
