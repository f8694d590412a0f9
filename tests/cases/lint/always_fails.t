The warning AlwaysFails: a predicate `!e` whose part never fails, or `&e` whose part never matches.

The empty literal never fails, so `!''` always fails, and with it the sequence.

  $ printf "S <- !'' 'a' / 'b'" | pegtool lint /dev/stdin
  {"warnings":[{"column":6,"end":12,"kind":"NeverMatches","line":1,"proved":true,"rule":"S","start":5},{"column":6,"end":8,"kind":"AlwaysFails","line":1,"proved":true,"rule":"S","start":5}]}
  [1]

The star belongs to the part of the predicate, and a star never fails.

  $ printf "S <- 'a' !'b'*" | pegtool lint /dev/stdin
  {"warnings":[{"column":6,"end":14,"kind":"NeverMatches","line":1,"proved":true,"rule":"S","start":5},{"column":10,"end":14,"kind":"AlwaysFails","line":1,"proved":true,"rule":"S","start":9}]}
  [1]

The rule T is an optional literal, so it never fails and `!T` always does.

  $ printf "S <- 'a' / !T\nT <- 'b'?" | pegtool lint /dev/stdin
  {"warnings":[{"column":12,"end":13,"kind":"AlwaysFails","line":1,"proved":true,"rule":"S","start":11}]}
  [1]

The part of `&e` never matches here: the empty class, and a rule that ends with it.

  $ printf "S <- 'a' / &[]" | pegtool lint /dev/stdin
  {"warnings":[{"column":12,"end":14,"kind":"AlwaysFails","line":1,"proved":true,"rule":"S","start":11}]}
  [1]
  $ printf "S <- 'a' / &T\nT <- 'b' []" | pegtool lint /dev/stdin
  {"warnings":[{"column":12,"end":13,"kind":"AlwaysFails","line":1,"proved":true,"rule":"S","start":11},{"column":6,"end":25,"kind":"NeverMatches","line":2,"proved":true,"rule":"T","start":19}]}
  [1]

A count from zero never fails, so the predicate before it always fails.

  $ printf "S <- !'a'{0,1}" | pegtool lint /dev/stdin
  {"warnings":[{"column":6,"end":14,"kind":"AlwaysFails","line":1,"proved":true,"rule":"S","start":5}]}
  [1]

Each of these parts can match and can fail, so its predicate can succeed.

  $ printf "S <- !'a' 'b'" | pegtool lint /dev/stdin
  {"warnings":[]}
  $ printf "S <- &'a' ." | pegtool lint /dev/stdin
  {"warnings":[]}
  $ printf "S <- !'a'+ ." | pegtool lint /dev/stdin
  {"warnings":[]}
  $ printf "S <- !(!'a') 'a'" | pegtool lint /dev/stdin
  {"warnings":[]}
  $ printf 'S <- !. / .' | pegtool lint /dev/stdin
  {"warnings":[]}
