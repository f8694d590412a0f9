The warning NeverMatches: an alternative, an item of a sequence or the expression of a rule that always fails.

The empty class never matches, so the sequence of the second alternative never matches either.

  $ printf "S <- 'a' / [] 'b'" | pegtool lint /dev/stdin
  {"warnings":[{"column":12,"end":17,"kind":"NeverMatches","line":1,"proved":true,"rule":"S","start":11}]}
  [1]

The expression of A never matches, and so the call of A in S never does.

  $ printf "S <- A\nA <- 'x' []" | pegtool lint /dev/stdin
  {"warnings":[{"column":6,"end":6,"kind":"NeverMatches","line":1,"proved":true,"rule":"S","start":5},{"column":6,"end":18,"kind":"NeverMatches","line":2,"proved":true,"rule":"A","start":12}]}
  [1]

The choice of two empty classes never matches, and its second alternative repeats the first one.

  $ printf "S <- 'a' ([] / []) 'b' / 'c'" | pegtool lint /dev/stdin
  {"warnings":[{"column":6,"end":22,"kind":"NeverMatches","line":1,"proved":true,"rule":"S","start":5},{"column":11,"end":17,"kind":"NeverMatches","line":1,"proved":true,"rule":"S","start":10},{"by":[10,12],"column":16,"end":17,"kind":"SameAlternative","line":1,"proved":true,"rule":"S","start":15}]}
  [1]

A plus of the empty class needs one match of it, so it never matches.

  $ printf "S <- 'a' []+ / 'b'" | pegtool lint /dev/stdin
  {"warnings":[{"column":6,"end":12,"kind":"NeverMatches","line":1,"proved":true,"rule":"S","start":5},{"column":10,"end":12,"kind":"NeverMatches","line":1,"proved":true,"rule":"S","start":9}]}
  [1]

S calls itself on every path, so no finite match of it exists (Ford 2004, section 3.3).

  $ printf "S <- 'a' S" | pegtool lint /dev/stdin
  {"warnings":[{"column":6,"end":10,"kind":"NeverMatches","line":1,"proved":true,"rule":"S","start":5},{"column":10,"end":10,"kind":"NeverMatches","line":1,"proved":true,"rule":"S","start":9}]}
  [1]

A count of the empty class never matches, since its first copy fails on every text.

  $ printf "S <- []{2} / 'a'" | pegtool lint /dev/stdin
  {"warnings":[{"column":6,"end":10,"kind":"NeverMatches","line":1,"proved":true,"rule":"S","start":5}]}
  [1]

The empty class alone is the way to fail on purpose, so it has no warning.

  $ printf "S <- 'a' / []" | pegtool lint /dev/stdin
  {"warnings":[]}

A reversed range alone is an empty class: its own warning is about the range, and NeverMatches isn't given.

  $ printf 'S <- [b-a]' | pegtool lint /dev/stdin | grep -c NeverMatches
  0
  [1]

These expressions match some text: the recursion ends with b, and the others match at once.

  $ printf "S <- 'a' S / 'b'" | pegtool lint /dev/stdin
  {"warnings":[]}
  $ printf "S <- ''" | pegtool lint /dev/stdin
  {"warnings":[]}
  $ printf "S <- !'a' ." | pegtool lint /dev/stdin
  {"warnings":[]}

Ford's abstract outcomes (2004, section 3.5) don't say on which bytes a part fails. So this sequence has no NeverMatches,
but its second item has NeverFollows. The and-predicate of the other one has no warning, though it never matches either.

  $ printf "S <- !'a' 'a'" | pegtool lint /dev/stdin
  {"warnings":[{"by":[5,9],"column":11,"end":13,"kind":"NeverFollows","line":1,"proved":true,"rule":"S","start":10}]}
  [1]
  $ printf "S <- &'a' 'b'" | pegtool lint /dev/stdin
  {"warnings":[]}
