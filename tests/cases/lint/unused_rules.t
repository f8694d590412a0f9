The warning UnusedRule. A rule is used if the start calls it, directly or by other rules.

The start S doesn't call T, so no parse from S calls it. Worked out by hand.

  $ printf "S <- 'a'\nT <- 'b'" | pegtool lint /dev/stdin
  {"warnings":[{"column":1,"end":10,"kind":"UnusedRule","line":2,"proved":true,"rule":"T","start":9}]}
  [1]

B calls C, but nothing calls B, so neither of the two is used.

  $ printf "S <- A\nA <- 'a'\nB <- C\nC <- 'c'" | pegtool lint /dev/stdin
  {"warnings":[{"column":1,"end":17,"kind":"UnusedRule","line":3,"proved":true,"rule":"B","start":16},{"column":1,"end":24,"kind":"UnusedRule","line":4,"proved":true,"rule":"C","start":23}]}
  [1]

A rule that only calls itself is unused, since no parse from S enters it.

  $ printf "S <- 'a'\nT <- 'b' T / 'c'" | pegtool lint /dev/stdin
  {"warnings":[{"column":1,"end":10,"kind":"UnusedRule","line":2,"proved":true,"rule":"T","start":9}]}
  [1]

T calls the start S, but a call by T doesn't make T itself used.

  $ printf "S <- 'a'\nT <- S 'b'" | pegtool lint /dev/stdin
  {"warnings":[{"column":1,"end":10,"kind":"UnusedRule","line":2,"proved":true,"rule":"T","start":9}]}
  [1]

A call in a predicate of an unused rule doesn't make the called rule used.

  $ printf "S <- !'x' .\nX <- &Y 'x'\nY <- 'y'" | pegtool lint /dev/stdin
  {"warnings":[{"column":1,"end":13,"kind":"UnusedRule","line":2,"proved":true,"rule":"X","start":12},{"column":1,"end":25,"kind":"UnusedRule","line":3,"proved":true,"rule":"Y","start":24}]}
  [1]

A call in a predicate, in a later alternative or through another rule makes a rule used.

  $ printf "S <- !K 'a'\nK <- 'k'" | pegtool lint /dev/stdin
  {"warnings":[]}
  $ printf "S <- 'b' / T\nT <- 'a'" | pegtool lint /dev/stdin
  {"warnings":[]}
  $ printf "S <- A\nA <- B\nB <- 'b'" | pegtool lint /dev/stdin
  {"warnings":[]}

The call of T is never tried after a star, but T isn't reported as an unused rule.

  $ printf "S <- 'a'* / T\nT <- 'b'" | pegtool lint /dev/stdin
  {"warnings":[{"by":[5,9],"column":13,"end":13,"kind":"NeverTried","line":1,"proved":true,"rule":"S","start":12}]}
  [1]

A call in a part with a count makes the rule used, as in any sequence.

  $ printf "S <- (T 'x'){2}\nT <- 't'" | pegtool lint /dev/stdin
  {"warnings":[]}
