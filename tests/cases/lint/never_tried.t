The warning NeverTried: an alternative after one that never fails, as a choice takes the first match (Ford 2004,
section 3.3).

A star, an optional part and the empty literal never fail, so all alternatives after them are reported.

  $ printf "S <- 'a'* / 'b'" | pegtool lint /dev/stdin
  {"warnings":[{"by":[5,9],"column":13,"end":15,"kind":"NeverTried","line":1,"proved":true,"rule":"S","start":12}]}
  [1]
  $ printf "S <- 'a'? / 'b' / 'c'" | pegtool lint /dev/stdin
  {"warnings":[{"by":[5,9],"column":13,"end":15,"kind":"NeverTried","line":1,"proved":true,"rule":"S","start":12},{"by":[5,9],"column":19,"end":21,"kind":"NeverTried","line":1,"proved":true,"rule":"S","start":18}]}
  [1]
  $ printf "S <- '' / 'a'" | pegtool lint /dev/stdin
  {"warnings":[{"by":[5,7],"column":11,"end":13,"kind":"NeverTried","line":1,"proved":true,"rule":"S","start":10}]}
  [1]

The rule T never fails, so the alternative after its call is never tried.

  $ printf "S <- 'a' / T / 'c'\nT <- 'b'*" | pegtool lint /dev/stdin
  {"warnings":[{"by":[11,12],"column":16,"end":18,"kind":"NeverTried","line":1,"proved":true,"rule":"S","start":15}]}
  [1]

A choice in parentheses never fails if its last alternative never fails; its span is without the parentheses.

  $ printf "S <- ('a' / '') / 'b'" | pegtool lint /dev/stdin
  {"warnings":[{"by":[6,14],"column":19,"end":21,"kind":"NeverTried","line":1,"proved":true,"rule":"S","start":18}]}
  [1]

A count from zero never fails, also in a choice that is an item of a sequence.

  $ printf "S <- 'x' ('a'{0,2} / 'b') 'y'" | pegtool lint /dev/stdin
  {"warnings":[{"by":[10,18],"column":22,"end":24,"kind":"NeverTried","line":1,"proved":true,"rule":"S","start":21}]}
  [1]

An alternative that never fails may be the last one, since no other one is after it.

  $ printf "S <- 'a' / 'b'*" | pegtool lint /dev/stdin
  {"warnings":[]}

A plus, a sequence with a literal, a predicate and a count from one can all fail.

  $ printf "S <- 'a'+ / 'b'" | pegtool lint /dev/stdin
  {"warnings":[]}
  $ printf "S <- 'a' 'b'* / 'c'" | pegtool lint /dev/stdin
  {"warnings":[]}
  $ printf "S <- !'b' / &'b'" | pegtool lint /dev/stdin
  {"warnings":[]}
  $ printf "S <- 'a'{1,2} / 'b'" | pegtool lint /dev/stdin
  {"warnings":[]}
