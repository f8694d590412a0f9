The warning NeverFollows: an item that fails wherever the item before it ends. The item before is no star and no plus.

After `!.` the text has ended, and a literal needs a byte (Ford 2004, section 3.3).

  $ printf "S <- 'x' !. 'y'" | pegtool lint /dev/stdin
  {"warnings":[{"by":[9,11],"column":13,"end":15,"kind":"NeverFollows","line":1,"proved":true,"rule":"S","start":12}]}
  [1]

The rule E is such a predicate, so its calls match at the end of the text alone.

  $ printf "S <- 'x' E 'y'\nE <- !." | pegtool lint /dev/stdin
  {"warnings":[{"by":[9,10],"column":12,"end":14,"kind":"NeverFollows","line":1,"proved":true,"rule":"S","start":11}]}
  [1]

The predicate fails before the sign that the item needs.

  $ printf "S <- !'#' '#'" | pegtool lint /dev/stdin
  {"warnings":[{"by":[5,9],"column":11,"end":13,"kind":"NeverFollows","line":1,"proved":true,"rule":"S","start":10}]}
  [1]
  $ printf "S <- !('a' / 'b') [ab]" | pegtool lint /dev/stdin
  {"warnings":[{"by":[5,17],"column":19,"end":22,"kind":"NeverFollows","line":1,"proved":true,"rule":"S","start":18}]}
  [1]

The rule W ends before a byte that is no letter, or at the end of the text.

  $ printf "S <- W 'x'\nW <- [a-z]+" | pegtool lint /dev/stdin
  {"warnings":[{"by":[5,6],"column":8,"end":10,"kind":"NeverFollows","line":1,"proved":true,"rule":"S","start":7}]}
  [1]

The rule D needs a digit, which the predicate excludes, and then takes others.

  $ printf "S <- ![0-9] D\nD <- [0-9]{2} 'x'" | pegtool lint /dev/stdin
  {"warnings":[{"by":[5,11],"column":13,"end":13,"kind":"NeverFollows","line":1,"proved":true,"rule":"S","start":12}]}
  [1]

Nothing comes after the predicate here, and an x doesn't begin with the sign that is excluded.

  $ printf "S <- 'x' !." | pegtool lint /dev/stdin
  {"warnings":[]}
  $ printf "S <- !'#' 'x'" | pegtool lint /dev/stdin
  {"warnings":[]}

The predicate excludes two signs in a row, so one sign may follow.

  $ printf "S <- !'##' '#'" | pegtool lint /dev/stdin
  {"warnings":[]}

A dot, or a class with other bytes, may match where the predicate does.

  $ printf "S <- !'#' ." | pegtool lint /dev/stdin
  {"warnings":[]}
  $ printf "S <- !'#' [#x]" | pegtool lint /dev/stdin
  {"warnings":[]}

The rule W may end after a digit, and then a letter may follow. In the second grammar a digit may follow the letters.

  $ printf "S <- W 'x'\nW <- [a-z]+ / [0-9]" | pegtool lint /dev/stdin
  {"warnings":[]}
  $ printf "S <- W [0-9]\nW <- [a-z]+" | pegtool lint /dev/stdin
  {"warnings":[]}

The empty class fails everywhere, so it has no warning after other items either.

  $ printf "S <- T / 'x'\nT <- !'a' F\nF <- []" | pegtool lint /dev/stdin
  {"warnings":[{"column":6,"end":6,"kind":"NeverMatches","line":1,"proved":true,"rule":"S","start":5},{"column":6,"end":24,"kind":"NeverMatches","line":2,"proved":true,"rule":"T","start":18},{"column":11,"end":24,"kind":"NeverMatches","line":2,"proved":true,"rule":"T","start":23}]}
  [1]

What docs/LINT.md says that isn't found: an item after an and-predicate, a dot after `!.`, and an item that isn't next
to the predicate.

  $ printf "S <- &'a' 'b'" | pegtool lint /dev/stdin
  {"warnings":[]}
  $ printf "S <- 'x' !. ." | pegtool lint /dev/stdin
  {"warnings":[]}
  $ printf "S <- !'a' !'b' 'a'" | pegtool lint /dev/stdin
  {"warnings":[]}
