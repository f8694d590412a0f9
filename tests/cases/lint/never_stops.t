The warning NeverStops: an item that fails wherever the repetition before it ends. Repetitions are greedy (Ford 2004,
section 3.3).

The star of dots takes the whole text, so nothing is left for the literal.

  $ printf "S <- .* 'x'" | pegtool lint /dev/stdin
  {"warnings":[{"by":[5,7],"column":9,"end":11,"kind":"NeverStops","line":1,"proved":true,"rule":"S","start":8}]}
  [1]
  $ printf "S <- '(' .* ')'" | pegtool lint /dev/stdin
  {"warnings":[{"by":[9,11],"column":13,"end":15,"kind":"NeverStops","line":1,"proved":true,"rule":"S","start":12}]}
  [1]

Where the repetition ends no byte of it follows, but the next item begins with one.

  $ printf "S <- 'a'+ 'a'" | pegtool lint /dev/stdin
  {"warnings":[{"by":[5,9],"column":11,"end":13,"kind":"NeverStops","line":1,"proved":true,"rule":"S","start":10}]}
  [1]
  $ printf "S <- [a-z]* 'end'" | pegtool lint /dev/stdin
  {"warnings":[{"by":[5,11],"column":13,"end":17,"kind":"NeverStops","line":1,"proved":true,"rule":"S","start":12}]}
  [1]

The rule D begins with the digit 5, which the repetition has taken.

  $ printf "S <- [0-9]+ D\nD <- [5] 'x'" | pegtool lint /dev/stdin
  {"warnings":[{"by":[5,11],"column":13,"end":13,"kind":"NeverStops","line":1,"proved":true,"rule":"S","start":12}]}
  [1]

The predicate needs a blank where the star of blanks has ended, so it fails.

  $ printf "S <- ' '* &' ' 'x'" | pegtool lint /dev/stdin
  {"warnings":[{"by":[5,9],"column":11,"end":14,"kind":"NeverStops","line":1,"proved":true,"rule":"S","start":10}]}
  [1]

The repetition ends before a digit, before x and at the end of the text.

  $ printf 'S <- [a-z]* [0-9]' | pegtool lint /dev/stdin
  {"warnings":[]}
  $ printf "S <- (!'x' .)* 'x'" | pegtool lint /dev/stdin
  {"warnings":[]}
  $ printf 'S <- .* !.' | pegtool lint /dev/stdin
  {"warnings":[]}

A rule, a choice and a count are followed, too.

  $ printf "S <- D* D\nD <- [0-9]" | pegtool lint /dev/stdin
  {"warnings":[{"by":[5,7],"column":9,"end":9,"kind":"NeverStops","line":1,"proved":true,"rule":"S","start":8}]}
  [1]
  $ printf "S <- ('a' / 'b')* 'a'" | pegtool lint /dev/stdin
  {"warnings":[{"by":[5,17],"column":19,"end":21,"kind":"NeverStops","line":1,"proved":true,"rule":"S","start":18}]}
  [1]
  $ printf "S <- D* D{4}\nD <- [0-9] / [a-f]" | pegtool lint /dev/stdin
  {"warnings":[{"by":[5,7],"column":9,"end":12,"kind":"NeverStops","line":1,"proved":true,"rule":"S","start":8}]}
  [1]

The choice takes a digit, an underscore, or neither, so a letter may follow the star.

  $ printf "S <- ([0-9] / '_')* [a-z]" | pegtool lint /dev/stdin
  {"warnings":[]}
  $ printf "S <- ([0-9] / '_')* [0-9a-z]" | pegtool lint /dev/stdin
  {"warnings":[]}

An optional part and a count end after their greatest number, and a may follow them.

  $ printf "S <- 'a'? 'a'" | pegtool lint /dev/stdin
  {"warnings":[]}
  $ printf "S <- 'a'{0,3} 'a'" | pegtool lint /dev/stdin
  {"warnings":[]}

The star of `'ab'` ends before a byte a that no b follows.

  $ printf "S <- 'ab'* 'a'" | pegtool lint /dev/stdin
  {"warnings":[]}

A literal of several bytes is compared with the literal that is repeated.

  $ printf "S <- 'ab'* 'abc'" | pegtool lint /dev/stdin
  {"warnings":[{"by":[5,10],"column":12,"end":16,"kind":"NeverStops","line":1,"proved":true,"rule":"S","start":11}]}
  [1]

What docs/LINT.md says that isn't found: an item after a repetition over a sequence that may fail after its first byte.
The star takes each ab, so that none is left for the literal.

  $ printf "S <- ('a' 'b')* 'ab'" | pegtool lint /dev/stdin
  {"warnings":[]}
