The option --proved of lint, which leaves out the habits of other notations.

A caret at the start of a class is a habit, so it isn't printed with the option.

  $ printf 'S <- [^x]' | pegtool lint /dev/stdin
  {"warnings":[{"column":6,"end":9,"kind":"ClassBeginsWithCaret","line":1,"proved":false,"rule":"S","start":5}]}
  [1]
  $ printf 'S <- [^x]' | pegtool lint /dev/stdin --proved
  {"warnings":[]}

A reversed range is proved to be empty, so its warning is printed with the option, too.

  $ printf 'S <- [^z-a]' | pegtool lint /dev/stdin
  {"warnings":[{"column":6,"end":11,"kind":"ClassBeginsWithCaret","line":1,"proved":false,"rule":"S","start":5},{"column":8,"end":10,"kind":"ReversedRange","line":1,"proved":true,"rule":"S","start":7}]}
  [1]
  $ printf 'S <- [^z-a]' | pegtool lint /dev/stdin --proved
  {"warnings":[{"column":8,"end":10,"kind":"ReversedRange","line":1,"proved":true,"rule":"S","start":7}]}
  [1]

The empty alternative is a habit; that the next one is never tried is proved.

  $ printf "S <- 'a' // 'b'" | pegtool lint /dev/stdin
  {"warnings":[{"column":11,"end":10,"kind":"EmptyAlternative","line":1,"proved":false,"rule":"S","start":10},{"by":[10,10],"column":13,"end":15,"kind":"NeverTried","line":1,"proved":true,"rule":"S","start":12}]}
  [1]
  $ printf "S <- 'a' // 'b'" | pegtool lint /dev/stdin --proved
  {"warnings":[{"by":[10,10],"column":13,"end":15,"kind":"NeverTried","line":1,"proved":true,"rule":"S","start":12}]}
  [1]

A grammar without warnings has an empty list with and without the option.

  $ printf 'S <- [a-z]' | pegtool lint /dev/stdin
  {"warnings":[]}
  $ printf 'S <- [a-z]' | pegtool lint /dev/stdin --proved
  {"warnings":[]}

A dot at the end of a rule is a habit, so the option leaves it out.

  $ printf "S <- T .\nT <- 'b'\n" | pegtool lint /dev/stdin
  {"warnings":[{"column":8,"end":8,"kind":"AnyAtEnd","line":1,"proved":false,"rule":"S","start":7}]}
  [1]
  $ printf "S <- T .\nT <- 'b'\n" | pegtool lint /dev/stdin --proved
  {"warnings":[]}
