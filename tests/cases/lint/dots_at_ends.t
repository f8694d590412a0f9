The habit AnyAtEnd: a dot at the end of a rule, which other notations read as the end of the rule.

The dot is the last item before the next rule, after an item of its sequence.

  $ printf "S <- T 'a' .\nT <- 'b'" | pegtool lint /dev/stdin
  {"warnings":[{"column":12,"end":12,"kind":"AnyAtEnd","line":1,"proved":false,"rule":"S","start":11}]}
  [1]
  $ printf "S <- 'a' / 'b' T .\nT <- 'c'" | pegtool lint /dev/stdin
  {"warnings":[{"column":18,"end":18,"kind":"AnyAtEnd","line":1,"proved":false,"rule":"S","start":17}]}
  [1]

A comment after the dot or no blank before it makes no difference.

  $ printf "S <- T .# c\nT <- 'b'" | pegtool lint /dev/stdin
  {"warnings":[{"column":8,"end":8,"kind":"AnyAtEnd","line":1,"proved":false,"rule":"S","start":7}]}
  [1]
  $ printf "S <- 'a' T.\nT <- 'b'" | pegtool lint /dev/stdin
  {"warnings":[{"column":11,"end":11,"kind":"AnyAtEnd","line":1,"proved":false,"rule":"S","start":10}]}
  [1]

Each rule that ends with such a dot has a warning of its own.

  $ printf "S <- T U .\nT <- 't' .\nU <- 'u'" | pegtool lint /dev/stdin
  {"warnings":[{"column":10,"end":10,"kind":"AnyAtEnd","line":1,"proved":false,"rule":"S","start":9},{"column":10,"end":21,"kind":"AnyAtEnd","line":2,"proved":false,"rule":"T","start":20}]}
  [1]

A dot at the end of the file has no warning, since no rule follows it.

  $ printf "S <- 'a' ." | pegtool lint /dev/stdin
  {"warnings":[]}

A dot alone, in a predicate, repeated, in parentheses or before an item has no warning.

  $ printf "S <- T U\nT <- .\nU <- 'u'" | pegtool lint /dev/stdin
  {"warnings":[]}
  $ printf "S <- T !.\nT <- 't'" | pegtool lint /dev/stdin
  {"warnings":[]}
  $ printf "S <- T .*\nT <- 't'" | pegtool lint /dev/stdin
  {"warnings":[]}
  $ printf "S <- T (.)\nT <- 't'" | pegtool lint /dev/stdin
  {"warnings":[]}
  $ printf "S <- T . 'x'\nT <- 't'" | pegtool lint /dev/stdin
  {"warnings":[]}

A dot after a predicate or another dot is common, so it has no warning.

  $ printf "S <- !T .\nT <- 't'" | pegtool lint /dev/stdin
  {"warnings":[]}
  $ printf "S <- &T .\nT <- 't'" | pegtool lint /dev/stdin
  {"warnings":[]}
  $ printf "S <- T . .\nT <- 't'" | pegtool lint /dev/stdin
  {"warnings":[]}

Before a closing parenthesis the dot isn't at the end of the rule: more than spacing comes before the next name.

  $ printf "S <- (T .)\nT <- 'b'" | pegtool lint /dev/stdin
  {"warnings":[]}
  $ printf "S <- 'a' / (T .) # c\nT <- 'b'" | pegtool lint /dev/stdin
  {"warnings":[]}
  $ printf "S <- (T . # c\n)\nT <- 'b'" | pegtool lint /dev/stdin
  {"warnings":[]}

A parenthesis in a comment closes nothing, so the dot is still at the end of the rule.

  $ printf "S <- T . # c)\nT <- 'b'" | pegtool lint /dev/stdin
  {"warnings":[{"column":8,"end":8,"kind":"AnyAtEnd","line":1,"proved":false,"rule":"S","start":7}]}
  [1]
