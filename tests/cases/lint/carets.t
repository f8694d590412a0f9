The habit ClassBeginsWithCaret: a class that begins with a caret, which is no complement in this notation.

The class begins with `[^`, alone or with other bytes, and after other items.

  $ printf 'S <- [^x]' | pegtool lint /dev/stdin
  {"warnings":[{"column":6,"end":9,"kind":"ClassBeginsWithCaret","line":1,"proved":false,"rule":"S","start":5}]}
  [1]
  $ printf 'S <- [^]' | pegtool lint /dev/stdin
  {"warnings":[{"column":6,"end":8,"kind":"ClassBeginsWithCaret","line":1,"proved":false,"rule":"S","start":5}]}
  [1]
  $ printf "S <- 'a' [^b]" | pegtool lint /dev/stdin
  {"warnings":[{"column":10,"end":13,"kind":"ClassBeginsWithCaret","line":1,"proved":false,"rule":"S","start":9}]}
  [1]
  $ printf 'S <- [^^]' | pegtool lint /dev/stdin
  {"warnings":[{"column":6,"end":9,"kind":"ClassBeginsWithCaret","line":1,"proved":false,"rule":"S","start":5},{"column":8,"end":8,"kind":"RepeatedByte","line":1,"proved":false,"rule":"S","start":7}]}
  [1]
  $ printf "S <- [^a-z]+ 'A'" | pegtool lint /dev/stdin
  {"warnings":[{"column":6,"end":11,"kind":"ClassBeginsWithCaret","line":1,"proved":false,"rule":"S","start":5}]}
  [1]

A caret that isn't the first byte, or is written as an escape, has no warning.

  $ printf 'S <- [x^]' | pegtool lint /dev/stdin
  {"warnings":[]}
  $ printf 'S <- [\\x5Ex]' | pegtool lint /dev/stdin
  {"warnings":[]}
  $ printf 'S <- [\\136x]' | pegtool lint /dev/stdin
  {"warnings":[]}
  $ printf 'S <- [ ^]' | pegtool lint /dev/stdin
  {"warnings":[]}
  $ printf 'S <- [\\[^]' | pegtool lint /dev/stdin
  {"warnings":[]}

The bytes of a literal are no class, even if they look like one.

  $ printf "S <- '[^x]'" | pegtool lint /dev/stdin
  {"warnings":[]}
