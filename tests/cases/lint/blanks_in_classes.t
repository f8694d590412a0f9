The habit BlanksInClass: a class with a blank after its bracket and another one before its end.

Both blanks belong to the class, so it matches a blank, which is rarely meant. The second blank is a repeated byte, too.

  $ printf 'S <- [ T ]' | pegtool lint /dev/stdin
  {"warnings":[{"column":6,"end":10,"kind":"BlanksInClass","line":1,"proved":false,"rule":"S","start":5},{"column":9,"end":9,"kind":"RepeatedByte","line":1,"proved":false,"rule":"S","start":8}]}
  [1]
  $ printf 'S <- [ a-z ]' | pegtool lint /dev/stdin
  {"warnings":[{"column":6,"end":12,"kind":"BlanksInClass","line":1,"proved":false,"rule":"S","start":5},{"column":11,"end":11,"kind":"RepeatedByte","line":1,"proved":false,"rule":"S","start":10}]}
  [1]
  $ printf "S <- 'a' [ b ]" | pegtool lint /dev/stdin
  {"warnings":[{"column":10,"end":14,"kind":"BlanksInClass","line":1,"proved":false,"rule":"S","start":9},{"column":13,"end":13,"kind":"RepeatedByte","line":1,"proved":false,"rule":"S","start":12}]}
  [1]
  $ printf 'S <- [  x  ]' | pegtool lint /dev/stdin
  {"warnings":[{"column":6,"end":12,"kind":"BlanksInClass","line":1,"proved":false,"rule":"S","start":5},{"column":8,"end":8,"kind":"RepeatedByte","line":1,"proved":false,"rule":"S","start":7},{"column":10,"end":10,"kind":"RepeatedByte","line":1,"proved":false,"rule":"S","start":9},{"column":11,"end":11,"kind":"RepeatedByte","line":1,"proved":false,"rule":"S","start":10}]}
  [1]
  $ printf 'S <- [ \\n ]' | pegtool lint /dev/stdin
  {"warnings":[{"column":6,"end":11,"kind":"BlanksInClass","line":1,"proved":false,"rule":"S","start":5},{"column":10,"end":10,"kind":"RepeatedByte","line":1,"proved":false,"rule":"S","start":9}]}
  [1]

A blank on one side only has no warning, nor has a single blank.

  $ printf 'S <- [ T]' | pegtool lint /dev/stdin
  {"warnings":[]}
  $ printf 'S <- [T ]' | pegtool lint /dev/stdin
  {"warnings":[]}
  $ printf 'S <- [ ]' | pegtool lint /dev/stdin
  {"warnings":[]}

Two blanks with nothing between them aren't around anything, but the second one is repeated.

  $ printf 'S <- [  ]' | pegtool lint /dev/stdin
  {"warnings":[{"column":8,"end":8,"kind":"RepeatedByte","line":1,"proved":false,"rule":"S","start":7}]}
  [1]

An escape shows that the blank is meant, and a literal is no class.

  $ printf 'S <- [\\x20T]' | pegtool lint /dev/stdin
  {"warnings":[]}
  $ printf "S <- ' T '" | pegtool lint /dev/stdin
  {"warnings":[]}
