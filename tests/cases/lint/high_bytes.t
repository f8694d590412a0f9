The habit HighBytesInClass: a class with a raw byte over 127, as letters of UTF-8 have two bytes or more.

A class with a letter of UTF-8, or with any other byte over 127, is reported.

  $ printf 'S <- [\303\251]' | pegtool lint /dev/stdin
  {"warnings":[{"column":6,"end":9,"kind":"HighBytesInClass","line":1,"proved":false,"rule":"S","start":5}]}
  [1]
  $ printf 'S <- [a\377]' | pegtool lint /dev/stdin
  {"warnings":[{"column":6,"end":9,"kind":"HighBytesInClass","line":1,"proved":false,"rule":"S","start":5}]}
  [1]
  $ printf 'S <- [\200-\201]' | pegtool lint /dev/stdin
  {"warnings":[{"column":6,"end":10,"kind":"HighBytesInClass","line":1,"proved":false,"rule":"S","start":5}]}
  [1]
  $ printf "S <- 'a' [\302\265]" | pegtool lint /dev/stdin
  {"warnings":[{"column":10,"end":13,"kind":"HighBytesInClass","line":1,"proved":false,"rule":"S","start":9}]}
  [1]
  $ printf 'S <- [\\x41\351]' | pegtool lint /dev/stdin
  {"warnings":[{"column":6,"end":12,"kind":"HighBytesInClass","line":1,"proved":false,"rule":"S","start":5}]}
  [1]

A literal holds a letter as a sequence, and an escape shows that a byte is meant.

  $ printf "S <- '\303\251'" | pegtool lint /dev/stdin
  {"warnings":[]}
  $ printf 'S <- [\\xC3]' | pegtool lint /dev/stdin
  {"warnings":[]}
  $ printf 'S <- [\\200]' | pegtool lint /dev/stdin
  {"warnings":[]}

Byte 127 isn't over 127, and the bytes of a comment aren't in a class.

  $ printf 'S <- [\177]' | pegtool lint /dev/stdin
  {"warnings":[]}
  $ printf "S <- 'a' # \303\251\n" | pegtool lint /dev/stdin
  {"warnings":[]}
