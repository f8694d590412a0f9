The habit HoldsLineEnd: a literal or class with a raw line feed or carriage return in it.

Literals in either quotes and classes are reported with their whole spans over the line end.

  $ printf "S <- 'a\nb'" | pegtool lint /dev/stdin
  {"warnings":[{"column":6,"end":10,"kind":"HoldsLineEnd","line":1,"proved":false,"rule":"S","start":5}]}
  [1]
  $ printf 'S <- [\n]' | pegtool lint /dev/stdin
  {"warnings":[{"column":6,"end":8,"kind":"HoldsLineEnd","line":1,"proved":false,"rule":"S","start":5}]}
  [1]
  $ printf 'S <- "a\r"' | pegtool lint /dev/stdin
  {"warnings":[{"column":6,"end":9,"kind":"HoldsLineEnd","line":1,"proved":false,"rule":"S","start":5}]}
  [1]
  $ printf "S <- 'a' '\r\n'" | pegtool lint /dev/stdin
  {"warnings":[{"column":10,"end":13,"kind":"HoldsLineEnd","line":1,"proved":false,"rule":"S","start":9}]}
  [1]
  $ printf 'S <- [a-z\n0]' | pegtool lint /dev/stdin
  {"warnings":[{"column":6,"end":12,"kind":"HoldsLineEnd","line":1,"proved":false,"rule":"S","start":5}]}
  [1]

An escape is how a line end is meant to be written, so it has no warning.

  $ printf "S <- 'a\\\\nb'" | pegtool lint /dev/stdin
  {"warnings":[]}
  $ printf 'S <- [\\n]' | pegtool lint /dev/stdin
  {"warnings":[]}
  $ printf 'S <- [\\r\\12]' | pegtool lint /dev/stdin
  {"warnings":[]}

A line end between literals or of a comment isn't in a literal; a tab is no line end.

  $ printf "S <- 'a'\n'b'" | pegtool lint /dev/stdin
  {"warnings":[]}
  $ printf "S <- 'a' # 'x\n" | pegtool lint /dev/stdin
  {"warnings":[]}
  $ printf "S <- 'a\tb'" | pegtool lint /dev/stdin
  {"warnings":[]}
