The warning ReversedRange: a range whose first byte is greater than its last, so that it holds no byte.

The letter z is greater than a, so the range holds no byte; another range may stand before it.

  $ printf 'S <- [z-a]' | pegtool lint /dev/stdin
  {"warnings":[{"column":7,"end":9,"kind":"ReversedRange","line":1,"proved":true,"rule":"S","start":6}]}
  [1]
  $ printf 'S <- [0-9z-a]' | pegtool lint /dev/stdin
  {"warnings":[{"column":10,"end":12,"kind":"ReversedRange","line":1,"proved":true,"rule":"S","start":9}]}
  [1]

The class holds no byte, so the sequence never matches, which is a second warning.

  $ printf "S <- [z-a] 'x'" | pegtool lint /dev/stdin
  {"warnings":[{"column":6,"end":14,"kind":"NeverMatches","line":1,"proved":true,"rule":"S","start":5},{"column":7,"end":9,"kind":"ReversedRange","line":1,"proved":true,"rule":"S","start":6}]}
  [1]

The ends are compared as bytes, also where they are escapes: 65 and 64, 93 and 91, 97 and 65.

  $ printf 'S <- [\\x41-\\x40]' | pegtool lint /dev/stdin
  {"warnings":[{"column":7,"end":15,"kind":"ReversedRange","line":1,"proved":true,"rule":"S","start":6}]}
  [1]
  $ printf 'S <- [\\]-\\[]' | pegtool lint /dev/stdin
  {"warnings":[{"column":7,"end":11,"kind":"ReversedRange","line":1,"proved":true,"rule":"S","start":6}]}
  [1]
  $ printf "S <- 'a' / [a-\\\\101]" | pegtool lint /dev/stdin
  {"warnings":[{"column":13,"end":18,"kind":"ReversedRange","line":1,"proved":true,"rule":"S","start":12}]}
  [1]

Two ranges of one class are reported one by one: b to a, and z to y.

  $ printf 'S <- [b-az-y]' | pegtool lint /dev/stdin
  {"warnings":[{"column":7,"end":9,"kind":"ReversedRange","line":1,"proved":true,"rule":"S","start":6},{"column":10,"end":12,"kind":"ReversedRange","line":1,"proved":true,"rule":"S","start":9}]}
  [1]

The part of the star never matches, so the star has no effect, too.

  $ printf "S <- ('x' [9-0])*" | pegtool lint /dev/stdin
  {"warnings":[{"column":6,"end":17,"kind":"NoEffect","line":1,"proved":true,"rule":"S","start":5},{"column":12,"end":14,"kind":"ReversedRange","line":1,"proved":true,"rule":"S","start":11}]}
  [1]

The first byte is at most the last one in each of these ranges.

  $ printf 'S <- [a-z]' | pegtool lint /dev/stdin
  {"warnings":[]}
  $ printf 'S <- [a-a]' | pegtool lint /dev/stdin
  {"warnings":[]}
  $ printf 'S <- [--9]' | pegtool lint /dev/stdin
  {"warnings":[]}
  $ printf 'S <- [a-\\x7A]' | pegtool lint /dev/stdin
  {"warnings":[]}
  $ printf 'S <- [\\0-\\xFF]' | pegtool lint /dev/stdin
  {"warnings":[]}

An escaped dash and a dash at the start of a class make no range.

  $ printf 'S <- [z\\x2Da]' | pegtool lint /dev/stdin
  {"warnings":[]}
  $ printf 'S <- [-a]' | pegtool lint /dev/stdin
  {"warnings":[]}

Neither a literal nor a comment is a class, so both have no ranges.

  $ printf "S <- 'z-a'" | pegtool lint /dev/stdin
  {"warnings":[]}
  $ printf "S <- 'a' # [z-a]\n" | pegtool lint /dev/stdin
  {"warnings":[]}
