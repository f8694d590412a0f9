The habit RangeOverSigns: a range of three characters that goes over signs, though its ends look like other ranges.

The six signs between Z and a are in the range, and so is every other byte between its ends.

  $ printf 'S <- [A-z]' | pegtool lint /dev/stdin
  {"warnings":[{"column":7,"end":9,"kind":"RangeOverSigns","line":1,"proved":false,"rule":"S","start":6}]}
  [1]
  $ printf 'S <- [x0-f]' | pegtool lint /dev/stdin
  {"warnings":[{"column":8,"end":10,"kind":"RangeOverSigns","line":1,"proved":false,"rule":"S","start":7}]}
  [1]
  $ printf 'S <- [0-Z_]' | pegtool lint /dev/stdin
  {"warnings":[{"column":7,"end":9,"kind":"RangeOverSigns","line":1,"proved":false,"rule":"S","start":6}]}
  [1]

A dash between two signs makes a range from one to the other.

  $ printf 'S <- [0-9+-.]' | pegtool lint /dev/stdin
  {"warnings":[{"column":10,"end":12,"kind":"RangeOverSigns","line":1,"proved":false,"rule":"S","start":9}]}
  [1]
  $ printf 'S <- [*-/]' | pegtool lint /dev/stdin
  {"warnings":[{"column":7,"end":9,"kind":"RangeOverSigns","line":1,"proved":false,"rule":"S","start":6}]}
  [1]

Each is a habit.

  $ printf 'S <- [A-z]' | pegtool lint /dev/stdin --proved
  {"warnings":[]}

Ranges of one kind, of all signs before the digits, and of all printable characters have none.

  $ printf 'S <- [A-Za-z0-9_]' | pegtool lint /dev/stdin
  {"warnings":[]}
  $ printf 'S <- [!-/:-@]' | pegtool lint /dev/stdin
  {"warnings":[]}
  $ printf 'S <- [!-~] [ -~]' | pegtool lint /dev/stdin
  {"warnings":[]}

An escape shows what is meant, and a dash at the start is no range.

  $ printf 'S <- [A-\\x7A]' | pegtool lint /dev/stdin
  {"warnings":[]}
  $ printf 'S <- [-+.]' | pegtool lint /dev/stdin
  {"warnings":[]}

A reversed range has a proved warning instead.

  $ printf 'S <- [z-A]' | pegtool lint /dev/stdin
  {"warnings":[{"column":7,"end":9,"kind":"ReversedRange","line":1,"proved":true,"rule":"S","start":6}]}
  [1]
