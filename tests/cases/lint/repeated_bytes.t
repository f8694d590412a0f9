The habit RepeatedByte: a byte or a range of a class that has a byte of an earlier one.

A comma between ranges is a byte of the class, and the second one is repeated.

  $ printf 'S <- [0-9,a-f,A-F]' | pegtool lint /dev/stdin
  {"warnings":[{"column":14,"end":14,"kind":"RepeatedByte","line":1,"proved":false,"rule":"S","start":13}]}
  [1]

A class of regular expressions with a name is a class of its letters here, and `a` is there twice, and so is the colon.

  $ printf 'S <- [:alpha:]' | pegtool lint /dev/stdin
  {"warnings":[{"column":12,"end":12,"kind":"RepeatedByte","line":1,"proved":false,"rule":"S","start":11},{"column":13,"end":13,"kind":"RepeatedByte","line":1,"proved":false,"rule":"S","start":12}]}
  [1]

A byte within an earlier range is repeated, and so is a range that overlaps one.

  $ printf 'S <- [a-z_x]' | pegtool lint /dev/stdin
  {"warnings":[{"column":11,"end":11,"kind":"RepeatedByte","line":1,"proved":false,"rule":"S","start":10}]}
  [1]
  $ printf 'S <- [a-mm-z]' | pegtool lint /dev/stdin
  {"warnings":[{"column":10,"end":12,"kind":"RepeatedByte","line":1,"proved":false,"rule":"S","start":9}]}
  [1]

Two spellings of a byte are the same byte: an escape stands for what it denotes.

  $ printf 'S <- [A\\x41]' | pegtool lint /dev/stdin
  {"warnings":[{"column":8,"end":11,"kind":"RepeatedByte","line":1,"proved":false,"rule":"S","start":7}]}
  [1]

Each repeated byte has a warning of its own.

  $ printf 'S <- [aaa]' | pegtool lint /dev/stdin
  {"warnings":[{"column":8,"end":8,"kind":"RepeatedByte","line":1,"proved":false,"rule":"S","start":7},{"column":9,"end":9,"kind":"RepeatedByte","line":1,"proved":false,"rule":"S","start":8}]}
  [1]

It is a habit.

  $ printf 'S <- [aa]' | pegtool lint /dev/stdin --proved
  {"warnings":[]}

Ranges side by side have no byte in common, and a reversed range has no byte at all.

  $ printf 'S <- [a-mn-z]' | pegtool lint /dev/stdin
  {"warnings":[]}
  $ printf 'S <- [A-Za-z0-9_]' | pegtool lint /dev/stdin
  {"warnings":[]}
  $ printf 'S <- [mz-am]' | pegtool lint /dev/stdin --proved
  {"warnings":[{"column":8,"end":10,"kind":"ReversedRange","line":1,"proved":true,"rule":"S","start":7}]}
  [1]

The same byte in two classes, or twice in a literal, has no warning.

  $ printf 'S <- [a] [a]' | pegtool lint /dev/stdin
  {"warnings":[]}
  $ printf "S <- 'aa'" | pegtool lint /dev/stdin
  {"warnings":[]}
