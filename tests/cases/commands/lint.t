The command lint: its line, its statuses and its options. Warnings are worked out by hand from docs/LINT.md.

A grammar without warnings has an empty list and status 0, from each start that calls all rules.

  $ echo "S <- 'a' S / 'b'" | pegtool lint /dev/stdin
  {"warnings":[]}

  $ printf "S <- T\nT <- U\nU <- 'u'\n" > row.peg
  $ pegtool lint row.peg
  {"warnings":[]}

  $ pegtool lint row.peg --start S
  {"warnings":[]}

  $ printf "T <- 'a' / S\nS <- 'b' T\n" | pegtool lint /dev/stdin --start S
  {"warnings":[]}

Rules that the start doesn't call are unused, and there is a warning for each.

  $ printf "S <- T\nT <- 'u'\n" | pegtool lint /dev/stdin --start T
  {"warnings":[{"column":1,"end":1,"kind":"UnusedRule","line":1,"proved":true,"rule":"S","start":0}]}
  [1]

  $ printf "S <- T \nT <- U\nU <- 'u'\n" | pegtool lint /dev/stdin --start U
  {"warnings":[{"column":1,"end":1,"kind":"UnusedRule","line":1,"proved":true,"rule":"S","start":0},{"column":1,"end":9,"kind":"UnusedRule","line":2,"proved":true,"rule":"T","start":8}]}
  [1]

The start changes which rules are unused, and no other warning. The longer literal is after its prefix, nothing is left
after the star of dots, and the last alternative is there twice.

  $ printf "S <- 'a' / 'ab'\nT <- .* 'x' / S / S\n" > start.peg
  $ pegtool lint start.peg
  {"warnings":[{"by":[5,8],"column":12,"end":15,"kind":"Shadowed","line":1,"proved":true,"rule":"S","start":11},{"column":1,"end":17,"kind":"UnusedRule","line":2,"proved":true,"rule":"T","start":16},{"by":[21,23],"column":9,"end":27,"kind":"NeverStops","line":2,"proved":true,"rule":"T","start":24},{"by":[30,31],"column":19,"end":35,"kind":"SameAlternative","line":2,"proved":true,"rule":"T","start":34}]}
  [1]
  $ pegtool lint start.peg --start T
  {"warnings":[{"by":[5,8],"column":12,"end":15,"kind":"Shadowed","line":1,"proved":true,"rule":"S","start":11},{"by":[21,23],"column":9,"end":27,"kind":"NeverStops","line":2,"proved":true,"rule":"T","start":24},{"by":[30,31],"column":19,"end":35,"kind":"SameAlternative","line":2,"proved":true,"rule":"T","start":34}]}
  [1]

The first byte of a range must not be greater than its last, or it holds no byte.

  $ echo "Digit <- [9-0]" | pegtool lint /dev/stdin
  {"warnings":[{"column":11,"end":13,"kind":"ReversedRange","line":1,"proved":true,"rule":"Digit","start":10}]}
  [1]

The longer operator fails wherever the shorter one before it fails (Ford 2004, section 3.3).

  $ echo "Op <- '<' / '<='" | pegtool lint /dev/stdin
  {"warnings":[{"by":[6,9],"column":13,"end":16,"kind":"Shadowed","line":1,"proved":true,"rule":"Op","start":12}]}
  [1]

A star over any byte stops only at the end, where no literal matches.

  $ echo "Comment <- '/*' .* '*/'" | pegtool lint /dev/stdin
  {"warnings":[{"by":[16,18],"column":20,"end":23,"kind":"NeverStops","line":1,"proved":true,"rule":"Comment","start":19}]}
  [1]

An optional never fails, so the alternative after it is never tried.

  $ echo "Sign <- '+'? / '-'" | pegtool lint /dev/stdin
  {"warnings":[{"by":[8,12],"column":16,"end":18,"kind":"NeverTried","line":1,"proved":true,"rule":"Sign","start":15}]}
  [1]

A negated optional always fails, and so does the sequence that it is part of.

  $ printf "List <- Item* !Item?\nItem <- 'x'\n" | pegtool lint /dev/stdin
  {"warnings":[{"column":9,"end":20,"kind":"NeverMatches","line":1,"proved":true,"rule":"List","start":8},{"column":15,"end":20,"kind":"AlwaysFails","line":1,"proved":true,"rule":"List","start":14}]}
  [1]

A caret at the start of a class is a habit, so it isn't among the proved warnings.

  $ echo "Text <- [^x]" > caret.peg
  $ pegtool lint caret.peg
  {"warnings":[{"column":9,"end":12,"kind":"ClassBeginsWithCaret","line":1,"proved":false,"rule":"Text","start":8}]}
  [1]

  $ pegtool lint caret.peg --proved
  {"warnings":[]}

A reversed range in such a class is a proved warning.

  $ echo "Text <- [^z-a]" | pegtool lint /dev/stdin --proved
  {"warnings":[{"column":11,"end":13,"kind":"ReversedRange","line":1,"proved":true,"rule":"Text","start":10}]}
  [1]

A start that no rule has is reported as by a parse, since case matters.

  $ echo "S <- 'a'" | pegtool lint /dev/stdin --start s
  {"name":"s","refusal":"NoSuchStart"}
  [3]

A start that the grammar of the fixed mistakes doesn't have is reported, too.

  $ pegtool lint examples/lint/fixed.peg --start None
  {"name":"None","refusal":"NoSuchStart"}
  [3]

The mistakes of the examples have each proved kind of warning once (docs/LINT.md).

  $ pegtool lint examples/lint/mistakes.peg --proved | grep -o '"kind":"[A-Za-z]*"' | cut -d '"' -f 4 | LC_ALL=C sort
  AlwaysFails
  NeverFollows
  NeverMatches
  NeverStops
  NeverTried
  NoEffect
  ReversedRange
  SameAlternative
  Shadowed
  TakesNothing
  UnusedRule

With the habits they have every kind of the two tables once.

  $ pegtool lint examples/lint/mistakes.peg | grep -o '"kind":"[A-Za-z]*"' | cut -d '"' -f 4 | LC_ALL=C sort
  AlwaysFails
  AnyAtEnd
  BlanksInClass
  ClassBeginsWithCaret
  ClassEndsInRange
  EmptyAlternative
  HighBytesInClass
  HoldsLineEnd
  NeverFollows
  NeverMatches
  NeverStops
  NeverTried
  NoEffect
  RangeOverSigns
  RepeatedByte
  ReversedRange
  SameAlternative
  Shadowed
  TakesNothing
  UnusedRule

With warnings the status is 1, whether the habits are among them or not.

  $ pegtool lint examples/lint/mistakes.peg --proved > /dev/null
  [1]

  $ pegtool lint examples/lint/mistakes.peg > /dev/null
  [1]

The mistakes are fixed in the other file, which has no warnings.

  $ pegtool lint examples/lint/fixed.peg
  {"warnings":[]}
