The line of JSON that lint prints: its members, their lines and columns, and the exit status.

A grammar without a warning has an empty list and exit status 0 (docs/LINT.md, Command).

  $ printf "S <- 'a' S / 'b'\n" | pegtool lint /dev/stdin
  {"warnings":[]}

The earlier alternative is the member by, and column 12 is that of offset 11.

  $ printf "S <- 'a' / 'ab'\n" | pegtool lint /dev/stdin
  {"warnings":[{"by":[5,8],"column":12,"end":15,"kind":"Shadowed","line":1,"proved":true,"rule":"S","start":11}]}
  [1]

CR LF is one line end and CR alone is another, so U is in line 4.

  $ printf "S <- 'a'\r\nT <- 'b'\r\n  'c'\rU <- S" | pegtool lint /dev/stdin
  {"warnings":[{"column":1,"end":11,"kind":"UnusedRule","line":2,"proved":true,"rule":"T","start":10},{"column":1,"end":27,"kind":"UnusedRule","line":4,"proved":true,"rule":"U","start":26}]}
  [1]

Warnings with the same start are in the order of the kinds in docs/LINT.md.

  $ printf "S <- !''\n  'a'\n" | pegtool lint /dev/stdin
  {"warnings":[{"column":6,"end":14,"kind":"NeverMatches","line":1,"proved":true,"rule":"S","start":5},{"column":6,"end":8,"kind":"AlwaysFails","line":1,"proved":true,"rule":"S","start":5}]}
  [1]

The item is in line 2, and the repetition before it is the member by.

  $ printf "S <- .*\n  'x'\n" | pegtool lint /dev/stdin
  {"warnings":[{"by":[5,7],"column":3,"end":13,"kind":"NeverStops","line":2,"proved":true,"rule":"S","start":10}]}
  [1]

The class begins with a caret, and has no blank after its bracket. Its second blank is repeated.

  $ printf 'S <- [^ a ]\n' | pegtool lint /dev/stdin
  {"warnings":[{"column":6,"end":11,"kind":"ClassBeginsWithCaret","line":1,"proved":false,"rule":"S","start":5},{"column":10,"end":10,"kind":"RepeatedByte","line":1,"proved":false,"rule":"S","start":9}]}
  [1]

A class may have two habits, and a literal with a raw line end has a third one. The second blank is repeated, too.

  $ printf "S <- [ \200 ] '\n'\n" | pegtool lint /dev/stdin
  {"warnings":[{"column":6,"end":10,"kind":"HighBytesInClass","line":1,"proved":false,"rule":"S","start":5},{"column":6,"end":10,"kind":"BlanksInClass","line":1,"proved":false,"rule":"S","start":5},{"column":9,"end":9,"kind":"RepeatedByte","line":1,"proved":false,"rule":"S","start":8},{"column":12,"end":14,"kind":"HoldsLineEnd","line":1,"proved":false,"rule":"S","start":11}]}
  [1]

The dot ends the first rule, and the range of the second one goes to the bracket.

  $ printf 'S <- T .\nT <- [+-]]\n' | pegtool lint /dev/stdin
  {"warnings":[{"column":8,"end":8,"kind":"AnyAtEnd","line":1,"proved":false,"rule":"S","start":7},{"column":7,"end":18,"kind":"ClassEndsInRange","line":2,"proved":false,"rule":"T","start":15}]}
  [1]

A doubled slash has an empty alternative, after which no alternative is tried.

  $ printf "S <- 'a' // 'b'" | pegtool lint /dev/stdin
  {"warnings":[{"column":11,"end":10,"kind":"EmptyAlternative","line":1,"proved":false,"rule":"S","start":10},{"by":[10,10],"column":13,"end":15,"kind":"NeverTried","line":1,"proved":true,"rule":"S","start":12}]}
  [1]

The range from Z to A is reversed, and the range before it isn't.

  $ printf 'S <- [a-zZ-A]\n' | pegtool lint /dev/stdin
  {"warnings":[{"column":10,"end":12,"kind":"ReversedRange","line":1,"proved":true,"rule":"S","start":9}]}
  [1]

The star never fails, so the alternative after it is never tried.

  $ printf "S <- 'a'* / 'b'" | pegtool lint /dev/stdin
  {"warnings":[{"by":[5,9],"column":13,"end":15,"kind":"NeverTried","line":1,"proved":true,"rule":"S","start":12}]}
  [1]

The part of the predicate is a star, which never fails, so nothing is tested.

  $ printf "S <- &'a'* 'b'" | pegtool lint /dev/stdin
  {"warnings":[{"column":6,"end":10,"kind":"NoEffect","line":1,"proved":true,"rule":"S","start":5}]}
  [1]

The third alternative is the first one again, and no warning is about the second one.

  $ printf "S <- A 'b' / 'c' / A 'b'\nA <- 'a'" | pegtool lint /dev/stdin
  {"warnings":[{"by":[5,10],"column":20,"end":24,"kind":"SameAlternative","line":1,"proved":true,"rule":"S","start":19}]}
  [1]
