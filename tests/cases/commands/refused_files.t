Grammar files that are refused: what check, parse, table, code and lint print of them.

An empty file ends where its first definition is missing, whatever the command (docs/NOTATION.md).

  $ pegtool check /dev/null
  {"at":0,"column":1,"line":1,"refusal":"Syntax"}
  [2]

  $ pegtool table /dev/null
  {"at":0,"column":1,"line":1,"refusal":"Syntax"}
  [2]

  $ pegtool code /dev/null
  {"at":0,"column":1,"line":1,"refusal":"Syntax"}
  [2]

  $ pegtool lint /dev/null --start none
  {"at":0,"column":1,"line":1,"refusal":"Syntax"}
  [2]

A class with a dash before its bracket isn't closed, and is refused at its opening bracket.

  $ echo "A <- [a-]" > open.peg
  $ pegtool check open.peg
  {"at":5,"column":6,"line":1,"refusal":"Syntax"}
  [2]

  $ pegtool table open.peg
  {"at":5,"column":6,"line":1,"refusal":"Syntax"}
  [2]

  $ pegtool parse open.peg /dev/null
  {"at":5,"column":6,"line":1,"refusal":"Syntax"}
  [2]

A comment needs a line end, and without one it is refused at its sign.

  $ printf "A <- 'x' #end" | pegtool check /dev/stdin
  {"at":9,"column":10,"line":1,"refusal":"Syntax"}
  [2]

A question mark needs a part before it, which it doesn't have in the second line.

  $ printf "A <-\r\n  ?\n" | pegtool check /dev/stdin
  {"at":8,"column":3,"line":2,"refusal":"Syntax"}
  [2]

A name with an arrow begins a definition, which can't be inside of parentheses.

  $ echo "A <- (B <- 'x')" | pegtool check /dev/stdin
  {"at":8,"column":9,"line":1,"refusal":"Syntax"}
  [2]

A literal with an escape that the notation doesn't have is refused at its opening quote.

  $ echo 'A <- "a\-b"' | pegtool check /dev/stdin
  {"at":5,"column":6,"line":1,"refusal":"Syntax"}
  [2]

  $ echo "A <- '\x4g'" | pegtool check /dev/stdin
  {"at":5,"column":6,"line":1,"refusal":"Syntax"}
  [2]

  $ echo "A <- '\X41'" | pegtool check /dev/stdin
  {"at":5,"column":6,"line":1,"refusal":"Syntax"}
  [2]

A second definition of a name is reported before the call of a missing one.

  $ printf "A <- B\nA <- 'x'\n" > twice.peg
  $ pegtool check twice.peg
  {"column":1,"end":8,"line":2,"name":"A","refusal":"Duplicate","start":7}
  [2]

  $ pegtool table twice.peg
  {"column":1,"end":8,"line":2,"name":"A","refusal":"Duplicate","start":7}
  [2]

  $ pegtool parse twice.peg /dev/null
  {"column":1,"end":8,"line":2,"name":"A","refusal":"Duplicate","start":7}
  [2]

A call of a name that no rule has is reported with its span.

  $ echo "A <- B" > undefined.peg
  $ pegtool check undefined.peg
  {"column":6,"end":6,"line":1,"name":"B","refusal":"Undefined","start":5}
  [2]

  $ pegtool code undefined.peg
  {"column":6,"end":6,"line":1,"name":"B","refusal":"Undefined","start":5}
  [2]

  $ pegtool lint undefined.peg --start none
  {"column":6,"end":6,"line":1,"name":"B","refusal":"Undefined","start":5}
  [2]

  $ pegtool parse undefined.peg /dev/null
  {"column":6,"end":6,"line":1,"name":"B","refusal":"Undefined","start":5}
  [2]

An empty loop is reported with its span, also by parse and by lint.

  $ echo "A <- ('a'*)*" > loop.peg
  $ pegtool check loop.peg
  {"column":6,"end":12,"line":1,"refusal":"EmptyLoop","rule":"A","start":5}
  [2]

  $ pegtool lint loop.peg --start none
  {"column":6,"end":12,"line":1,"refusal":"EmptyLoop","rule":"A","start":5}
  [2]

  $ pegtool parse loop.peg /dev/null
  {"column":6,"end":12,"line":1,"refusal":"EmptyLoop","rule":"A","start":5}
  [2]

Left recursion is reported with its path, also by parse, code and lint.

  $ printf "A <- B 'x'\nB <- 'y'? A\n" > left.peg
  $ pegtool check left.peg
  {"path":["A","B"],"refusal":"LeftRecursion"}
  [2]

  $ pegtool parse left.peg /dev/null
  {"path":["A","B"],"refusal":"LeftRecursion"}
  [2]

  $ echo "T <- T" > itself.peg
  $ pegtool code itself.peg
  {"path":["T"],"refusal":"LeftRecursion"}
  [2]

  $ pegtool lint itself.peg --start none
  {"path":["T"],"refusal":"LeftRecursion"}
  [2]

Only a joined input has a line %%, so in a file it is where no token starts.

  $ printf "A <- B\n%%%%\n" | pegtool table /dev/stdin
  {"at":7,"column":1,"line":2,"refusal":"Syntax"}
  [2]

A grammar that isn't well-formed has a table, but neither code nor warnings.

  $ echo "A <- A" > refused.peg
  $ pegtool check refused.peg
  {"path":["A"],"refusal":"LeftRecursion"}
  [2]

  $ pegtool table refused.peg
  {"table":[{"fails":false,"nothing":false,"rule":"A","something":false}]}

  $ pegtool code refused.peg
  {"path":["A"],"refusal":"LeftRecursion"}
  [2]

  $ pegtool lint refused.peg
  {"path":["A"],"refusal":"LeftRecursion"}
  [2]

The text of a refused grammar is opened and not read: reading a folder would fail.

  $ pegtool parse refused.peg /dev/null
  {"path":["A"],"refusal":"LeftRecursion"}
  [2]

  $ pegtool parse refused.peg .
  {"path":["A"],"refusal":"LeftRecursion"}
  [2]

  $ pegtool profile refused.peg .
  {"path":["A"],"refusal":"LeftRecursion"}
  [2]

A text that can't be opened is a fault even if the grammar would be refused.

  $ pegtool parse refused.peg missing
  pegtool: file fault
  missing: No such file or directory
  [4]

With coverage each text is opened in its turn, so a missing one isn't met.

  $ pegtool profile refused.peg --coverage missing
  {"path":["A"],"refusal":"LeftRecursion"}
  [2]
