The command check: which grammars are well-formed, and what is reported of the others (Ford 2004, section 3.6).

A grammar is accepted if no rule can call itself, and no loop run, without consuming a byte.

  $ echo "A <- 'x' #end" | pegtool check /dev/stdin
  {"result":"accepted","rules":1}

  $ echo "A <- 'x' A / 'y'" | pegtool check /dev/stdin
  {"result":"accepted","rules":1}

  $ echo "S <- 'a' S / 'b'" | pegtool check /dev/stdin
  {"result":"accepted","rules":1}

  $ printf "A <- 'a' B?\nB <- &'c' . A / ''\n" | pegtool check /dev/stdin
  {"result":"accepted","rules":2}

The call after an empty class is never tried, since the class always fails (Ford 2004, section 3.5).

  $ echo "A <- [] A" | pegtool check /dev/stdin
  {"result":"accepted","rules":1}

A star over an empty class ends at once, and can't loop on the empty string.

  $ echo "A <- []* 'x'" | pegtool check /dev/stdin
  {"result":"accepted","rules":1}

The dot before the call consumes a byte, although the predicate before it doesn't.

  $ echo "A <- !'x' . A / 'x'" | pegtool check /dev/stdin
  {"result":"accepted","rules":1}

A rule that calls itself first is left-recursive, directly or after a part that can match the empty string.

  $ echo "A <- A" | pegtool check /dev/stdin
  {"path":["A"],"refusal":"LeftRecursion"}
  [2]

  $ echo "A <- 'x'? A" | pegtool check /dev/stdin
  {"path":["A"],"refusal":"LeftRecursion"}
  [2]

  $ echo "A <- 'x'* A 'y'" | pegtool check /dev/stdin
  {"path":["A"],"refusal":"LeftRecursion"}
  [2]

  $ echo "A <- !'x' A" | pegtool check /dev/stdin
  {"path":["A"],"refusal":"LeftRecursion"}
  [2]

  $ echo "A <- '' A" | pegtool check /dev/stdin
  {"path":["A"],"refusal":"LeftRecursion"}
  [2]

  $ echo "A <- ('x' / '') A" | pegtool check /dev/stdin
  {"path":["A"],"refusal":"LeftRecursion"}
  [2]

A call in a predicate is a call at the same position, in any alternative.

  $ echo "A <- &A 'x'" | pegtool check /dev/stdin
  {"path":["A"],"refusal":"LeftRecursion"}
  [2]

  $ echo "A <- 'x' / !A" | pegtool check /dev/stdin
  {"path":["A"],"refusal":"LeftRecursion"}
  [2]

The path of the cycle is from its first rule in the file, without the rules that only lead there.

  $ printf "A <- B 'x'\nB <- 'y'? A\n" | pegtool check /dev/stdin
  {"path":["A","B"],"refusal":"LeftRecursion"}
  [2]

  $ printf "S <- 'a'\nT <- T\n" | pegtool check /dev/stdin
  {"path":["T"],"refusal":"LeftRecursion"}
  [2]

  $ printf "A <- B* 'x'\nB <- A\n" | pegtool check /dev/stdin
  {"path":["A","B"],"refusal":"LeftRecursion"}
  [2]

  $ printf "S <- 'a'\nU <- V\nV <- U 'x'\n" | pegtool check /dev/stdin
  {"path":["U","V"],"refusal":"LeftRecursion"}
  [2]

  $ printf "S <- A\nA <- 'x' / B\nB <- A\n" | pegtool check /dev/stdin
  {"path":["A","B"],"refusal":"LeftRecursion"}
  [2]

  $ printf "A <- B\nB <- C\nC <- B 'x'\n" | pegtool check /dev/stdin
  {"path":["B","C"],"refusal":"LeftRecursion"}
  [2]

  $ printf "A <- 'x' / B\nB <- &C 'y'\nC <- 'z'? A\n" | pegtool check /dev/stdin
  {"path":["A","B","C"],"refusal":"LeftRecursion"}
  [2]

  $ printf "A <- 'x'\rB <- (B)\r" | pegtool check /dev/stdin
  {"path":["B"],"refusal":"LeftRecursion"}
  [2]

Of several paths the shortest one is reported, and of those the one through the earliest rules.

  $ printf "A <- B / C\nB <- C\nC <- A\n" | pegtool check /dev/stdin
  {"path":["A","C"],"refusal":"LeftRecursion"}
  [2]

  $ printf "A <- C / B\nB <- A\nC <- A\n" | pegtool check /dev/stdin
  {"path":["A","B"],"refusal":"LeftRecursion"}
  [2]

A star or plus over a part that can match the empty string is an empty loop, reported with its span.

  $ echo "A <- ('a'*)*" | pegtool check /dev/stdin
  {"column":6,"end":12,"line":1,"refusal":"EmptyLoop","rule":"A","start":5}
  [2]

  $ echo "A <- ('')+" | pegtool check /dev/stdin
  {"column":6,"end":10,"line":1,"refusal":"EmptyLoop","rule":"A","start":5}
  [2]

  $ echo "A <- (('')?)*" | pegtool check /dev/stdin
  {"column":6,"end":13,"line":1,"refusal":"EmptyLoop","rule":"A","start":5}
  [2]

  $ echo "A <- !(''*) 'x'" | pegtool check /dev/stdin
  {"column":8,"end":10,"line":1,"refusal":"EmptyLoop","rule":"A","start":7}
  [2]

  $ printf "A <- (B / 'x')+\nB <- 'y'*\n" | pegtool check /dev/stdin
  {"column":6,"end":15,"line":1,"refusal":"EmptyLoop","rule":"A","start":5}
  [2]

The first one in written order is reported, and of nested ones the innermost.

  $ echo "A <- (('x'*)* 'y')+" | pegtool check /dev/stdin
  {"column":7,"end":13,"line":1,"refusal":"EmptyLoop","rule":"A","start":6}
  [2]

  $ echo "A <- 'a' (''*) / ('b'?)+" | pegtool check /dev/stdin
  {"column":11,"end":13,"line":1,"refusal":"EmptyLoop","rule":"A","start":10}
  [2]

  $ echo "A <- ((''?)*)*" | pegtool check /dev/stdin
  {"column":7,"end":12,"line":1,"refusal":"EmptyLoop","rule":"A","start":6}
  [2]

  $ echo "A <- (('x'?)*)*" | pegtool check /dev/stdin
  {"column":7,"end":13,"line":1,"refusal":"EmptyLoop","rule":"A","start":6}
  [2]

Lines are counted from 1 over all three line ends, and columns are bytes.

  $ printf "S <- 'a'\nU <- 'b'\n  ('c'?)*\n" | pegtool check /dev/stdin
  {"column":3,"end":27,"line":3,"refusal":"EmptyLoop","rule":"U","start":20}
  [2]

  $ printf "A <- 'x'\r\nB <- (!A)*" | pegtool check /dev/stdin
  {"column":6,"end":20,"line":2,"refusal":"EmptyLoop","rule":"B","start":15}
  [2]

An empty loop is reported before left recursion, whatever their order in the file (docs/USAGE.md).

  $ printf "A <- A\nB <- ''*\n" | pegtool check /dev/stdin
  {"column":6,"end":15,"line":2,"refusal":"EmptyLoop","rule":"B","start":12}
  [2]

Code of more than 16,000,000 instructions is reported after empty loops.

  $ echo "A <- (('a'{255}){255}){255} ''*" | pegtool check /dev/stdin
  {"column":29,"end":31,"line":1,"refusal":"EmptyLoop","rule":"A","start":28}
  [2]

  $ printf "A <- ((('a'*){0,255}){255}){255}\nB <- ((A{255}){255})+\n" | pegtool check /dev/stdin
  {"column":6,"end":54,"line":2,"refusal":"EmptyLoop","rule":"B","start":38}
  [2]

Such code is reported after left recursion, too.

  $ echo "A <- (('a'{255}){255}){255} / A" | pegtool check /dev/stdin
  {"path":["A"],"refusal":"LeftRecursion"}
  [2]

  $ echo "A <- (('a'{255}){255}){0,255} A" | pegtool check /dev/stdin
  {"path":["A"],"refusal":"LeftRecursion"}
  [2]

Without loop and recursion the code is reported as too large.

  $ echo "A <- (('a'{255}){255}){255} A / 'b'" | pegtool check /dev/stdin
  {"refusal":"CodeTooLarge"}
  [2]

  $ echo "A <- (('a'{0,255}){255}){255} 'b'" | pegtool check /dev/stdin
  {"refusal":"CodeTooLarge"}
  [2]
