What is reported of grammars in other notations (docs/MIGRATING.md, docs/NOTATION.md). Places are worked out by hand.

Other arrows than <- are refused where no arrow can be, or at their first byte.

  $ echo "S = 'a'" | pegtool check /dev/stdin
  {"at":2,"column":3,"line":1,"refusal":"Syntax"}
  [2]

  $ echo "S ::= 'a'" | pegtool check /dev/stdin
  {"at":2,"column":3,"line":1,"refusal":"Syntax"}
  [2]

  $ echo "S: 'a'" | pegtool check /dev/stdin
  {"at":1,"column":2,"line":1,"refusal":"Syntax"}
  [2]

  $ echo "S -> 'a'" | pegtool check /dev/stdin
  {"at":2,"column":3,"line":1,"refusal":"Syntax"}
  [2]

Neither a bar nor a tilde, a comma or a semicolon is a token.

  $ echo "S <- 'a' | 'b'" | pegtool check /dev/stdin
  {"at":9,"column":10,"line":1,"refusal":"Syntax"}
  [2]

  $ echo "S <- S ~ S" | pegtool check /dev/stdin
  {"at":7,"column":8,"line":1,"refusal":"Syntax"}
  [2]

  $ echo "S <- S, S" | pegtool check /dev/stdin
  {"at":6,"column":7,"line":1,"refusal":"Syntax"}
  [2]

  $ echo "S <- 'a';" | pegtool check /dev/stdin
  {"at":8,"column":9,"line":1,"refusal":"Syntax"}
  [2]

Two slashes are an empty alternative and begin no comment, so words after them are calls.

  $ printf "S <- 'a' // B\nB <- 'b'\n" | pegtool check /dev/stdin
  {"result":"accepted","rules":2}

  $ echo "S <- 'a' // 'b'" | pegtool check /dev/stdin
  {"result":"accepted","rules":1}

  $ printf "S <- 'a' // B C\nB <- 'b'\n" | pegtool check /dev/stdin
  {"column":15,"end":15,"line":1,"name":"C","refusal":"Undefined","start":14}
  [2]

  $ printf "S <- 'a' // B, C\nB <- 'b'\n" | pegtool check /dev/stdin
  {"at":13,"column":14,"line":1,"refusal":"Syntax"}
  [2]

  $ printf "// B\nB <- 'b'\n" | pegtool check /dev/stdin
  {"at":0,"column":1,"line":1,"refusal":"Syntax"}
  [2]

The comments of other languages are refused where they can't be tokens that follow.

  $ echo "S <- 'a' /* B */" | pegtool check /dev/stdin
  {"at":10,"column":11,"line":1,"refusal":"Syntax"}
  [2]

  $ echo "S <- 'a' -- B" | pegtool check /dev/stdin
  {"at":9,"column":10,"line":1,"refusal":"Syntax"}
  [2]

  $ echo "S <- 'a' (* B *)" | pegtool check /dev/stdin
  {"at":10,"column":11,"line":1,"refusal":"Syntax"}
  [2]

A comment begins with a sharp and needs a line end.

  $ printf "S <- 'a' # B" | pegtool check /dev/stdin
  {"at":9,"column":10,"line":1,"refusal":"Syntax"}
  [2]

A letter after a literal or a class is a call of the rule with that name.

  $ echo "S <- \"ab\"i" | pegtool check /dev/stdin
  {"column":10,"end":10,"line":1,"name":"i","refusal":"Undefined","start":9}
  [2]

  $ echo "S <- [a-z]i" | pegtool check /dev/stdin
  {"column":11,"end":11,"line":1,"name":"i","refusal":"Undefined","start":10}
  [2]

  $ printf "S <- \"ab\"i\ni <- 'b'\n" | pegtool check /dev/stdin
  {"result":"accepted","rules":2}

A caret begins no literal, and isn't a power.

  $ echo "S <- ^\"ab\"" | pegtool check /dev/stdin
  {"at":5,"column":6,"line":1,"refusal":"Syntax"}
  [2]

  $ echo "S <- 'a'^2" | pegtool check /dev/stdin
  {"at":8,"column":9,"line":1,"refusal":"Syntax"}
  [2]

Counts need both numbers, or one for both, and are from 1 to 255.

  $ echo "S <- 'a'{2}" | pegtool check /dev/stdin
  {"result":"accepted","rules":1}

  $ echo "S <- 'a'{2,3}" | pegtool check /dev/stdin
  {"result":"accepted","rules":1}

  $ echo "S <- 'a'{2,}" | pegtool check /dev/stdin
  {"at":8,"column":9,"line":1,"refusal":"Syntax"}
  [2]

  $ echo "S <- 'a'{,3}" | pegtool check /dev/stdin
  {"at":8,"column":9,"line":1,"refusal":"Syntax"}
  [2]

  $ echo "S <- 'a'{0}" | pegtool check /dev/stdin
  {"at":8,"column":9,"line":1,"refusal":"BadCount"}
  [2]

  $ echo "S <- 'a'{300}" | pegtool check /dev/stdin
  {"at":8,"column":9,"line":1,"refusal":"BadCount"}
  [2]

A class with a caret has the caret, and dots between literals are dots.

  $ echo "S <- [^a]" | pegtool check /dev/stdin
  {"result":"accepted","rules":1}

  $ echo "S <- 'a'..'z'" | pegtool check /dev/stdin
  {"result":"accepted","rules":1}

A dash is no operator, and isn't part of a name.

  $ echo "S <- 'a'-'z'" | pegtool check /dev/stdin
  {"at":8,"column":9,"line":1,"refusal":"Syntax"}
  [2]

  $ echo "S <- a-z" | pegtool check /dev/stdin
  {"at":6,"column":7,"line":1,"refusal":"Syntax"}
  [2]

  $ echo "a-rule <- 'a'" | pegtool check /dev/stdin
  {"at":1,"column":2,"line":1,"refusal":"Syntax"}
  [2]

Hexadecimal escapes have two digits, and there are none of letters or of Unicode.

  $ echo "S <- \"\xff\"" | pegtool check /dev/stdin
  {"result":"accepted","rules":1}

  $ echo "S <- \"\xf\"" | pegtool check /dev/stdin
  {"at":5,"column":6,"line":1,"refusal":"Syntax"}
  [2]

  $ echo "S <- \"\u00e9\"" | pegtool check /dev/stdin
  {"at":5,"column":6,"line":1,"refusal":"Syntax"}
  [2]

  $ echo "S <- [\d]" | pegtool check /dev/stdin
  {"at":5,"column":6,"line":1,"refusal":"Syntax"}
  [2]

  $ echo "S <- \"\377\"" | pegtool check /dev/stdin
  {"result":"accepted","rules":1}

Named classes are classes of their letters, and after a bracket too many a bracket is left.

  $ echo "S <- [:alpha:]" | pegtool check /dev/stdin
  {"result":"accepted","rules":1}

  $ echo "S <- [[:alpha:]]" | pegtool check /dev/stdin
  {"at":15,"column":16,"line":1,"refusal":"Syntax"}
  [2]

  $ echo "S <- ANY" | pegtool check /dev/stdin
  {"column":6,"end":8,"line":1,"name":"ANY","refusal":"Undefined","start":5}
  [2]

Labels, actions and other operators of other tools are no tokens.

  $ echo "S <- x:'a'" | pegtool check /dev/stdin
  {"at":6,"column":7,"line":1,"refusal":"Syntax"}
  [2]

  $ echo "S <- \$'a'" | pegtool check /dev/stdin
  {"at":5,"column":6,"line":1,"refusal":"Syntax"}
  [2]

  $ echo "S <- %a" | pegtool check /dev/stdin
  {"at":5,"column":6,"line":1,"refusal":"Syntax"}
  [2]

  $ echo "S <- @{ 'a' }" | pegtool check /dev/stdin
  {"at":5,"column":6,"line":1,"refusal":"Syntax"}
  [2]

  $ echo "S <- 'a' { b }" | pegtool check /dev/stdin
  {"at":9,"column":10,"line":1,"refusal":"Syntax"}
  [2]

  $ echo "S <- < 'a' >" | pegtool check /dev/stdin
  {"at":5,"column":6,"line":1,"refusal":"Syntax"}
  [2]

A primary has at most one prefix and one suffix (Ford 2004, figure 1).

  $ echo "S <- !!'a'" | pegtool check /dev/stdin
  {"at":6,"column":7,"line":1,"refusal":"Syntax"}
  [2]

  $ echo "S <- 'a'??" | pegtool check /dev/stdin
  {"at":9,"column":10,"line":1,"refusal":"Syntax"}
  [2]

Two quotes end a literal and begin the next one, so this is a sequence.

  $ echo "S <- 'it''s'" | pegtool check /dev/stdin
  {"result":"accepted","rules":1}

Left recursion, which other tools allow, is refused.

  $ echo "S <- S 'a' / 'a'" | pegtool check /dev/stdin
  {"path":["S"],"refusal":"LeftRecursion"}
  [2]

A byte order mark is no spacing, so the file is refused at its start.

  $ printf "\xef\xbb\xbfS <- 'a'\n" | pegtool check /dev/stdin
  {"at":0,"column":1,"line":1,"refusal":"Syntax"}
  [2]

A bracket after a dash ends a range, so the class goes on to the next bracket.

  $ echo "S <- [+-]" | pegtool check /dev/stdin
  {"at":5,"column":6,"line":1,"refusal":"Syntax"}
  [2]

  $ printf "S <- [+-] T\nT <- [a]\nU <- 'b'\n" | pegtool check /dev/stdin
  {"result":"accepted","rules":2}

A quote inside of single quotes ends the literal, and the last one isn't closed.

  $ echo "S <- 'don't'" | pegtool check /dev/stdin
  {"at":11,"column":12,"line":1,"refusal":"Syntax"}
  [2]
