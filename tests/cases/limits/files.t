Limits of grammar files: their length, open parentheses and the size of their code.

Two hundred parentheses may be open at once, and the next one is refused at its offset (docs/USAGE.md).

  $ cat > nested <<'END'
  > printf 'A <- '; printf '(%.0s' $(seq $1); printf "'a'"; printf "$2%.0s" $(seq $1)
  > END
  $ bash nested 200 ')' | pegtool check /dev/stdin
  {"result":"accepted","rules":1}

  $ bash nested 201 ')' | pegtool check /dev/stdin
  {"at":205,"column":206,"line":1,"refusal":"TooNested"}
  [2]

In a joined input the same numbers of parentheses are accepted and refused; the empty text doesn't match.

  $ { bash nested 200 ')'; echo; } | pegtool
  {"expected":[[205,208]],"far":0,"result":"failed"}
  [1]

  $ { bash nested 201 ')'; echo; } | pegtool
  {"at":205,"column":206,"line":1,"refusal":"TooNested"}
  [2]

A file of 1,048,576 bytes is read: its 201st open parenthesis is the first fault.

  $ { printf 'A <- '; head -c 1048570 /dev/zero | tr '\0' '('; echo; } > limit.peg
  $ wc -c < limit.peg
  1048576

  $ pegtool check limit.peg
  {"at":205,"column":206,"line":1,"refusal":"TooNested"}
  [2]

A file with one byte more is refused as a whole, whatever its bytes are.

  $ { cat limit.peg; echo; } | pegtool check /dev/stdin
  {"refusal":"FileTooLong"}
  [2]

  $ head -c 1048577 /dev/zero | tr '\0' ' ' > spaces.peg
  $ pegtool check spaces.peg
  {"refusal":"FileTooLong"}
  [2]

  $ pegtool table spaces.peg
  {"refusal":"FileTooLong"}
  [2]

  $ pegtool < spaces.peg
  {"refusal":"FileTooLong"}
  [2]

A file of 1,048,576 spaces is read, and ends where its first definition is missing.

  $ head -c 1048576 spaces.peg | pegtool
  {"at":1048576,"column":1048577,"line":1,"refusal":"Syntax"}
  [2]

Each nested plus doubles the code of its part, so 25 of them are over 1,000,000 instructions.

  $ bash nested 25 ')+' > large.peg
  $ pegtool check large.peg
  {"refusal":"CodeTooLarge"}
  [2]

  $ pegtool code large.peg
  {"refusal":"CodeTooLarge"}
  [2]

  $ printf a | pegtool parse large.peg /dev/stdin --memo 0
  {"refusal":"CodeTooLarge"}
  [2]

Nested n times the code has 3 times 2^n instructions: 786,432 for 18, and 1,572,864 for 19.

  $ bash nested 19 ')+' | pegtool check /dev/stdin
  {"refusal":"CodeTooLarge"}
  [2]

  $ bash nested 18 ')+' | pegtool check /dev/stdin
  {"result":"accepted","rules":1}

Each of 195,075 choices has 4 instructions, and 8 with the calls of its markers, which is over the limit.

  $ echo "S <- ((('a' / 'b'){255}){255}){3}" > marked.peg
  $ pegtool check marked.peg
  {"result":"accepted","rules":1}

  $ pegtool profile marked.peg --coverage /dev/null
  {"refusal":"CoverageTooLarge"}
  [6]
