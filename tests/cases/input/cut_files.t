Files that end too early: each first part of a small grammar file is accepted or refused at its place.

A cut in a name, an arrow or a literal is refused where that starts, or at the end (worked out by hand).

  $ echo "S <- 'a' S / 'b'" > whole.peg
  $ for length in $(seq 0 17); do head -c $length whole.peg | pegtool check /dev/stdin; echo "$length: $?"; done
  {"at":0,"column":1,"line":1,"refusal":"Syntax"}
  0: 2
  {"at":1,"column":2,"line":1,"refusal":"Syntax"}
  1: 2
  {"at":2,"column":3,"line":1,"refusal":"Syntax"}
  2: 2
  {"at":2,"column":3,"line":1,"refusal":"Syntax"}
  3: 2
  {"result":"accepted","rules":1}
  4: 0
  {"result":"accepted","rules":1}
  5: 0
  {"at":5,"column":6,"line":1,"refusal":"Syntax"}
  6: 2
  {"at":5,"column":6,"line":1,"refusal":"Syntax"}
  7: 2
  {"result":"accepted","rules":1}
  8: 0
  {"result":"accepted","rules":1}
  9: 0
  {"result":"accepted","rules":1}
  10: 0
  {"result":"accepted","rules":1}
  11: 0
  {"result":"accepted","rules":1}
  12: 0
  {"result":"accepted","rules":1}
  13: 0
  {"at":13,"column":14,"line":1,"refusal":"Syntax"}
  14: 2
  {"at":13,"column":14,"line":1,"refusal":"Syntax"}
  15: 2
  {"result":"accepted","rules":1}
  16: 0
  {"result":"accepted","rules":1}
  17: 0
