The predicates `&e` and `!e`, worked out by hand.

The predicate consumes nothing, so the dot takes the `a`; the dot in `!.` fails at the end.

  $ cat > g.peg <<'END'
  > S <- &'a' . !.
  > END
  $ printf 'a' | pegtool parse g.peg /dev/stdin --rows
  {"consumed":1,"expected":[[13,14]],"far":1,"result":"matched","rows":[[1,"S",0,1]]}

A predicate `!e` that fails adds no terminal, since `e` was found.

  $ printf 'ab' | pegtool parse g.peg /dev/stdin --rows
  {"expected":[],"far":0,"result":"failed"}
  [1]

Terminals that fail inside predicates count, also if the predicate matches at an earlier position.

  $ cat > g.peg <<'END'
  > S <- !(!'a'*)
  > END
  $ printf 'aa' | pegtool parse g.peg /dev/stdin --rows
  {"consumed":0,"expected":[[8,11]],"far":2,"result":"matched","rows":[[1,"S",0,0]]}
  $ cat > g.peg <<'END'
  > S <- &(!'a'*)
  > END
  $ printf 'aa' | pegtool parse g.peg /dev/stdin --rows
  {"expected":[[8,11]],"far":2,"result":"failed"}
  [1]

The empty literal always matches, so its predicate always fails, without a terminal.

  $ cat > g.peg <<'END'
  > S <- !''
  > END
  $ printf 'q' | pegtool parse g.peg /dev/stdin --rows
  {"expected":[],"far":0,"result":"failed"}
  [1]
  $ printf '' | pegtool parse g.peg /dev/stdin --rows
  {"expected":[],"far":0,"result":"failed"}
  [1]

As many of each of three letters match (Ford 2004, section 3.4); nodes in the predicate aren't in the tree.

  $ cat > g.peg <<'END'
  > D <- &(A !'b') 'a'* B !.
  > A <- 'a' A 'b' / ''
  > B <- 'b' B 'c' / ''
  > END
  $ printf 'aabbcc' | pegtool parse g.peg /dev/stdin --rows
  {"consumed":6,"expected":[[23,24]],"far":6,"result":"matched","rows":[[1,"D",0,6],[2,"B",2,6],[3,"B",3,5],[4,"B",4,4]]}

A missing letter is expected at the end of the text, whatever the memo.

  $ printf 'aabbc' | pegtool parse g.peg /dev/stdin --rows
  {"expected":[[56,59]],"far":5,"result":"failed"}
  [1]
  $ printf 'aabbc' | pegtool parse g.peg /dev/stdin --rows --memo 0
  {"expected":[[56,59]],"far":5,"result":"failed"}
  [1]
  $ printf 'aabbc' | pegtool parse g.peg /dev/stdin --rows --memo 1
  {"expected":[[56,59]],"far":5,"result":"failed"}
  [1]
  $ printf 'aabbc' | pegtool parse g.peg /dev/stdin --rows --memo 2
  {"expected":[[56,59]],"far":5,"result":"failed"}
  [1]
  $ printf 'aabbc' | pegtool parse g.peg /dev/stdin --rows --memo 7
  {"expected":[[56,59]],"far":5,"result":"failed"}
  [1]
  $ printf 'aabbc' | pegtool parse g.peg /dev/stdin --rows --memo 4096
  {"expected":[[56,59]],"far":5,"result":"failed"}
  [1]
