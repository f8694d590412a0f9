The command code: listings worked out by hand from the layout in docs/USAGE.md.

A choice pushes a choice point before its first alternative, and commits after it.

  $ echo "S <- 'a' S / 'b'" | pegtool code /dev/stdin
  {"code":[["end"],["choice",5],["test",0,[[97,97]]],["call",0],["commit",6],["test",1,[[98,98]]],["ret"]],"entries":[1]}

A predicate & is two negations, a plus is its part and a star, and an optional is a choice.

  $ echo "A <- &'x' 'y'+ .?" | pegtool code /dev/stdin
  {"code":[["end"],["choice",6],["choice",5],["test",0,[[120,120]]],["failtwice"],["failtwice"],["test",1,[[121,121]]],["choice",10],["test",1,[[121,121]]],["commit",7],["choice",13],["test",2,[[0,255]]],["commit",13],["ret"]],"entries":[1]}

A class is its byte ranges in ascending order, and an empty class has none.

  $ echo "A <- [] / [a-cx0-9]" | pegtool code /dev/stdin
  {"code":[["end"],["choice",4],["test",0,[]],["commit",5],["test",1,[[48,57],[97,99],[120,120]]],["ret"]],"entries":[1]}

Each rule ends with a return, and an empty literal has no instruction of its own.

  $ printf "A <- B 'x'\nB <- ''\n" | pegtool code /dev/stdin
  {"code":[["end"],["call",1],["test",0,[[120,120]]],["ret"],["ret"]],"entries":[1,4]}

Both bytes of a literal are tests of one terminal, and a failed predicate fails twice.

  $ echo "A <- !'ab'" | pegtool code /dev/stdin
  {"code":[["end"],["choice",5],["test",0,[[97,97]]],["test",0,[[98,98]]],["failtwice"],["ret"]],"entries":[1]}
