The instructions of small grammars, worked out by hand; USAGE.md describes each instruction.

A choice has a choice point at the second alternative, and a commit after the first.

  $ pegtool code <(echo "S <- 'a' S / 'b'")
  {"code":[["end"],["choice",5],["test",0,[[97,97]]],["call",0],["commit",6],["test",1,[[98,98]]],["ret"]],"entries":[1]}

`&e` is compiled as `!(!e)`, `e+` as `e e*` and `e?` as a choice of `e` and nothing.

  $ pegtool code <(echo "A <- &'x' 'y'+ .?")
  {"code":[["end"],["choice",6],["choice",5],["test",0,[[120,120]]],["failtwice"],["failtwice"],["test",1,[[121,121]]],["choice",10],["test",1,[[121,121]]],["commit",7],["choice",13],["test",2,[[0,255]]],["commit",13],["ret"]],"entries":[1]}

A plus over a literal of two bytes has both of them twice, with one terminal.

  $ pegtool code <(echo "A <- &'x' 'yz'+ .?")
  {"code":[["end"],["choice",6],["choice",5],["test",0,[[120,120]]],["failtwice"],["failtwice"],["test",1,[[121,121]]],["test",1,[[122,122]]],["choice",12],["test",1,[[121,121]]],["test",1,[[122,122]]],["commit",8],["choice",15],["test",2,[[0,255]]],["commit",15],["ret"]],"entries":[1]}

A count of two to four has two tests, and two choices one in the other.

  $ pegtool code <(echo "A <- 'a'{2,4}")
  {"code":[["end"],["test",0,[[97,97]]],["test",0,[[97,97]]],["choice",9],["test",0,[[97,97]]],["choice",8],["test",0,[[97,97]]],["commit",8],["commit",9],["ret"]],"entries":[1]}

An empty literal has no code, and neither has a count of it.

  $ pegtool code <(echo "A <- ''{255}")
  {"code":[["end"],["ret"]],"entries":[1]}
  $ pegtool code <(echo "A <- ('' ''){3}")
  {"code":[["end"],["ret"]],"entries":[1]}
  $ pegtool code <(echo "A <- (''{255}){255}")
  {"code":[["end"],["ret"]],"entries":[1]}

An optional iteration of the empty literal has its choice and its commit.

  $ pegtool code <(echo "A <- ''{254,255}")
  {"code":[["end"],["choice",3],["commit",3],["ret"]],"entries":[1]}

A part with code is repeated, without the count of nothing in it.

  $ pegtool code <(echo "A <- (''{2} 'a'){2}")
  {"code":[["end"],["test",1,[[97,97]]],["test",1,[[97,97]]],["ret"]],"entries":[1]}

A rule without code is its return; the entries are those of the rules in order, and a call names a rule.

  $ pegtool code <(echo "A <- ''    B <- '' C '' 'ab' ''    C <- '' ''")
  {"code":[["end"],["ret"],["call",2],["test",3,[[97,97]]],["test",3,[[98,98]]],["ret"],["ret"]],"entries":[1,2,6]}

A predicate over a plus fails twice where the plus matches.

  $ pegtool code <(echo "S <- 'a' S / !'b'+")
  {"code":[["end"],["choice",5],["test",0,[[97,97]]],["call",0],["commit",11],["choice",11],["test",1,[[98,98]]],["choice",10],["test",1,[[98,98]]],["commit",7],["failtwice"],["ret"]],"entries":[1]}

Rules follow one another, and terminals are numbered through all rules.

  $ pegtool code <(echo "A <- B 'x'*  B <- [a-c]+ !A")
  {"code":[["end"],["call",1],["choice",5],["test",0,[[120,120]]],["commit",2],["ret"],["test",1,[[97,99]]],["choice",10],["test",1,[[97,99]]],["commit",7],["choice",13],["call",0],["failtwice"],["ret"]],"entries":[1,6]}

The literal is terminal 0; the empty sequence after the slash is none, so the class is terminal 1.

  $ pegtool code <(echo "A <- ('' /) [b]")
  {"code":[["end"],["choice",3],["commit",3],["test",1,[[98,98]]],["ret"]],"entries":[1]}

Terminal 1 is the literal from 13 to 16 in the file, which is expected after 'a' was tried (worked out by hand).

  $ pegtool parse <(echo "S <- 'a' S / 'b'") <(printf c)
  {"expected":[[5,8],[13,16]],"far":0,"result":"failed"}
  [1]

The check keeps what it checks: a literal has a test for each byte.

  $ pegtool code <(echo "A <- 'ab'")
  {"code":[["end"],["test",0,[[97,97]]],["test",0,[[98,98]]],["ret"]],"entries":[1]}
