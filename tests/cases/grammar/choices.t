Sequences and choices, and the trees and furthest failures of their parses, worked out by hand.

Each call of a rule has a node in that of its caller; the `b` ends the match, whatever follows.

  $ cat > g.peg <<'END'
  > S <- 'a' S / 'b'
  > END
  $ printf 'aab' | pegtool parse g.peg /dev/stdin --rows
  {"consumed":3,"expected":[[5,8]],"far":2,"result":"matched","rows":[[1,"S",0,3],[2,"S",1,3],[3,"S",2,3]]}
  $ printf 'aabb' | pegtool parse g.peg /dev/stdin --rows
  {"consumed":3,"expected":[[5,8]],"far":2,"result":"matched","rows":[[1,"S",0,3],[2,"S",1,3],[3,"S",2,3]]}

Without a `b` both alternatives fail at the end of the text, so both are expected there.

  $ printf 'aa' | pegtool parse g.peg /dev/stdin --rows
  {"expected":[[5,8],[13,16]],"far":2,"result":"failed"}
  [1]
  $ printf '' | pegtool parse g.peg /dev/stdin --rows
  {"expected":[[5,8],[13,16]],"far":0,"result":"failed"}
  [1]

The first alternative that matches is taken, even if a later one would match more (Ford 2004, section 3.3).

  $ cat > g.peg <<'END'
  > S <- 'a' / 'ab'
  > END
  $ printf 'ab' | pegtool parse g.peg /dev/stdin --rows
  {"consumed":1,"expected":[],"far":0,"result":"matched","rows":[[1,"S",0,1]]}

Where neither matches, both are expected.

  $ printf 'b' | pegtool parse g.peg /dev/stdin --rows
  {"expected":[[5,8],[11,15]],"far":0,"result":"failed"}
  [1]

The node of A in the abandoned first alternative isn't in the tree.

  $ cat > g.peg <<'END'
  > S <- A 'x' / A 'y'
  > A <- 'a'
  > END
  $ printf 'ay' | pegtool parse g.peg /dev/stdin --rows
  {"consumed":2,"expected":[[7,10]],"far":1,"result":"matched","rows":[[1,"S",0,2],[2,"A",0,1]]}

Both alternatives are tried to their ends, and a terminal that failed twice is listed once.

  $ printf 'az' | pegtool parse g.peg /dev/stdin --rows
  {"expected":[[7,10],[15,18]],"far":1,"result":"failed"}
  [1]
  $ printf 'y' | pegtool parse g.peg /dev/stdin --rows
  {"expected":[[24,27]],"far":0,"result":"failed"}
  [1]

The second alternative starts again at the first position, after `x` was expected at 3.

  $ cat > g.peg <<'END'
  > A <- '(' A ')' 'x' / '(' A ')' 'y' / 'a'
  > END
  $ printf '(a)y' | pegtool parse g.peg /dev/stdin --rows
  {"consumed":4,"expected":[[15,18]],"far":3,"result":"matched","rows":[[1,"A",0,4],[2,"A",1,2]]}

An empty literal matches without consuming, so the empty class after it isn't tried.

  $ cat > g.peg <<'END'
  > S <- '' / []
  > END
  $ printf 'a' | pegtool parse g.peg /dev/stdin --rows
  {"consumed":0,"expected":[],"far":0,"result":"matched","rows":[[1,"S",0,0]]}
  $ printf '' | pegtool parse g.peg /dev/stdin --rows
  {"consumed":0,"expected":[],"far":0,"result":"matched","rows":[[1,"S",0,0]]}

An empty class always fails and is expected at its position.

  $ cat > g.peg <<'END'
  > S <- [] / ''
  > END
  $ printf 'a' | pegtool parse g.peg /dev/stdin --rows
  {"consumed":0,"expected":[[5,7]],"far":0,"result":"matched","rows":[[1,"S",0,0]]}

An empty sequence matches the empty string, at any position and on any text.

  $ cat > g.peg <<'END'
  > S <-
  > END
  $ printf 'zz' | pegtool parse g.peg /dev/stdin --rows
  {"consumed":0,"expected":[],"far":0,"result":"matched","rows":[[1,"S",0,0]]}
  $ printf '' | pegtool parse g.peg /dev/stdin --rows
  {"consumed":0,"expected":[],"far":0,"result":"matched","rows":[[1,"S",0,0]]}

An empty second alternative matches where the first one fails.

  $ cat > g.peg <<'END'
  > S <- 'a' /
  > END
  $ printf 'a' | pegtool parse g.peg /dev/stdin --rows
  {"consumed":1,"expected":[],"far":0,"result":"matched","rows":[[1,"S",0,1]]}
  $ printf 'b' | pegtool parse g.peg /dev/stdin --rows
  {"consumed":0,"expected":[[5,8]],"far":0,"result":"matched","rows":[[1,"S",0,0]]}

An empty first alternative always matches, so the other one isn't tried.

  $ cat > g.peg <<'END'
  > S <- / 'a'
  > END
  $ printf 'a' | pegtool parse g.peg /dev/stdin --rows
  {"consumed":0,"expected":[],"far":0,"result":"matched","rows":[[1,"S",0,0]]}

A reversed range and an empty class contain no byte; the third class contains byte 200.

  $ cat > g.peg <<'END'
  > S <- [z-a] / [] / [\xC8]
  > END
  $ printf '\310' | pegtool parse g.peg /dev/stdin --rows
  {"consumed":1,"expected":[[5,10],[13,15]],"far":0,"result":"matched","rows":[[1,"S",0,1]]}

On another byte all three fail at its position.

  $ printf 'z' | pegtool parse g.peg /dev/stdin --rows
  {"expected":[[5,10],[13,15],[18,24]],"far":0,"result":"failed"}
  [1]

By the metagrammar `\377` is byte 31 and the character 7 (Ford 2004, figure 1).

  $ cat > g.peg <<'END'
  > S <- '\377'
  > END
  $ printf '\0377' | pegtool parse g.peg /dev/stdin --rows
  {"consumed":2,"expected":[],"far":0,"result":"matched","rows":[[1,"S",0,2]]}

A literal fails at its first byte that differs or is missing.

  $ printf '\0378' | pegtool parse g.peg /dev/stdin --rows
  {"expected":[[5,11]],"far":1,"result":"failed"}
  [1]
  $ printf '\377' | pegtool parse g.peg /dev/stdin --rows
  {"expected":[[5,11]],"far":0,"result":"failed"}
  [1]
  $ printf '\037' | pegtool parse g.peg /dev/stdin --rows
  {"expected":[[5,11]],"far":1,"result":"failed"}
  [1]

Terminals are listed in the order of the file, not in that of the attempts, and each once.

  $ cat > g.peg <<'END'
  > S <- C / B / C / A
  > A <- 'a'
  > B <- 'b'
  > C <- 'c'
  > END
  $ printf 'd' | pegtool parse g.peg /dev/stdin --rows
  {"expected":[[24,27],[33,36],[42,45]],"far":0,"result":"failed"}
  [1]
