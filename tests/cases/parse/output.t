The line that a parse prints: its members for a match, a part of the text and a failure.

A match has its length, the furthest failure with its terminals, and a node for each call of a rule.

  $ echo "S <- 'a' S / 'b'" > chain.peg
  $ printf aab | pegtool parse chain.peg /dev/stdin
  {"consumed":3,"expected":[[5,8]],"far":2,"result":"matched","tree":{"children":[{"children":[{"children":[],"end":3,"rule":"S","start":2}],"end":3,"rule":"S","start":1}],"end":3,"rule":"S","start":0}}

With the option for rows the same nodes are a list in preorder, each with its level.

  $ printf aab | pegtool parse chain.peg /dev/stdin --rows
  {"consumed":3,"expected":[[5,8]],"far":2,"result":"matched","rows":[[1,"S",0,3],[2,"S",1,3],[3,"S",2,3]]}

Without a tree the other members of a match, of a failure and of a partial match stay.

  $ printf aab | pegtool parse chain.peg /dev/stdin --no-tree
  {"consumed":3,"expected":[[5,8]],"far":2,"result":"matched"}

  $ printf '' | pegtool parse chain.peg /dev/stdin --no-tree
  {"expected":[[5,8],[13,16]],"far":0,"result":"failed"}
  [1]

  $ echo "S <- 'a' / 'ab'" > prefix.peg
  $ printf ab | pegtool parse prefix.peg /dev/stdin --all --no-tree
  {"consumed":1,"expected":[],"far":0,"result":"partial"}
  [1]

The first alternative matches a prefix, which is partial if the whole text must match (Ford 2004, section 3.3).

  $ printf ab | pegtool parse prefix.peg /dev/stdin --all
  {"consumed":1,"expected":[],"far":0,"result":"partial","tree":{"children":[],"end":1,"rule":"S","start":0}}
  [1]

  $ printf ab | pegtool parse prefix.peg /dev/stdin --all --rows
  {"consumed":1,"expected":[],"far":0,"result":"partial","rows":[[1,"S",0,1]]}
  [1]

Without that option the match of a prefix is a match, whatever follows it in the text.

  $ printf ab | pegtool parse prefix.peg /dev/stdin
  {"consumed":1,"expected":[],"far":0,"result":"matched","tree":{"children":[],"end":1,"rule":"S","start":0}}

A match of the whole text is matched also if the whole text must match.

  $ echo "S <- 'ab'" > both.peg
  $ printf ab | pegtool parse both.peg /dev/stdin --all --rows
  {"consumed":2,"expected":[],"far":0,"result":"matched","rows":[[1,"S",0,2]]}

A chain of two letters ends at its first b, so the second b is left.

  $ printf aabb | pegtool parse chain.peg /dev/stdin --no-tree
  {"consumed":3,"expected":[[5,8]],"far":2,"result":"matched"}

  $ printf aabb | pegtool parse chain.peg /dev/stdin --no-tree --all
  {"consumed":3,"expected":[[5,8]],"far":2,"result":"partial"}
  [1]

On the empty text both alternatives fail at 0, and their terminals are listed in the order of the file.

  $ printf '' | pegtool parse chain.peg /dev/stdin
  {"expected":[[5,8],[13,16]],"far":0,"result":"failed"}
  [1]

The grammar of a^n b^n c^n has a match with the nodes of B below one another (Ford 2004, section 3.4).

  $ printf "D <- &(A !'b') 'a'* B !.\nA <- 'a' A 'b' / ''\nB <- 'b' B 'c' / ''\n" > abc.peg
  $ printf aabbcc | pegtool parse abc.peg /dev/stdin
  {"consumed":6,"expected":[[23,24]],"far":6,"result":"matched","tree":{"children":[{"children":[{"children":[{"children":[],"end":4,"rule":"B","start":4}],"end":5,"rule":"B","start":3}],"end":6,"rule":"B","start":2}],"end":6,"rule":"D","start":0}}

The answer is the same from the start rule by its name, and for each capacity of the memo.

  $ for memo in 0 1 4096; do printf aabbcc | pegtool parse abc.peg /dev/stdin --memo $memo; done
  {"consumed":6,"expected":[[23,24]],"far":6,"result":"matched","tree":{"children":[{"children":[{"children":[{"children":[],"end":4,"rule":"B","start":4}],"end":5,"rule":"B","start":3}],"end":6,"rule":"B","start":2}],"end":6,"rule":"D","start":0}}
  {"consumed":6,"expected":[[23,24]],"far":6,"result":"matched","tree":{"children":[{"children":[{"children":[{"children":[],"end":4,"rule":"B","start":4}],"end":5,"rule":"B","start":3}],"end":6,"rule":"B","start":2}],"end":6,"rule":"D","start":0}}
  {"consumed":6,"expected":[[23,24]],"far":6,"result":"matched","tree":{"children":[{"children":[{"children":[{"children":[],"end":4,"rule":"B","start":4}],"end":5,"rule":"B","start":3}],"end":6,"rule":"B","start":2}],"end":6,"rule":"D","start":0}}

  $ for memo in 0 1 4096; do printf aabbcc | pegtool parse abc.peg /dev/stdin --memo $memo --start D; done
  {"consumed":6,"expected":[[23,24]],"far":6,"result":"matched","tree":{"children":[{"children":[{"children":[{"children":[],"end":4,"rule":"B","start":4}],"end":5,"rule":"B","start":3}],"end":6,"rule":"B","start":2}],"end":6,"rule":"D","start":0}}
  {"consumed":6,"expected":[[23,24]],"far":6,"result":"matched","tree":{"children":[{"children":[{"children":[{"children":[],"end":4,"rule":"B","start":4}],"end":5,"rule":"B","start":3}],"end":6,"rule":"B","start":2}],"end":6,"rule":"D","start":0}}
  {"consumed":6,"expected":[[23,24]],"far":6,"result":"matched","tree":{"children":[{"children":[{"children":[{"children":[],"end":4,"rule":"B","start":4}],"end":5,"rule":"B","start":3}],"end":6,"rule":"B","start":2}],"end":6,"rule":"D","start":0}}

With one c too few, the c of the outer B is missing at the end of the text.

  $ printf aabbc | pegtool parse abc.peg /dev/stdin
  {"expected":[[56,59]],"far":5,"result":"failed"}
  [1]

That failure, too, is the same for each capacity of the memo.

  $ for memo in 0 1 4096; do printf aabbc | pegtool parse abc.peg /dev/stdin --memo $memo; done
  {"expected":[[56,59]],"far":5,"result":"failed"}
  {"expected":[[56,59]],"far":5,"result":"failed"}
  {"expected":[[56,59]],"far":5,"result":"failed"}
  [1]

An empty rule matches the empty string in front of any text, and no terminal is tried.

  $ echo "A <-" > empty.peg
  $ printf zz | pegtool parse empty.peg /dev/stdin
  {"consumed":0,"expected":[],"far":0,"result":"matched","tree":{"children":[],"end":0,"rule":"A","start":0}}

A negative predicate over the empty literal always fails, and adds no terminal (docs/USAGE.md).

  $ echo "S <- !''" > never.peg
  $ printf q | pegtool parse never.peg /dev/stdin
  {"expected":[],"far":0,"result":"failed"}
  [1]

The first alternative fails at its last letter, and the second one matches (worked out by hand).

  $ echo "A <- '(' A ')' 'x' / '(' A ')' 'y' / 'a'" > twice.peg
  $ printf '(a)y' | pegtool parse twice.peg /dev/stdin
  {"consumed":4,"expected":[[15,18]],"far":3,"result":"matched","tree":{"children":[{"children":[],"end":2,"rule":"A","start":1}],"end":4,"rule":"A","start":0}}

A grammar that is left-recursive has no parse, also where the start doesn't call the rule.

  $ echo "S <- S" > left.peg
  $ printf x | pegtool parse left.peg /dev/stdin
  {"path":["S"],"refusal":"LeftRecursion"}
  [2]

  $ printf "S <- 'a'\nT <- T\n" > unused.peg
  $ printf a | pegtool parse unused.peg /dev/stdin
  {"path":["T"],"refusal":"LeftRecursion"}
  [2]
