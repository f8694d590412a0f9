Counts such as {2,4}: how many parts they take, what code they have, and which of them are refused.

A count takes as many parts as match, here three, and the fourth fails at the end (worked out by hand).

  $ printf "A <- 'a'{2,4}" > count.peg
  $ printf aaa | pegtool parse count.peg /dev/stdin
  {"consumed":3,"expected":[[5,8]],"far":3,"result":"matched","tree":{"children":[],"end":3,"rule":"A","start":0}}

A count fails if fewer parts match than its first number says (worked out by hand).

  $ printf a | pegtool parse count.peg /dev/stdin
  {"expected":[[5,8]],"far":1,"result":"failed"}
  [1]

A count takes no more parts than its last number, so no terminal fails here (worked out by hand).

  $ printf aaaaa | pegtool parse count.peg /dev/stdin
  {"consumed":4,"expected":[],"far":0,"result":"matched","tree":{"children":[],"end":4,"rule":"A","start":0}}

The code has the part once for each iteration, and a choice point before each optional one (worked out by hand).

  $ pegtool code count.peg
  {"code":[["end"],["test",0,[[97,97]]],["test",0,[[97,97]]],["choice",9],["test",0,[[97,97]]],["choice",8],["test",0,[[97,97]]],["commit",8],["commit",9],["ret"]],"entries":[1]}

Three parts take nine steps of this code: the instructions at 1 to 6, 8, 9 and 0.

  $ printf aaa | pegtool parse count.peg /dev/stdin --memo 0 --steps 9
  {"consumed":3,"expected":[[5,8]],"far":3,"result":"matched","tree":{"children":[],"end":3,"rule":"A","start":0}}

  $ printf aaa | pegtool parse count.peg /dev/stdin --memo 4096 --steps 9
  {"consumed":3,"expected":[[5,8]],"far":3,"result":"matched","tree":{"children":[],"end":3,"rule":"A","start":0}}

The same parse is refused with a limit of eight steps, with and without a memo.

  $ printf aaa | pegtool parse count.peg /dev/stdin --memo 0 --steps 8
  {"refusal":"StepLimit"}
  [6]

  $ printf aaa | pegtool parse count.peg /dev/stdin --memo 4096 --steps 8
  {"refusal":"StepLimit"}
  [6]

A count whose last number is 0, below the first or over 255 is refused at its brace (docs/NOTATION.md).

  $ printf "A <- 'x'{0}" | pegtool check /dev/stdin
  {"at":8,"column":9,"line":1,"refusal":"BadCount"}
  [2]

  $ printf "A <- 'x'{3,2}" | pegtool check /dev/stdin
  {"at":8,"column":9,"line":1,"refusal":"BadCount"}
  [2]

  $ printf "A <- 'x'{256}" | pegtool check /dev/stdin
  {"at":8,"column":9,"line":1,"refusal":"BadCount"}
  [2]

A parse by a grammar with such a count is refused with the line that a check prints.

  $ printf x > x.txt
  $ printf "A <- 'x'{0}" | pegtool parse /dev/stdin x.txt
  {"at":8,"column":9,"line":1,"refusal":"BadCount"}
  [2]

  $ printf "A <- 'x'{3,2}" | pegtool parse /dev/stdin x.txt
  {"at":8,"column":9,"line":1,"refusal":"BadCount"}
  [2]

  $ printf "A <- 'x'{256}" | pegtool parse /dev/stdin x.txt
  {"at":8,"column":9,"line":1,"refusal":"BadCount"}
  [2]

A count without its last number isn't in the notation, so no token starts at the brace (docs/NOTATION.md).

  $ printf "A <- 'x'{2,}" | pegtool check /dev/stdin
  {"at":8,"column":9,"line":1,"refusal":"Syntax"}
  [2]

A primary has at most one suffix, so the second count can follow in no grammar (docs/NOTATION.md).

  $ printf "A <- 'x'{2}{3}" | pegtool check /dev/stdin
  {"at":11,"column":12,"line":1,"refusal":"Syntax"}
  [2]

A number may have leading zeros, and there may be spacing between a part and its count.

  $ printf "A <- 'x' {007}" | pegtool check /dev/stdin
  {"result":"accepted","rules":1}

The part of a count may match the empty string, since the number of iterations is bounded.

  $ printf "A <- (''){3}" | pegtool check /dev/stdin
  {"result":"accepted","rules":1}

A count from zero can match the empty string, so a star over it can loop on the empty string.

  $ printf "A <- ('x'{0,2})*" | pegtool check /dev/stdin
  {"column":6,"end":16,"line":1,"refusal":"EmptyLoop","rule":"A","start":5}
  [2]

A rule that begins with a count of itself calls itself before it consumes a byte.

  $ printf "A <- A{0,2}" | pegtool check /dev/stdin
  {"path":["A"],"refusal":"LeftRecursion"}
  [2]

A count from zero stands for nested optionals, which can match the empty string or something and never fail.

  $ printf "A <- 'x'{0,2}" | pegtool table /dev/stdin
  {"table":[{"fails":false,"nothing":true,"rule":"A","something":true}]}

Nested counts multiply: 255 times 255 times 255 is over the limit of 1,000,000 instructions.

  $ printf "A <- (('a'{255}){255}){255}" | pegtool check /dev/stdin
  {"refusal":"CodeTooLarge"}
  [2]

255 times 255 times 15 tests are 975,375 instructions, and with the end and the return 975,377.

  $ printf "A <- (('a'{255}){255}){15}" | pegtool check /dev/stdin
  {"result":"accepted","rules":1}

  $ printf "A <- (('a'{255}){255}){15}" | pegtool code /dev/stdin | grep -o '\["' | wc -l
  975377

A number of a million zeros and a 7 is 7, so there are seven tests.

  $ { printf "A <- 'x'{"; head -c 1000000 /dev/zero | tr '\0' 0; printf '7}'; } | pegtool code /dev/stdin
  {"code":[["end"],["test",0,[[120,120]]],["test",0,[[120,120]]],["test",0,[[120,120]]],["test",0,[[120,120]]],["test",0,[[120,120]]],["test",0,[[120,120]]],["test",0,[[120,120]]],["ret"]],"entries":[1]}

A number of a million ones and a 7 is over 255, and refused at the brace.

  $ { printf "A <- 'x'{"; head -c 1000000 /dev/zero | tr '\0' 1; printf '7}'; } | pegtool check /dev/stdin
  {"at":8,"column":9,"line":1,"refusal":"BadCount"}
  [2]
