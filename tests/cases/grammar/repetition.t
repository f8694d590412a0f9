Stars, pluses, optionals and counts, worked out by hand.

A star takes all it can and stops where its part fails (Ford 2004, section 3.3); that failure counts.

  $ cat > g.peg <<'END'
  > S <- 'a'* 'b'
  > END
  $ printf 'aac' | pegtool parse g.peg /dev/stdin --rows
  {"expected":[[5,8],[10,13]],"far":2,"result":"failed"}
  [1]
  $ printf 'aab' | pegtool parse g.peg /dev/stdin --rows
  {"consumed":3,"expected":[[5,8]],"far":2,"result":"matched","rows":[[1,"S",0,3]]}

A plus needs its part once; its code occurs twice, but its terminal is listed once.

  $ cat > g.peg <<'END'
  > S <- [a-c]+ 'x'?
  > END
  $ printf 'abcd' | pegtool parse g.peg /dev/stdin --rows
  {"consumed":3,"expected":[[5,10],[12,15]],"far":3,"result":"matched","rows":[[1,"S",0,3]]}

Where the part fails at once, the plus fails.

  $ printf 'd' | pegtool parse g.peg /dev/stdin --rows
  {"expected":[[5,10]],"far":0,"result":"failed"}
  [1]

The fourth iteration fails at 3, and three are enough.

  $ cat > g.peg <<'END'
  > A <- 'a'{2,4}
  > END
  $ printf 'aaa' | pegtool parse g.peg /dev/stdin --rows
  {"consumed":3,"expected":[[5,8]],"far":3,"result":"matched","rows":[[1,"A",0,3]]}

One iteration isn't enough.

  $ printf 'a' | pegtool parse g.peg /dev/stdin --rows
  {"expected":[[5,8]],"far":1,"result":"failed"}
  [1]

Four iterations are the most, so the fifth `a` isn't read and nothing fails.

  $ printf 'aaaaa' | pegtool parse g.peg /dev/stdin --rows
  {"consumed":4,"expected":[],"far":0,"result":"matched","rows":[[1,"A",0,4]]}

The second iteration fails after B, so neither its byte nor its node remains.

  $ cat > g.peg <<'END'
  > A <- (B 'x'){0,3}    B <- 'b'
  > END
  $ printf 'bxby' | pegtool parse g.peg /dev/stdin --rows
  {"consumed":2,"expected":[[8,11]],"far":3,"result":"matched","rows":[[1,"A",0,2],[2,"B",0,1]]}

No iteration is needed.

  $ printf 'y' | pegtool parse g.peg /dev/stdin --rows
  {"consumed":0,"expected":[[26,29]],"far":0,"result":"matched","rows":[[1,"A",0,0]]}

A counted part may match the empty string, three times at the same position.

  $ cat > g.peg <<'END'
  > A <- (''){3}
  > END
  $ printf 'a' | pegtool parse g.peg /dev/stdin --rows
  {"consumed":0,"expected":[],"far":0,"result":"matched","rows":[[1,"A",0,0]]}
  $ printf '' | pegtool parse g.peg /dev/stdin --rows
  {"consumed":0,"expected":[],"far":0,"result":"matched","rows":[[1,"A",0,0]]}
