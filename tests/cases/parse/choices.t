How the parser takes the alternatives of a choice.

The second alternative is tried where the first fails, at the same position (Ford 2004, section 3.3). Worked out by
hand.

  $ printf "S <- 'a' S / 'b'\n" > g.peg
  $ printf aab > t.txt
  $ pegtool parse g.peg t.txt --rows
  {"consumed":3,"expected":[[5,8]],"far":2,"result":"matched","rows":[[1,"S",0,3],[2,"S",1,3],[3,"S",2,3]]}

Nothing is consumed where no alternative matches, and the furthest failure is at the start.

  $ printf c | cat g.peg <(echo %%) - | pegtool
  {"expected":[[5,8],[13,16]],"far":0,"result":"failed"}
  [1]
