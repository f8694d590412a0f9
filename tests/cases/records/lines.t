The line of a record is that of a parse of the record, with its number as the first member.

The tree, the list of nodes and the bytes of nodes are those of the record: its first byte is at position 0.

  $ printf "S <- A ',' B\nA <- [a-z]+\nB <- [0-9]+\n" > g; printf 'x,1\nyz,23\n' > t
  $ pegtool parse g t --lines --rows
  {"record":1,"consumed":3,"expected":[[30,35]],"far":3,"result":"matched","rows":[[1,"S",0,3],[2,"A",0,1],[2,"B",2,3]]}
  {"record":2,"consumed":5,"expected":[[30,35]],"far":5,"result":"matched","rows":[[1,"S",0,5],[2,"A",0,2],[2,"B",3,5]]}
  $ pegtool parse g t --lines --rows --show B --text --matched
  {"record":1,"consumed":3,"expected":[[30,35]],"far":3,"result":"matched","rows":[[1,"S",0,3],[2,"B",2,3,"1"]]}
  {"record":2,"consumed":5,"expected":[[30,35]],"far":5,"result":"matched","rows":[[1,"S",0,5],[2,"B",3,5,"23"]]}
  $ printf 'x,1\n' | pegtool parse g --lines --hide A
  {"record":1,"consumed":3,"expected":[[30,35]],"far":3,"result":"matched","tree":{"children":[{"children":[],"end":3,"rule":"B","start":2}],"end":3,"rule":"S","start":0}}

The start is a rule of its own.

  $ printf '12\nx\n' | pegtool parse g --lines --start B --no-tree
  {"record":1,"consumed":2,"expected":[[30,35]],"far":2,"result":"matched"}
  {"record":2,"expected":[[30,35]],"far":0,"result":"failed"}
  [1]

Without the number the lines are those that parse prints for each record as a text.

  $ pegtool parse g t --lines | sed 's/"record":[0-9]*,//' > lines
  $ printf x,1 > 1; printf yz,23 > 2; (pegtool parse g 1; pegtool parse g 2) | cmp - lines
