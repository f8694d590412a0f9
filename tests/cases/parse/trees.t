Trees as lists of rows and as nested objects, with and without the bytes of their nodes.

In the second word of the list is another word, `win`, so `one` fails there, at 5.

  $ cat > list.peg <<'END'
  > list <- word ' ' outer
  > word <- 'one' / 'win'
  > outer <- 't' word 's'
  > END
  > printf 'one twins' > list.txt

A root with two children, the second with one child of its own, is four rows or nested objects.

  $ pegtool parse list.peg list.txt --rows
  {"consumed":9,"expected":[[31,36]],"far":5,"result":"matched","rows":[[1,"list",0,9],[2,"word",0,3],[2,"outer",4,9],[3,"word",5,8]]}
  $ pegtool parse list.peg list.txt
  {"consumed":9,"expected":[[31,36]],"far":5,"result":"matched","tree":{"children":[{"children":[],"end":3,"rule":"word","start":0},{"children":[{"children":[],"end":8,"rule":"word","start":5}],"end":9,"rule":"outer","start":4}],"end":9,"rule":"list","start":0}}

With `--text`, the nodes without children have their bytes.

  $ pegtool parse list.peg list.txt --rows --text
  {"consumed":9,"expected":[[31,36]],"far":5,"result":"matched","rows":[[1,"list",0,9],[2,"word",0,3,"one"],[2,"outer",4,9],[3,"word",5,8,"win"]]}
  $ pegtool parse list.peg list.txt --text
  {"consumed":9,"expected":[[31,36]],"far":5,"result":"matched","tree":{"children":[{"children":[],"end":3,"rule":"word","start":0,"text":"one"},{"children":[{"children":[],"end":8,"rule":"word","start":5,"text":"win"}],"end":9,"rule":"outer","start":4}],"end":9,"rule":"list","start":0}}

With `--show word` the node of outer is left out and its child is a child of the root.

  $ pegtool parse list.peg list.txt --rows --show word
  {"consumed":9,"expected":[[31,36]],"far":5,"result":"matched","rows":[[1,"list",0,9],[2,"word",0,3],[2,"word",5,8]]}
  $ pegtool parse list.peg list.txt --show word
  {"consumed":9,"expected":[[31,36]],"far":5,"result":"matched","tree":{"children":[{"children":[],"end":3,"rule":"word","start":0},{"children":[],"end":8,"rule":"word","start":5}],"end":9,"rule":"list","start":0}}

The list of `--hide` has the rules whose nodes are left out, so all others are shown.

  $ pegtool parse list.peg list.txt --rows --hide word
  {"consumed":9,"expected":[[31,36]],"far":5,"result":"matched","rows":[[1,"list",0,9],[2,"outer",4,9]]}
  $ pegtool parse list.peg list.txt --rows --hide list
  {"consumed":9,"expected":[[31,36]],"far":5,"result":"matched","rows":[[1,"list",0,9],[2,"word",0,3],[2,"outer",4,9],[3,"word",5,8]]}

The root is shown even if its rule isn't in the list.

  $ pegtool parse list.peg list.txt --rows --hide list,word,outer
  {"consumed":9,"expected":[[31,36]],"far":5,"result":"matched","rows":[[1,"list",0,9]]}
  $ pegtool parse list.peg list.txt --hide list,word,outer
  {"consumed":9,"expected":[[31,36]],"far":5,"result":"matched","tree":{"children":[],"end":9,"rule":"list","start":0}}

With all rules in the list the tree is the same as without one.

  $ pegtool parse list.peg list.txt --rows --show list,word,outer
  {"consumed":9,"expected":[[31,36]],"far":5,"result":"matched","rows":[[1,"list",0,9],[2,"word",0,3],[2,"outer",4,9],[3,"word",5,8]]}
  $ pegtool parse list.peg list.txt --show list,word,outer
  {"consumed":9,"expected":[[31,36]],"far":5,"result":"matched","tree":{"children":[{"children":[],"end":3,"rule":"word","start":0},{"children":[{"children":[],"end":8,"rule":"word","start":5}],"end":9,"rule":"outer","start":4}],"end":9,"rule":"list","start":0}}

A node alone has no children.

  $ printf abcdefg | pegtool parse <(echo 'list <- .{7}') /dev/stdin --rows
  {"consumed":7,"expected":[],"far":0,"result":"matched","rows":[[1,"list",0,7]]}
  $ printf abcdefg | pegtool parse <(echo 'list <- .{7}') /dev/stdin
  {"consumed":7,"expected":[],"far":0,"result":"matched","tree":{"children":[],"end":7,"rule":"list","start":0}}

Where two nodes end at once, the level falls by two in the next row.

  $ printf 'list <- outer word\nouter <- word\nword <- ..' > ends.peg;
  >   printf abcd | pegtool parse ends.peg /dev/stdin --rows
  {"consumed":4,"expected":[],"far":0,"result":"matched","rows":[[1,"list",0,4],[2,"outer",0,2],[3,"word",0,2],[2,"word",2,4]]}
  $ printf abcd | pegtool parse ends.peg /dev/stdin
  {"consumed":4,"expected":[],"far":0,"result":"matched","tree":{"children":[{"children":[{"children":[],"end":2,"rule":"word","start":0}],"end":2,"rule":"outer","start":0},{"children":[],"end":4,"rule":"word","start":2}],"end":4,"rule":"list","start":0}}

Levels are those of the printed nodes: two hidden nodes, one in the other, have a child each, and a last one has none.

  $ cat > levels.peg <<'END'
  > list <- a word
  > a <- word b
  > b <- . word .
  > word <- 'ab' / 'v' deep / 'w' c 'yz'
  > deep <- 'x'
  > c <- 'x'
  > END
  > printf 'ab(vx)wxyz' | pegtool parse levels.peg /dev/stdin --rows --hide a,b,c
  {"consumed":10,"expected":[[49,53],[56,59]],"far":6,"result":"matched","rows":[[1,"list",0,10],[2,"word",0,2],[2,"word",3,5],[3,"deep",4,5],[2,"word",6,10]]}
