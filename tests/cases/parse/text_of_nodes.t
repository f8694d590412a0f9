Nodes with the bytes that they span: the option --text.

Each node without children has its bytes, as a member of the node or at the end of its row.

  $ printf "Pairs <- Pair*\nPair <- Key '=' Value\nKey <- [a-z]+\nValue <- .\n" > pairs.peg
  $ printf ab=1 > one.txt
  $ pegtool parse pairs.peg one.txt --text
  {"consumed":4,"expected":[[44,49]],"far":4,"result":"matched","tree":{"children":[{"children":[{"children":[],"end":2,"rule":"Key","start":0,"text":"ab"},{"children":[],"end":4,"rule":"Value","start":3,"text":"1"}],"end":4,"rule":"Pair","start":0}],"end":4,"rule":"Pairs","start":0}}

  $ pegtool parse pairs.peg one.txt --text --rows
  {"consumed":4,"expected":[[44,49]],"far":4,"result":"matched","rows":[[1,"Pairs",0,4],[2,"Pair",0,4],[3,"Key",0,2,"ab"],[3,"Value",3,4,"1"]]}

A node whose children aren't printed has its bytes, with those of its children among them.

  $ printf ab=1cd=2 | pegtool parse pairs.peg /dev/stdin --text --rows --show Pair
  {"consumed":8,"expected":[[44,49]],"far":8,"result":"matched","rows":[[1,"Pairs",0,8],[2,"Pair",0,4,"ab=1"],[2,"Pair",4,8,"cd=2"]]}

  $ pegtool parse pairs.peg one.txt --text --hide Pair,Key
  {"consumed":4,"expected":[[44,49]],"far":4,"result":"matched","tree":{"children":[{"children":[],"end":4,"rule":"Value","start":3,"text":"1"}],"end":4,"rule":"Pairs","start":0}}

A quote is escaped in the string of its node (RFC 8259, section 7).

  $ printf 'a="' | pegtool parse pairs.peg /dev/stdin --text --rows --show Value
  {"consumed":3,"expected":[[44,49]],"far":3,"result":"matched","rows":[[1,"Pairs",0,3],[2,"Value",2,3,"\""]]}

Bytes that aren't UTF-8 are given as hexadecimal digits: 255 never occurs, and 195 alone is half a letter.

  $ printf 'a=\377' | pegtool parse pairs.peg /dev/stdin --text --rows --show Value
  {"consumed":3,"expected":[[44,49]],"far":3,"result":"matched","rows":[[1,"Pairs",0,3],[2,"Value",2,3,{"bytes":"ff"}]]}

  $ printf 'a=\303' | pegtool parse pairs.peg /dev/stdin --text --show Value
  {"consumed":3,"expected":[[44,49]],"far":3,"result":"matched","tree":{"children":[{"bytes":"c3","children":[],"end":3,"rule":"Value","start":2}],"end":3,"rule":"Pairs","start":0}}

A node that matches the empty string has an empty text, here on an empty text.

  $ pegtool parse pairs.peg /dev/null --text
  {"consumed":0,"expected":[[44,49]],"far":0,"result":"matched","tree":{"children":[],"end":0,"rule":"Pairs","start":0,"text":""}}

Without a tree there is no node that could have bytes, so both options are no command line.

  $ pegtool parse pairs.peg one.txt --text --no-tree 2>&1 | head -n 1
  error: the argument '--text' cannot be used with '--no-tree'

  $ pegtool parse pairs.peg one.txt --text --no-tree 2> /dev/null
  [3]

A failure and the refusal of a listed name are as without bytes.

  $ printf "S <- 'a' S / 'b'" > chain.peg
  $ printf a | pegtool parse chain.peg /dev/stdin --text
  {"expected":[[5,8],[13,16]],"far":1,"result":"failed"}
  [1]

  $ printf b | pegtool parse chain.peg /dev/stdin --text --show T
  {"name":"T","refusal":"NoSuchRule"}
  [3]
