The bytes of nodes with `--text`, as a string or as hexadecimal digits.

A node of an empty text has empty text.

  $ printf '' | pegtool parse <(echo 'list <- .*') /dev/stdin --rows --text
  {"consumed":0,"expected":[[8,9]],"far":0,"result":"matched","rows":[[1,"list",0,0,""]]}
  $ printf '' | pegtool parse <(echo 'list <- .*') /dev/stdin --text
  {"consumed":0,"expected":[[8,9]],"far":0,"result":"matched","tree":{"children":[],"end":0,"rule":"list","start":0,"text":""}}

Quotes, backslashes and control characters are escaped as in JSON (RFC 8259, section 7); a slash and byte 127, shown
as @, aren't.

  $ printf '"\\/\n\001\177' | pegtool parse <(echo 'list <- .*') /dev/stdin --rows --text | tr '\177' @
  {"consumed":6,"expected":[[8,9]],"far":6,"result":"matched","rows":[[1,"list",0,6,"\"\\/\n\u0001@"]]}
  $ printf '"\\/\n\001\177' | pegtool parse <(echo 'list <- .*') /dev/stdin --text | tr '\177' @
  {"consumed":6,"expected":[[8,9]],"far":6,"result":"matched","tree":{"children":[],"end":6,"rule":"list","start":0,"text":"\"\\/\n\u0001@"}}

Characters of two, three and four bytes are text.

  $ printf 'A\303\237\342\202\254\360\237\230\200' | pegtool parse <(echo 'list <- .*') /dev/stdin --rows --text |
  >   grep -o 'A[^"]*' | od -An -tx1
   41 c3 9f e2 82 ac f0 9f 98 80 0a
  $ printf 'A\303\237\342\202\254\360\237\230\200' | pegtool parse <(echo 'list <- .*') /dev/stdin --text |
  >   grep -o 'A[^"]*' | od -An -tx1
   41 c3 9f e2 82 ac f0 9f 98 80 0a

Without its last byte the last character isn't UTF-8 (RFC 3629, section 4), so the bytes are digits.

  $ printf 'A\303\237\342\202\254\360\237\230' | pegtool parse <(echo 'list <- .*') /dev/stdin --rows --text
  {"consumed":9,"expected":[[8,9]],"far":9,"result":"matched","rows":[[1,"list",0,9,{"bytes":"41c39fe282acf09f98"}]]}
  $ printf 'A\303\237\342\202\254\360\237\230' | pegtool parse <(echo 'list <- .*') /dev/stdin --text
  {"consumed":9,"expected":[[8,9]],"far":9,"result":"matched","tree":{"bytes":"41c39fe282acf09f98","children":[],"end":9,"rule":"list","start":0}}

Byte 255 isn't UTF-8, and neither is byte 195 alone at the end.

  $ printf '\377\000\n\303' | pegtool parse <(echo 'list <- .*') /dev/stdin --rows --text
  {"consumed":4,"expected":[[8,9]],"far":4,"result":"matched","rows":[[1,"list",0,4,{"bytes":"ff000ac3"}]]}
  $ printf '\377\000\n\303' | pegtool parse <(echo 'list <- .*') /dev/stdin --text
  {"consumed":4,"expected":[[8,9]],"far":4,"result":"matched","tree":{"bytes":"ff000ac3","children":[],"end":4,"rule":"list","start":0}}

UTF-8 has no surrogates and no character in more bytes than it needs (RFC 3629, section 3).

  $ printf '\355\240\200' | pegtool parse <(echo 'list <- .*') /dev/stdin --rows --text
  {"consumed":3,"expected":[[8,9]],"far":3,"result":"matched","rows":[[1,"list",0,3,{"bytes":"eda080"}]]}
  $ printf '\355\240\200' | pegtool parse <(echo 'list <- .*') /dev/stdin --text
  {"consumed":3,"expected":[[8,9]],"far":3,"result":"matched","tree":{"bytes":"eda080","children":[],"end":3,"rule":"list","start":0}}
  $ printf '\300\200' | pegtool parse <(echo 'list <- .*') /dev/stdin --rows --text
  {"consumed":2,"expected":[[8,9]],"far":2,"result":"matched","rows":[[1,"list",0,2,{"bytes":"c080"}]]}
  $ printf '\300\200' | pegtool parse <(echo 'list <- .*') /dev/stdin --text
  {"consumed":2,"expected":[[8,9]],"far":2,"result":"matched","tree":{"bytes":"c080","children":[],"end":2,"rule":"list","start":0}}

The two bytes of one character are in two nodes, so each is digits; the last node is text.

  $ printf 'list <- word word word\nword <- .' > cut.peg; printf '\303\251!' > cut.txt
  > pegtool parse cut.peg cut.txt --rows --text
  {"consumed":3,"expected":[],"far":0,"result":"matched","rows":[[1,"list",0,3],[2,"word",0,1,{"bytes":"c3"}],[2,"word",1,2,{"bytes":"a9"}],[2,"word",2,3,"!"]]}
  $ pegtool parse cut.peg cut.txt --text
  {"consumed":3,"expected":[],"far":0,"result":"matched","tree":{"children":[{"bytes":"c3","children":[],"end":1,"rule":"word","start":0},{"bytes":"a9","children":[],"end":2,"rule":"word","start":1},{"children":[],"end":3,"rule":"word","start":2,"text":"!"}],"end":3,"rule":"list","start":0}}
