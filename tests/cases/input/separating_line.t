The line `%%` that separates grammar and text on standard input.

A separator alone has an empty grammar before it, which is refused at its end.

  $ printf '%%%%\n' | pegtool
  {"at":0,"column":1,"line":1,"refusal":"Syntax"}
  [2]

A line doesn't separate if it only ends with `%%`, lacks its LF or ends with CR LF; its `%` is a syntax error.

  $ printf 'a%%%%\n' | pegtool
  {"at":1,"column":2,"line":1,"refusal":"Syntax"}
  [2]
  $ printf '%%%%' | pegtool
  {"at":0,"column":1,"line":1,"refusal":"Syntax"}
  [2]
  $ printf '%%%%\r\n' | pegtool
  {"at":0,"column":1,"line":1,"refusal":"Syntax"}
  [2]

The first separator counts, so the second one is the text, of three bytes.

  $ printf 'a<-.*\n%%%%\n%%%%\n' | pegtool
  {"consumed":3,"expected":[[3,4]],"far":3,"result":"matched","tree":{"children":[],"end":3,"rule":"a","start":0}}

A line of three doesn't separate, but the next line does: the grammar ends after it and is refused in it.

  $ printf 'a\n%%%%%%\n%%%%\nb' | pegtool
  {"at":2,"column":1,"line":2,"refusal":"Syntax"}
  [2]

Such a line may be in a comment of the grammar; then the text is `b`.

  $ printf 'a<-.\n#%%%%%%\n%%%%\nb' | pegtool
  {"consumed":1,"expected":[],"far":0,"result":"matched","tree":{"children":[],"end":1,"rule":"a","start":0}}

Empty input is an empty grammar.

  $ printf '' | pegtool
  {"at":0,"column":1,"line":1,"refusal":"Syntax"}
  [2]
