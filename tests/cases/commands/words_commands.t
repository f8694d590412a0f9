The commands of the program and the file that each of them reads, by what is printed.

Without arguments the program reads standard input: a grammar, a line `%%` and a text.

  $ printf "S <- 'a'\n%%%%\na" | pegtool
  {"consumed":1,"expected":[],"far":0,"result":"matched","tree":{"children":[],"end":1,"rule":"S","start":0}}

The command table prints the outcomes of the rules of its file (docs/USAGE.md).

  $ printf "S <- 'a'" > x; pegtool table x
  {"table":[{"fails":true,"nothing":false,"rule":"S","something":true}]}

The command code prints the end, the one test of a byte and the return.

  $ pegtool code x
  {"code":[["end"],["test",0,[[97,97]]],["ret"]],"entries":[1]}

The command check prints that its file is accepted, and how many rules it has.

  $ pegtool check x
  {"result":"accepted","rules":1}

The start of lint is the first rule or the named one; --proved leaves out the caret.

  $ printf "S <- 'a'\nValue <- [^x] S\n" > g
  $ pegtool lint g
  {"warnings":[{"column":1,"end":14,"kind":"UnusedRule","line":2,"proved":true,"rule":"Value","start":9},{"column":10,"end":22,"kind":"ClassBeginsWithCaret","line":2,"proved":false,"rule":"Value","start":18}]}
  [1]
  $ pegtool lint g --proved
  {"warnings":[{"column":1,"end":14,"kind":"UnusedRule","line":2,"proved":true,"rule":"Value","start":9}]}
  [1]
  $ pegtool lint --start Value g
  {"warnings":[{"column":10,"end":22,"kind":"ClassBeginsWithCaret","line":2,"proved":false,"rule":"Value","start":18}]}
  [1]

The value of an option may begin with a dash; no rule has such a name.

  $ pegtool lint g --start -a --proved
  {"name":"-a","refusal":"NoSuchStart"}
  [3]
