Arguments and their options, and the lines and statuses of the commands on two small grammars.

Each command on a grammar file has its line (docs/USAGE.md).

  $ echo "S <- 'a' S / 'b'" > line; printf "S <- T 'c'\nT <- 'a' / 'b'\n" > short; printf aab > aab; printf bcd > bcd
  $ pegtool table line
  {"table":[{"fails":true,"nothing":false,"rule":"S","something":true}]}

  $ pegtool check line
  {"result":"accepted","rules":1}

  $ pegtool code line
  {"code":[["end"],["choice",5],["test",0,[[97,97]]],["call",0],["commit",6],["test",1,[[98,98]]],["ret"]],"entries":[1]}

  $ pegtool check short
  {"result":"accepted","rules":2}

  $ pegtool lint line
  {"warnings":[]}

A text is no grammar file: its name has no arrow, so it ends too early.

  $ pegtool check aab
  {"at":3,"column":4,"line":1,"refusal":"Syntax"}
  [2]

The options of lint say from which rule texts are parsed, and which warnings are printed.

  $ pegtool lint short --proved --start T
  {"warnings":[{"column":1,"end":1,"kind":"UnusedRule","line":1,"proved":true,"rule":"S","start":0}]}
  [1]

  $ pegtool lint short --start U
  {"name":"U","refusal":"NoSuchStart"}
  [3]

A parse has a grammar file and a text, in this order.

  $ pegtool parse line aab
  {"consumed":3,"expected":[[5,8]],"far":2,"result":"matched","tree":{"children":[{"children":[{"children":[],"end":3,"rule":"S","start":2}],"end":3,"rule":"S","start":1}],"end":3,"rule":"S","start":0}}

  $ pegtool parse short aab
  {"expected":[[7,10]],"far":1,"result":"failed"}
  [1]

Options may be in any order, and neither the memo nor the whole text changes these rows.

  $ pegtool parse line aab --rows
  {"consumed":3,"expected":[[5,8]],"far":2,"result":"matched","rows":[[1,"S",0,3],[2,"S",1,3],[3,"S",2,3]]}

  $ pegtool parse line aab --rows --memo 0
  {"consumed":3,"expected":[[5,8]],"far":2,"result":"matched","rows":[[1,"S",0,3],[2,"S",1,3],[3,"S",2,3]]}

  $ pegtool parse line aab --all --rows --memo 7
  {"consumed":3,"expected":[[5,8]],"far":2,"result":"matched","rows":[[1,"S",0,3],[2,"S",1,3],[3,"S",2,3]]}

The text bcd has a match of two bytes, which is partial if the whole text must match.

  $ pegtool parse short bcd
  {"consumed":2,"expected":[[16,19]],"far":0,"result":"matched","tree":{"children":[{"children":[],"end":1,"rule":"T","start":0}],"end":2,"rule":"S","start":0}}

  $ pegtool parse short bcd --all
  {"consumed":2,"expected":[[16,19]],"far":0,"result":"partial","tree":{"children":[{"children":[],"end":1,"rule":"T","start":0}],"end":2,"rule":"S","start":0}}
  [1]

From the rule T its match has one byte, and no parse starts from a rule U.

  $ pegtool parse short bcd --start T --memo 1 --all --rows
  {"consumed":1,"expected":[[16,19]],"far":0,"result":"partial","rows":[[1,"T",0,1]]}
  [1]

  $ pegtool parse short bcd --start U
  {"name":"U","refusal":"NoSuchStart"}
  [3]

The parse of aab takes 15 steps, so a limit of 14 is not enough.

  $ pegtool parse line aab --rows --steps 15
  {"consumed":3,"expected":[[5,8]],"far":2,"result":"matched","rows":[[1,"S",0,3],[2,"S",1,3],[3,"S",2,3]]}

  $ pegtool parse line aab --rows --steps 14
  {"refusal":"StepLimit"}
  [6]

All options of a parse are passed on together: T takes five steps on b, and the match is partial.

  $ pegtool parse short bcd --start T --memo 7 --steps 5 --all
  {"consumed":1,"expected":[[16,19]],"far":0,"result":"partial","tree":{"children":[],"end":1,"rule":"T","start":0}}
  [1]

  $ pegtool parse short bcd --start T --memo 7 --steps 4 --all
  {"refusal":"StepLimit"}
  [6]

A memo of one result saves steps of the text (a)y, so its capacity is passed on, too.

  $ echo "A <- '(' A ')' 'x' / '(' A ')' 'y' / 'a'" > twice; printf '(a)y' > y
  $ pegtool parse twice y --start A --memo 1 --steps 19 --all --no-tree
  {"consumed":4,"expected":[[15,18]],"far":3,"result":"matched"}

  $ pegtool parse twice y --start A --memo 0 --steps 19 --all --no-tree
  {"refusal":"StepLimit"}
  [6]

A list of shown or of hidden rules is passed on, and without one all nodes are printed.

  $ pegtool parse short bcd --rows --show T,S
  {"consumed":2,"expected":[[16,19]],"far":0,"result":"matched","rows":[[1,"S",0,2],[2,"T",0,1]]}

  $ pegtool parse short bcd --rows --hide S,T
  {"consumed":2,"expected":[[16,19]],"far":0,"result":"matched","rows":[[1,"S",0,2]]}

  $ pegtool parse short bcd --rows
  {"consumed":2,"expected":[[16,19]],"far":0,"result":"matched","rows":[[1,"S",0,2],[2,"T",0,1]]}

Without arguments standard input is a grammar file, a line %% and a text.

  $ printf "S <- 'a'\n%%%%\na" | pegtool
  {"consumed":1,"expected":[],"far":0,"result":"matched","tree":{"children":[],"end":1,"rule":"S","start":0}}

A command that there isn't is a usage error, and its last line says how to parse a text.

  $ pegtool tables 2>&1 | sed -n '1p;$p'
  error: unrecognized subcommand 'tables'
  To parse a text T by a grammar file G: pegtool parse G T

  $ pegtool tables 2> /dev/null
  [3]

A parse needs a text, and its numbers must be in their ranges (docs/USAGE.md).

  $ cat > fails <<'END'
  > pegtool "$@" 2> message; echo $?; grep -o '^error: ' message | tr -d ' '
  > END
  $ bash fails tables examples/json.peg
  3
  error:

  $ bash fails parse examples/json.peg
  3
  error:

  $ bash fails parse examples/json.peg text --memo 1000001
  3
  error:

  $ bash fails parse examples/json.peg text --memo -1
  3
  error:

  $ bash fails parse examples/json.peg text --steps 0
  3
  error:

  $ bash fails parse examples/json.peg text --steps 1000000000001
  3
  error:

Shown and hidden rules together are no command line.

  $ bash fails parse examples/c.peg text --show Name --hide Number
  3
  error:

Two texts need the option for coverage.

  $ bash fails profile examples/json.peg examples/json/match_object.txt examples/json/match_object.txt
  3
  error:

Arguments must be UTF-8, and other ones are a usage error.

  $ pegtool check $'\xff' 2>&1 | grep -n .
  1:error: a word isn't UTF-8
  3:For more information, try '--help'.

  $ pegtool check $'\xff' 2> /dev/null
  [3]
