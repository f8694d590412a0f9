The help of the commands, and the command that each of them gives as an example.

Help is printed on standard output with status 0, for the program and for a parse.

  $ pegtool --help > /dev/null
  $ pegtool parse --help > /dev/null

The example of the program is a parse of four letters with a comma (worked out by hand).

  $ printf "List <- Value (',' Value)*\nValue <- [a-z]+\n" > grammar.peg; printf ab,c > text
  $ pegtool --help | grep '^Example: '
  Example: pegtool parse grammar.peg text

  $ pegtool parse grammar.peg text
  {"consumed":4,"expected":[[15,18],[36,41]],"far":4,"result":"matched","tree":{"children":[{"children":[],"end":2,"rule":"Value","start":0},{"children":[],"end":4,"rule":"Value","start":3}],"end":4,"rule":"List","start":0}}

The example of a parse starts from a value, which is only a part of the text.

  $ pegtool parse --help | grep '^Example: '
  Example: pegtool parse grammar.peg text --start Value --all --rows

  $ pegtool parse grammar.peg text --start Value --all --rows
  {"consumed":2,"expected":[[36,41]],"far":2,"result":"partial","rows":[[1,"Value",0,2]]}
  [1]

The grammar has two rules, and no loop or recursion that doesn't consume a byte.

  $ pegtool check --help | grep '^Example: '
  Example: pegtool check grammar.peg

  $ pegtool check grammar.peg
  {"result":"accepted","rules":2}

Both rules can fail or consume a byte, and neither can match the empty string.

  $ pegtool table --help | grep '^Example: '
  Example: pegtool table grammar.peg

  $ pegtool table grammar.peg
  {"table":[{"fails":true,"nothing":false,"rule":"List","something":true},{"fails":true,"nothing":false,"rule":"Value","something":true}]}

The code has a loop for each of the two repetitions (worked out by hand).

  $ pegtool code --help | grep '^Example: '
  Example: pegtool code grammar.peg

  $ pegtool code grammar.peg
  {"code":[["end"],["call",1],["choice",6],["test",0,[[44,44]]],["call",1],["commit",2],["ret"],["test",1,[[97,122]]],["choice",11],["test",1,[[97,122]]],["commit",8],["ret"]],"entries":[1,7]}

If texts are parsed from a value, the rule for lists is unused.

  $ pegtool lint --help | grep '^Example: '
  Example: pegtool lint grammar.peg --start Value

  $ pegtool lint grammar.peg --start Value
  {"warnings":[{"column":1,"end":4,"kind":"UnusedRule","line":1,"proved":true,"rule":"List","start":0}]}
  [1]

The list is called once and the value twice, at different positions (worked out by hand).

  $ pegtool profile --help | grep '^Example: '
  Example: pegtool profile grammar.peg text

  $ pegtool profile grammar.peg text
  {"consumed":4,"result":"matched","rules":[{"again":0,"calls":1,"places":1,"rule":"List"},{"again":0,"calls":2,"places":2,"rule":"Value"}],"steps":20}

The example of explain has no message about a text that matches as a whole.

  $ pegtool explain --help | grep '^Example: '
  Example: pegtool explain grammar.peg *.txt

  $ cp text text.txt; pegtool explain grammar.peg *.txt

A folder has a text that matches and one that doesn't.

  $ pegtool test --help | grep '^Example: '
  Example: pegtool test grammar.peg tests

  $ mkdir tests; cp text tests/match_two; printf , > tests/no_match_comma
  $ pegtool test grammar.peg tests
  2 passed, 0 failed, 0 ignored
