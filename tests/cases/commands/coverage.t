The command profile with the option --coverage: what no text uses, worked out by hand.

On the text aab both alternatives of the chain match, and on bcd only the second one. Of bcd a prefix matches alone, so
it counts as a match with --prefix.

  $ echo "S <- 'a' S / 'b'" > line; printf aab > aab; printf bcd > bcd
  $ pegtool profile line --coverage aab
  {"matched":1,"texts":1,"unused_alternatives":[],"unused_rules":[]}

  $ pegtool profile line --coverage bcd
  {"matched":0,"texts":1,"unused_alternatives":[{"column":6,"end":10,"line":1,"start":5,"tried":true}],"unused_rules":[]}
  [1]

  $ pegtool profile line --coverage bcd --prefix
  {"matched":1,"texts":1,"unused_alternatives":[{"column":6,"end":10,"line":1,"start":5,"tried":true}],"unused_rules":[]}
  [1]

Of several texts each adds what it uses, wherever the option is.

  $ pegtool profile line --coverage bcd aab
  {"matched":1,"texts":2,"unused_alternatives":[],"unused_rules":[]}

  $ pegtool profile line bcd aab --coverage
  {"matched":1,"texts":2,"unused_alternatives":[],"unused_rules":[]}

Neither a memo nor a limit of steps that is enough changes what is used.

  $ pegtool profile line --coverage bcd --memo 9 --steps 100
  {"matched":0,"texts":1,"unused_alternatives":[{"column":6,"end":10,"line":1,"start":5,"tried":true}],"unused_rules":[]}
  [1]

The text aab doesn't match here: T matches by its a, and then S fails.

  $ printf "S <- T 'c'\nT <- 'a' / 'b'\n" > short
  $ pegtool profile short --coverage aab
  {"matched":0,"texts":1,"unused_alternatives":[{"column":12,"end":25,"line":2,"start":22,"tried":false}],"unused_rules":[{"column":1,"end":1,"line":1,"rule":"S","start":0,"tried":true}]}
  [1]

From the rule T a prefix of both texts matches, each by another alternative, and S is unused.

  $ pegtool profile short --coverage aab bcd --start T
  {"matched":0,"texts":2,"unused_alternatives":[],"unused_rules":[{"column":1,"end":1,"line":1,"rule":"S","start":0,"tried":false}]}
  [1]

A refused grammar and an unknown start are reported before any text is opened.

  $ pegtool profile aab --coverage bcd nowhere
  {"at":3,"column":4,"line":1,"refusal":"Syntax"}
  [2]

  $ pegtool profile line --coverage nowhere --start T
  {"name":"T","refusal":"NoSuchStart"}
  [3]

  $ pegtool profile examples/json.peg --coverage missing --start Nothing
  {"name":"Nothing","refusal":"NoSuchStart"}
  [3]

A text that takes too many steps is stopped and the others are read; one that can't be opened is still a fault.

  $ pegtool profile line --coverage aab bcd --steps 1
  {"matched":0,"stopped":2,"texts":2,"unused_alternatives":[{"column":6,"end":10,"line":1,"start":5,"tried":false},{"column":14,"end":16,"line":1,"start":13,"tried":false}],"unused_rules":[{"column":1,"end":1,"line":1,"rule":"S","start":0,"tried":false}]}
  pegtool: aab: the parse takes more steps than --steps allows
  pegtool: bcd: the parse takes more steps than --steps allows
  [6]

  $ pegtool profile line --coverage aab nowhere --steps 1
  pegtool: file fault
  nowhere: No such file or directory
  [4]

Without a memo each of 20 parentheses doubles the steps; with one, which is the default, ten thousand are enough.

  $ pegtool profile examples/cookbook/memo.peg --coverage examples/cookbook/memo/match_nested.txt --steps 10000 | cut -c 1-24
  {"matched":1,"texts":1,"

  $ pegtool profile examples/cookbook/memo.peg --coverage examples/cookbook/memo/match_nested.txt --memo 0 --steps 10000 2>&1 | tail -n 1
  pegtool: examples/cookbook/memo/match_nested.txt: the parse takes more steps than --steps allows

A grammar or a text that can't be opened is a fault, and nothing is printed.

  $ pegtool profile nowhere --coverage aab
  pegtool: file fault
  nowhere: No such file or directory
  [4]

  $ pegtool profile line --coverage nowhere aab
  pegtool: file fault
  nowhere: No such file or directory
  [4]

  $ pegtool profile line --coverage aab nowhere
  pegtool: file fault
  nowhere: No such file or directory
  [4]

So is a text that can be opened and not read, such as a folder.

  $ pegtool profile examples/json.peg --coverage examples/json/match_object.txt .
  pegtool: file fault
  .: Is a directory
  [4]
