Texts whose parse profile --coverage stops, as it takes more steps than --steps allows. The other texts count, and
standard error names the stopped ones.

The memo is 4,096 by default, as for parse: without one, each of 20 parentheses doubles the steps of the C grammar or
more, and a million are not enough.

  $ echo '((((((((((((((((((((x))))))))))))))))))));' > nested.c
  $ pegtool profile examples/c.peg --coverage nested.c | cut -c 1-24
  {"matched":1,"texts":1,"
  $ pegtool profile examples/c.peg --coverage nested.c --memo 0 --steps 1000000 2> e | cut -c 1-36; cat e
  {"matched":0,"stopped":1,"texts":1,"
  pegtool: nested.c: the parse takes more steps than --steps allows

The marked grammar calls an empty rule before and after each alternative, and at the end of each rule. On a that is
choice, call, ret, test, call, ret, commit, call, ret, ret and end: 11 steps. On b it is choice, call, ret, test, call,
ret, test, call, ret, call, ret, ret and end: 13.

  $ printf "S <- 'a' / 'b'" > g; printf a > a; printf b > b
  $ pegtool profile g --coverage a b --memo 0 --steps 13
  {"matched":2,"texts":2,"unused_alternatives":[],"unused_rules":[]}
  $ pegtool profile g --coverage b a --memo 0 --steps 12
  {"matched":1,"stopped":1,"texts":2,"unused_alternatives":[{"column":12,"end":14,"line":1,"start":11,"tried":false}],"unused_rules":[]}
  pegtool: b: the parse takes more steps than --steps allows
  [6]
  $ pegtool profile g --coverage a --memo 0 --steps 11
  {"matched":1,"texts":1,"unused_alternatives":[{"column":12,"end":14,"line":1,"start":11,"tried":false}],"unused_rules":[]}
  [1]

If all texts stop, nothing is used. A text that is named twice is two texts.

  $ pegtool profile g --coverage b a b --memo 0 --steps 10
  {"matched":0,"stopped":3,"texts":3,"unused_alternatives":[{"column":6,"end":8,"line":1,"start":5,"tried":false},{"column":12,"end":14,"line":1,"start":11,"tried":false}],"unused_rules":[{"column":1,"end":1,"line":1,"rule":"S","start":0,"tried":false}]}
  pegtool: b: the parse takes more steps than --steps allows
  pegtool: a: the parse takes more steps than --steps allows
  pegtool: b: the parse takes more steps than --steps allows
  [6]

A stopped text is status 6, also where the others use everything. The optional part adds a choice and a test, and a
commit where it matches: 15 steps on b and 16 on bb.

  $ printf "S <- 'a' / 'b' 'b'?" > h; printf bb > bb
  $ pegtool profile h --coverage bb a b --memo 0 --steps 15
  {"matched":2,"stopped":1,"texts":3,"unused_alternatives":[],"unused_rules":[]}
  pegtool: bb: the parse takes more steps than --steps allows
  [6]

A stopped text isn't one that fails: c fails after choice, call, ret, test, call, ret and test, and isn't named. What it
tries counts.

  $ printf c > c
  $ pegtool profile g --coverage c b --memo 0 --steps 12
  {"matched":0,"stopped":1,"texts":2,"unused_alternatives":[{"column":6,"end":8,"line":1,"start":5,"tried":true},{"column":12,"end":14,"line":1,"start":11,"tried":true}],"unused_rules":[{"column":1,"end":1,"line":1,"rule":"S","start":0,"tried":true}]}
  pegtool: b: the parse takes more steps than --steps allows
  [6]

The names have the escapes of messages: byte 27 is \x1B, and a line end \n.

  $ printf b > "$(printf 'b\033[31m\n.txt')"
  $ pegtool profile g --coverage a b*.txt --memo 0 --steps 12
  {"matched":1,"stopped":1,"texts":2,"unused_alternatives":[{"column":12,"end":14,"line":1,"start":11,"tried":false}],"unused_rules":[]}
  pegtool: b\x1B[31m\n.txt: the parse takes more steps than --steps allows
  [6]

A text that can't be opened or is too long ends the run, also after a stopped one: then nothing is said of the texts.

  $ pegtool profile g --coverage b nowhere --memo 0 --steps 12
  pegtool: file fault
  nowhere: No such file or directory
  [4]
  $ pegtool profile g --coverage b /dev/zero --memo 0 --steps 12
  {"refusal":"TextTooLong"}
  [6]

Of two texts at fault the first one is reported, whatever its fault.

  $ pegtool profile g --coverage nowhere /dev/zero
  pegtool: file fault
  nowhere: No such file or directory
  [4]
  $ pegtool profile g --coverage /dev/zero nowhere
  {"refusal":"TextTooLong"}
  [6]
