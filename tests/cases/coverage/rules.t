The rules that profile --coverage reports, those that match nowhere in a parse, and the starts and limits of its
parses.

On a the rule B is never called, so B and its alternatives are unused.

  $ printf "S <- A / B\nA <- 'a'\nB <- 'b' B / 'b'" > g; printf a > t1
  $ for n in 0 1 4096; do pegtool profile g --coverage t1 --memo $n; done
  {"matched":1,"texts":1,"unused_alternatives":[{"column":10,"end":10,"line":1,"start":9,"tried":false},{"column":6,"end":30,"line":3,"start":25,"tried":false},{"column":14,"end":36,"line":3,"start":33,"tried":false}],"unused_rules":[{"column":1,"end":21,"line":3,"rule":"B","start":20,"tried":false}]}
  {"matched":1,"texts":1,"unused_alternatives":[{"column":10,"end":10,"line":1,"start":9,"tried":false},{"column":6,"end":30,"line":3,"start":25,"tried":false},{"column":14,"end":36,"line":3,"start":33,"tried":false}],"unused_rules":[{"column":1,"end":21,"line":3,"rule":"B","start":20,"tried":false}]}
  {"matched":1,"texts":1,"unused_alternatives":[{"column":10,"end":10,"line":1,"start":9,"tried":false},{"column":6,"end":30,"line":3,"start":25,"tried":false},{"column":14,"end":36,"line":3,"start":33,"tried":false}],"unused_rules":[{"column":1,"end":21,"line":3,"rule":"B","start":20,"tried":false}]}
  [1]

On bb the rule B matches by its first alternative at 0 and by its second one at 1; A is called and fails.

  $ printf bb > t1
  $ for n in 0 1 4096; do pegtool profile g --coverage t1 --memo $n; done
  {"matched":1,"texts":1,"unused_alternatives":[{"column":6,"end":6,"line":1,"start":5,"tried":true}],"unused_rules":[{"column":1,"end":12,"line":2,"rule":"A","start":11,"tried":true}]}
  {"matched":1,"texts":1,"unused_alternatives":[{"column":6,"end":6,"line":1,"start":5,"tried":true}],"unused_rules":[{"column":1,"end":12,"line":2,"rule":"A","start":11,"tried":true}]}
  {"matched":1,"texts":1,"unused_alternatives":[{"column":6,"end":6,"line":1,"start":5,"tried":true}],"unused_rules":[{"column":1,"end":12,"line":2,"rule":"A","start":11,"tried":true}]}
  [1]

The two texts together use all rules and alternatives, and the status is 0.

  $ printf a > t1; printf bb > t2
  $ for n in 0 1 4096; do pegtool profile g --coverage t1 t2 --memo $n; done
  {"matched":2,"texts":2,"unused_alternatives":[],"unused_rules":[]}
  {"matched":2,"texts":2,"unused_alternatives":[],"unused_rules":[]}
  {"matched":2,"texts":2,"unused_alternatives":[],"unused_rules":[]}

On x all rules are called, and none matches.

  $ printf x > t1
  $ for n in 0 1 4096; do pegtool profile g --coverage t1 --memo $n; done
  {"matched":0,"texts":1,"unused_alternatives":[{"column":6,"end":6,"line":1,"start":5,"tried":true},{"column":10,"end":10,"line":1,"start":9,"tried":true},{"column":6,"end":30,"line":3,"start":25,"tried":true},{"column":14,"end":36,"line":3,"start":33,"tried":true}],"unused_rules":[{"column":1,"end":1,"line":1,"rule":"S","start":0,"tried":true},{"column":1,"end":12,"line":2,"rule":"A","start":11,"tried":true},{"column":1,"end":21,"line":3,"rule":"B","start":20,"tried":true}]}
  {"matched":0,"texts":1,"unused_alternatives":[{"column":6,"end":6,"line":1,"start":5,"tried":true},{"column":10,"end":10,"line":1,"start":9,"tried":true},{"column":6,"end":30,"line":3,"start":25,"tried":true},{"column":14,"end":36,"line":3,"start":33,"tried":true}],"unused_rules":[{"column":1,"end":1,"line":1,"rule":"S","start":0,"tried":true},{"column":1,"end":12,"line":2,"rule":"A","start":11,"tried":true},{"column":1,"end":21,"line":3,"rule":"B","start":20,"tried":true}]}
  {"matched":0,"texts":1,"unused_alternatives":[{"column":6,"end":6,"line":1,"start":5,"tried":true},{"column":10,"end":10,"line":1,"start":9,"tried":true},{"column":6,"end":30,"line":3,"start":25,"tried":true},{"column":14,"end":36,"line":3,"start":33,"tried":true}],"unused_rules":[{"column":1,"end":1,"line":1,"rule":"S","start":0,"tried":true},{"column":1,"end":12,"line":2,"rule":"A","start":11,"tried":true},{"column":1,"end":21,"line":3,"rule":"B","start":20,"tried":true}]}
  [1]

A grammar that isn't well-formed has no parse, so it has no coverage either.

  $ printf "S <- S 'a' / 'b'" > g; printf b > t; pegtool profile g --coverage t
  {"path":["S"],"refusal":"LeftRecursion"}
  [2]

Without a start, or from S, the text uses S, B and the second alternative. A is tried.

  $ printf "S <- A / B\nA <- 'a'\nB <- 'b'" > g; printf b > t1
  $ pegtool profile g --coverage t1
  {"matched":1,"texts":1,"unused_alternatives":[{"column":6,"end":6,"line":1,"start":5,"tried":true}],"unused_rules":[{"column":1,"end":12,"line":2,"rule":"A","start":11,"tried":true}]}
  [1]
  $ pegtool profile g --coverage t1 --start S
  {"matched":1,"texts":1,"unused_alternatives":[{"column":6,"end":6,"line":1,"start":5,"tried":true}],"unused_rules":[{"column":1,"end":12,"line":2,"rule":"A","start":11,"tried":true}]}
  [1]

From B the other rules are unused, and both alternatives of S.

  $ pegtool profile g --coverage t1 --start B
  {"matched":1,"texts":1,"unused_alternatives":[{"column":6,"end":6,"line":1,"start":5,"tried":false},{"column":10,"end":10,"line":1,"start":9,"tried":false}],"unused_rules":[{"column":1,"end":1,"line":1,"rule":"S","start":0,"tried":false},{"column":1,"end":12,"line":2,"rule":"A","start":11,"tried":false}]}
  [1]

C is no rule, nor is `!0`, by which the first alternative is marked inside.

  $ pegtool profile g --coverage t1 --start C
  {"name":"C","refusal":"NoSuchStart"}
  [3]
  $ pegtool profile g --coverage t1 --start '!0'
  {"name":"!0","refusal":"NoSuchStart"}
  [3]

One step isn't enough for a text, which is then stopped and uses nothing, and 1,000 are.

  $ printf "S <- 'a' / 'b'" > g; printf a > t
  $ pegtool profile g --coverage t --start T
  {"name":"T","refusal":"NoSuchStart"}
  [3]
  $ pegtool profile g --coverage t --steps 1
  {"matched":0,"stopped":1,"texts":1,"unused_alternatives":[{"column":6,"end":8,"line":1,"start":5,"tried":false},{"column":12,"end":14,"line":1,"start":11,"tried":false}],"unused_rules":[{"column":1,"end":1,"line":1,"rule":"S","start":0,"tried":false}]}
  pegtool: t: the parse takes more steps than --steps allows
  [6]
  $ pegtool profile g --coverage t --start S --steps 1000
  {"matched":1,"texts":1,"unused_alternatives":[{"column":12,"end":14,"line":1,"start":11,"tried":false}],"unused_rules":[]}
  [1]

A rule that only a predicate calls is used if it matches there, and so the texts can use everything.

  $ printf "S <- (!End .)+ End\nEnd <- ';' / '.'" > g; printf 'a;' > t1; printf 'b.' > t2
  $ pegtool profile g --coverage t1
  {"matched":1,"texts":1,"unused_alternatives":[{"column":14,"end":35,"line":2,"start":32,"tried":true}],"unused_rules":[]}
  [1]
  $ pegtool profile g --coverage t1 t2
  {"matched":2,"texts":2,"unused_alternatives":[],"unused_rules":[]}

A text counts as a match if the whole text matches, and with --prefix if a prefix of it does. What is used is the same.

  $ printf "S <- 'a' / 'b'" > g; printf ab > t1; printf b > t2; printf c > t3
  $ pegtool profile g --coverage t1 t2 t3
  {"matched":1,"texts":3,"unused_alternatives":[],"unused_rules":[]}
  $ pegtool profile g --coverage t1 t2 t3 --prefix
  {"matched":2,"texts":3,"unused_alternatives":[],"unused_rules":[]}
