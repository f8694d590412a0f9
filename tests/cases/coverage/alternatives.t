The alternatives that profile --coverage reports: those that match nowhere in a parse, predicates included, each with
whether it is tried. No result depends on the memo, so that each command tries three.

On cd the sequence matches by its c, so the first alternative and b are unused.

  $ printf "S <- 'a' / ('b' / 'c') 'd'?" > g; printf cd > t1
  $ for n in 0 1 4096; do pegtool profile g --coverage t1 --memo $n; done
  {"matched":1,"texts":1,"unused_alternatives":[{"column":6,"end":8,"line":1,"start":5,"tried":true},{"column":13,"end":15,"line":1,"start":12,"tried":true}],"unused_rules":[]}
  {"matched":1,"texts":1,"unused_alternatives":[{"column":6,"end":8,"line":1,"start":5,"tried":true},{"column":13,"end":15,"line":1,"start":12,"tried":true}],"unused_rules":[]}
  {"matched":1,"texts":1,"unused_alternatives":[{"column":6,"end":8,"line":1,"start":5,"tried":true},{"column":13,"end":15,"line":1,"start":12,"tried":true}],"unused_rules":[]}
  [1]

A second text adds the alternatives that match in it to those of the first one.

  $ printf cd > t1; printf a > t2
  $ for n in 0 1 4096; do pegtool profile g --coverage t1 t2 --memo $n; done
  {"matched":2,"texts":2,"unused_alternatives":[{"column":13,"end":15,"line":1,"start":12,"tried":true}],"unused_rules":[]}
  {"matched":2,"texts":2,"unused_alternatives":[{"column":13,"end":15,"line":1,"start":12,"tried":true}],"unused_rules":[]}
  {"matched":2,"texts":2,"unused_alternatives":[{"column":13,"end":15,"line":1,"start":12,"tried":true}],"unused_rules":[]}
  [1]

On a alone the first alternative matches. So the sequence is never tried, nor are the two alternatives in it.

  $ printf a > t1
  $ for n in 0 1 4096; do pegtool profile g --coverage t1 --memo $n; done
  {"matched":1,"texts":1,"unused_alternatives":[{"column":12,"end":27,"line":1,"start":11,"tried":false},{"column":13,"end":15,"line":1,"start":12,"tried":false},{"column":19,"end":21,"line":1,"start":18,"tried":false}],"unused_rules":[]}
  {"matched":1,"texts":1,"unused_alternatives":[{"column":12,"end":27,"line":1,"start":11,"tried":false},{"column":13,"end":15,"line":1,"start":12,"tried":false},{"column":19,"end":21,"line":1,"start":18,"tried":false}],"unused_rules":[]}
  {"matched":1,"texts":1,"unused_alternatives":[{"column":12,"end":27,"line":1,"start":11,"tried":false},{"column":13,"end":15,"line":1,"start":12,"tried":false},{"column":19,"end":21,"line":1,"start":18,"tried":false}],"unused_rules":[]}
  [1]

On x all alternatives are tried, and none matches; an alternative stands before those inside it.

  $ printf x > t1
  $ for n in 0 1 4096; do pegtool profile g --coverage t1 --memo $n; done
  {"matched":0,"texts":1,"unused_alternatives":[{"column":6,"end":8,"line":1,"start":5,"tried":true},{"column":12,"end":27,"line":1,"start":11,"tried":true},{"column":13,"end":15,"line":1,"start":12,"tried":true},{"column":19,"end":21,"line":1,"start":18,"tried":true}],"unused_rules":[{"column":1,"end":1,"line":1,"rule":"S","start":0,"tried":true}]}
  {"matched":0,"texts":1,"unused_alternatives":[{"column":6,"end":8,"line":1,"start":5,"tried":true},{"column":12,"end":27,"line":1,"start":11,"tried":true},{"column":13,"end":15,"line":1,"start":12,"tried":true},{"column":19,"end":21,"line":1,"start":18,"tried":true}],"unused_rules":[{"column":1,"end":1,"line":1,"rule":"S","start":0,"tried":true}]}
  {"matched":0,"texts":1,"unused_alternatives":[{"column":6,"end":8,"line":1,"start":5,"tried":true},{"column":12,"end":27,"line":1,"start":11,"tried":true},{"column":13,"end":15,"line":1,"start":12,"tried":true},{"column":19,"end":21,"line":1,"start":18,"tried":true}],"unused_rules":[{"column":1,"end":1,"line":1,"rule":"S","start":0,"tried":true}]}
  [1]

A choice in parentheses alone is an alternative, whose span is without them.

  $ printf "S <- 'a' / ('b' / 'c')" > g; printf x > t1
  $ for n in 0 1 4096; do pegtool profile g --coverage t1 --memo $n; done
  {"matched":0,"texts":1,"unused_alternatives":[{"column":6,"end":8,"line":1,"start":5,"tried":true},{"column":13,"end":21,"line":1,"start":12,"tried":true},{"column":13,"end":15,"line":1,"start":12,"tried":true},{"column":19,"end":21,"line":1,"start":18,"tried":true}],"unused_rules":[{"column":1,"end":1,"line":1,"rule":"S","start":0,"tried":true}]}
  {"matched":0,"texts":1,"unused_alternatives":[{"column":6,"end":8,"line":1,"start":5,"tried":true},{"column":13,"end":21,"line":1,"start":12,"tried":true},{"column":13,"end":15,"line":1,"start":12,"tried":true},{"column":19,"end":21,"line":1,"start":18,"tried":true}],"unused_rules":[{"column":1,"end":1,"line":1,"rule":"S","start":0,"tried":true}]}
  {"matched":0,"texts":1,"unused_alternatives":[{"column":6,"end":8,"line":1,"start":5,"tried":true},{"column":13,"end":21,"line":1,"start":12,"tried":true},{"column":13,"end":15,"line":1,"start":12,"tried":true},{"column":19,"end":21,"line":1,"start":18,"tried":true}],"unused_rules":[{"column":1,"end":1,"line":1,"rule":"S","start":0,"tried":true}]}
  [1]

The predicate matches by its b, so that b is used; its a is tried, and c is not.

  $ printf "S <- &('a' / 'b') . / 'c'" > g; printf b > t1
  $ for n in 0 1 4096; do pegtool profile g --coverage t1 --memo $n; done
  {"matched":1,"texts":1,"unused_alternatives":[{"column":8,"end":10,"line":1,"start":7,"tried":true},{"column":23,"end":25,"line":1,"start":22,"tried":false}],"unused_rules":[]}
  {"matched":1,"texts":1,"unused_alternatives":[{"column":8,"end":10,"line":1,"start":7,"tried":true},{"column":23,"end":25,"line":1,"start":22,"tried":false}],"unused_rules":[]}
  {"matched":1,"texts":1,"unused_alternatives":[{"column":8,"end":10,"line":1,"start":7,"tried":true},{"column":23,"end":25,"line":1,"start":22,"tried":false}],"unused_rules":[]}
  [1]

On c the predicate fails after both of its alternatives, so the whole first alternative is tried in vain.

  $ printf c > t1
  $ for n in 0 1 4096; do pegtool profile g --coverage t1 --memo $n; done
  {"matched":1,"texts":1,"unused_alternatives":[{"column":6,"end":19,"line":1,"start":5,"tried":true},{"column":8,"end":10,"line":1,"start":7,"tried":true},{"column":14,"end":16,"line":1,"start":13,"tried":true}],"unused_rules":[]}
  {"matched":1,"texts":1,"unused_alternatives":[{"column":6,"end":19,"line":1,"start":5,"tried":true},{"column":8,"end":10,"line":1,"start":7,"tried":true},{"column":14,"end":16,"line":1,"start":13,"tried":true}],"unused_rules":[]}
  {"matched":1,"texts":1,"unused_alternatives":[{"column":6,"end":19,"line":1,"start":5,"tried":true},{"column":8,"end":10,"line":1,"start":7,"tried":true},{"column":14,"end":16,"line":1,"start":13,"tried":true}],"unused_rules":[]}
  [1]

The b of the first alternative matches, and counts, although the match is abandoned where x fails.

  $ printf "S <- ('a' / 'b') 'x' / 'b' 'y'" > g; printf by > t1
  $ for n in 0 1 4096; do pegtool profile g --coverage t1 --memo $n; done
  {"matched":1,"texts":1,"unused_alternatives":[{"column":6,"end":20,"line":1,"start":5,"tried":true},{"column":7,"end":9,"line":1,"start":6,"tried":true}],"unused_rules":[]}
  {"matched":1,"texts":1,"unused_alternatives":[{"column":6,"end":20,"line":1,"start":5,"tried":true},{"column":7,"end":9,"line":1,"start":6,"tried":true}],"unused_rules":[]}
  {"matched":1,"texts":1,"unused_alternatives":[{"column":6,"end":20,"line":1,"start":5,"tried":true},{"column":7,"end":9,"line":1,"start":6,"tried":true}],"unused_rules":[]}
  [1]

An empty alternative is at the end of the slash before it, in line 2.

  $ printf "S <- A  'x'*\nA <- B / \nB <- 'b'" > g; printf b > t1
  $ for n in 0 1 4096; do pegtool profile g --coverage t1 --memo $n --start B; done
  {"matched":1,"texts":1,"unused_alternatives":[{"column":6,"end":19,"line":2,"start":18,"tried":false},{"column":9,"end":21,"line":2,"start":21,"tried":false}],"unused_rules":[{"column":1,"end":1,"line":1,"rule":"S","start":0,"tried":false},{"column":1,"end":14,"line":2,"rule":"A","start":13,"tried":false}]}
  {"matched":1,"texts":1,"unused_alternatives":[{"column":6,"end":19,"line":2,"start":18,"tried":false},{"column":9,"end":21,"line":2,"start":21,"tried":false}],"unused_rules":[{"column":1,"end":1,"line":1,"rule":"S","start":0,"tried":false},{"column":1,"end":14,"line":2,"rule":"A","start":13,"tried":false}]}
  {"matched":1,"texts":1,"unused_alternatives":[{"column":6,"end":19,"line":2,"start":18,"tried":false},{"column":9,"end":21,"line":2,"start":21,"tried":false}],"unused_rules":[{"column":1,"end":1,"line":1,"rule":"S","start":0,"tried":false},{"column":1,"end":14,"line":2,"rule":"A","start":13,"tried":false}]}
  [1]

One text can use everything in a predicate that fails: both alternatives match at some position of ab, and x then fails.

  $ printf "S <- !(('a' / 'b')+ 'x') .*" > g; printf ab > t1
  $ for n in 0 1 4096; do pegtool profile g --coverage t1 --memo $n; done
  {"matched":1,"texts":1,"unused_alternatives":[],"unused_rules":[]}
  {"matched":1,"texts":1,"unused_alternatives":[],"unused_rules":[]}
  {"matched":1,"texts":1,"unused_alternatives":[],"unused_rules":[]}

A text that fails counts, too: on ac the a matches before the c that is one too many.

  $ printf "S <- ('a' / 'b') 'b' !." > g; printf ac > t1
  $ for n in 0 1 4096; do pegtool profile g --coverage t1 --memo $n; done
  {"matched":0,"texts":1,"unused_alternatives":[{"column":13,"end":15,"line":1,"start":12,"tried":false}],"unused_rules":[{"column":1,"end":1,"line":1,"rule":"S","start":0,"tried":true}]}
  {"matched":0,"texts":1,"unused_alternatives":[{"column":13,"end":15,"line":1,"start":12,"tried":false}],"unused_rules":[{"column":1,"end":1,"line":1,"rule":"S","start":0,"tried":true}]}
  {"matched":0,"texts":1,"unused_alternatives":[{"column":13,"end":15,"line":1,"start":12,"tried":false}],"unused_rules":[{"column":1,"end":1,"line":1,"rule":"S","start":0,"tried":true}]}
  [1]
