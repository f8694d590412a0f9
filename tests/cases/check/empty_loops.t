Stars and pluses that can loop without consuming a byte.

The part of each star or plus can succeed without consuming a byte (Ford 2004, section 3.6), so its span is reported.

  $ pegtool check <(printf "%s" "A <- ('a'*)*")
  {"column":6,"end":12,"line":1,"refusal":"EmptyLoop","rule":"A","start":5}
  [2]
  $ pegtool check <(printf "%s" "A <- ('')+")
  {"column":6,"end":10,"line":1,"refusal":"EmptyLoop","rule":"A","start":5}
  [2]
  $ pegtool check <(printf "%s" "A <- (('')?)*")
  {"column":6,"end":13,"line":1,"refusal":"EmptyLoop","rule":"A","start":5}
  [2]
  $ pegtool check <(printf "%s" "A <- (''{255})*")
  {"column":6,"end":15,"line":1,"refusal":"EmptyLoop","rule":"A","start":5}
  [2]
  $ pegtool check <(printf "%s" "A <- (''{254,255})+")
  {"column":6,"end":19,"line":1,"refusal":"EmptyLoop","rule":"A","start":5}
  [2]
  $ pegtool check <(printf "%s" "A <- (('' ''){3})*")
  {"column":6,"end":18,"line":1,"refusal":"EmptyLoop","rule":"A","start":5}
  [2]

A count bounds its iterations, but the star in it doesn't.

  $ pegtool check <(printf "%s" "A <- (''*){255}")
  {"column":7,"end":9,"line":1,"refusal":"EmptyLoop","rule":"A","start":6}
  [2]

The inner star has no outcome, since it never ends, so the outer one is no loop on the empty string.

  $ pegtool check <(printf "%s" "A <- (''*)*")
  {"column":7,"end":9,"line":1,"refusal":"EmptyLoop","rule":"A","start":6}
  [2]

The first alternative matches the empty string, so the outer star is a loop, and it starts first.

  $ pegtool check <(printf "%s" "A <- ('' / ''*)*")
  {"column":6,"end":16,"line":1,"refusal":"EmptyLoop","rule":"A","start":5}
  [2]

The first star or plus in the file that loops is reported.

  $ pegtool check <(printf "%s" "A <- (''*)* ('a'?)*")
  {"column":7,"end":9,"line":1,"refusal":"EmptyLoop","rule":"A","start":6}
  [2]
  $ pegtool check <(printf "%s" "A <- (('a'?)*)+")
  {"column":7,"end":13,"line":1,"refusal":"EmptyLoop","rule":"A","start":6}
  [2]
  $ pegtool check <(printf "A <- ''*\nB <- ''*")
  {"column":6,"end":8,"line":1,"refusal":"EmptyLoop","rule":"A","start":5}
  [2]

A loop is reported in a predicate, and also where no parse arrives.

  $ pegtool check <(printf "%s" "A <- !(''*)")
  {"column":8,"end":10,"line":1,"refusal":"EmptyLoop","rule":"A","start":7}
  [2]
  $ pegtool check <(printf "%s" "A <- [] ''*")
  {"column":9,"end":11,"line":1,"refusal":"EmptyLoop","rule":"A","start":8}
  [2]

A loop is reported before left recursion, even if its rule comes later and isn't called.

  $ pegtool check <(printf "A <- A\nB <- ''*")
  {"column":6,"end":15,"line":2,"refusal":"EmptyLoop","rule":"B","start":12}
  [2]
