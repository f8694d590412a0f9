Predicates as items of explain: a predicate is one item at its own start, and what fails within it doesn't count.

The predicate fails at position 2 where c follows, and the literal `'ab'` fails at its start. It has
two bytes, and so has what is found.

  $ printf "S <- 'ab' !'c' ." > g; printf abc > t
  $ for n in 0 1 4096; do pegtool explain g t --terminals --rules --memo $n; done | grep expected
  t:1:3: expected something other than 'c' in S, found 'c'
  t:1:3: expected something other than 'c' in S, found 'c'
  t:1:3: expected something other than 'c' in S, found 'c'
  $ printf ax > t
  $ for n in 0 1 4096; do pegtool explain g t --terminals --rules --memo $n; done | grep expected
  t:1:1: expected 'ab' in S, found 'ax'
  t:1:1: expected 'ab' in S, found 'ax'
  t:1:1: expected 'ab' in S, found 'ax'

At the end of the text the dot fails; c fails there, too, but within the predicate.

  $ printf ab > t
  $ for n in 0 1 4096; do pegtool explain g t --terminals --rules --memo $n; done | grep expected
  t:1:3: expected any byte in S, found the end
  t:1:3: expected any byte in S, found the end
  t:1:3: expected any byte in S, found the end

On abd only c fails, within the predicate, and the text matches.

  $ printf abd > t
  $ pegtool explain g t
  $ pegtool parse g t --rows
  {"consumed":3,"expected":[[11,14]],"far":2,"result":"matched","rows":[[1,"S",0,3]]}

The rule K is called in a predicate alone, so its literal is no item that fails.

  $ printf "S <- !K I    K <- 'if'    I <- .+" > g; printf if > t
  $ for n in 0 1 4096; do pegtool explain g t --terminals --rules --memo $n; done | grep expected
  t:1:1: expected something other than K in S, found 'i'
  t:1:1: expected something other than K in S, found 'i'
  t:1:1: expected something other than K in S, found 'i'
  $ printf '' > t
  $ for n in 0 1 4096; do pegtool explain g t --terminals --rules --memo $n; done | grep expected
  t:1:1: expected any byte in I, found the end
  t:1:1: expected any byte in I, found the end
  t:1:1: expected any byte in I, found the end

On ix the literal of K fails within the predicate, and the text matches.

  $ printf ix > t
  $ pegtool explain g t
  $ pegtool parse g t --rows | grep -o '"rows".*'
  "rows":[[1,"S",0,2],[2,"I",0,2]]}

The predicate `&'a'` is one item, which fails at position 0 like the second alternative.

  $ printf "S <- &'a' . 'b' / 'c'" > g; printf x > t
  $ for n in 0 1 4096; do pegtool explain g t --terminals --rules --memo $n; done | grep expected
  t:1:1: expected &'a' in S or 'c' in S, found 'x'
  t:1:1: expected &'a' in S or 'c' in S, found 'x'
  t:1:1: expected &'a' in S or 'c' in S, found 'x'
  $ printf ac > t
  $ for n in 0 1 4096; do pegtool explain g t --terminals --rules --memo $n; done | grep expected
  t:1:2: expected 'b' in S, found 'c'
  t:1:2: expected 'b' in S, found 'c'
  t:1:2: expected 'b' in S, found 'c'

On c the predicate fails, and the second alternative matches the whole text.

  $ printf c > t
  $ pegtool explain g t
  $ pegtool parse g t --rows | grep -o '"rows".*'
  "rows":[[1,"S",0,1]]}

After one or two of a the class must match; the count is greedy.

  $ printf "S <- 'a'{1,2} [b-c]" > g; printf aad > t
  $ for n in 0 1 4096; do pegtool explain g t --terminals --rules --memo $n; done | grep expected
  t:1:3: expected [b-c] in S, found 'd'
  t:1:3: expected [b-c] in S, found 'd'
  t:1:3: expected [b-c] in S, found 'd'

The match ends at position 2 of abc, and at 1 the second a of the count failed.

  $ printf abc > t
  $ pegtool explain g t
  t:1:3: expected the end, found 'c'
  abc
    ^
  [1]
  $ printf aab > t
  $ pegtool explain g t
