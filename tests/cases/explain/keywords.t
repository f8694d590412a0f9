The furthest failure outside predicates, in a query language with keywords. A literal and a predicate fail at their
own start, and no result depends on the memo.

The keyword is no name; the blank after it fails further on, but within the predicate.

  $ cat > g <<'END'
  > Q <- SELECT N FROM N !.
  > N <- !K [A-Za-z]+ S
  > K <- SELECT / FROM
  > SELECT <- 'SELECT' S
  > FROM <- 'FROM' S
  > S <- ' '*
  > END
  $ printf 'SELECT FROM t' > t
  $ for n in 0 1 4096; do pegtool explain g t --terminals --rules --memo $n; done | grep expected
  t:1:8: expected ' ' in S or something other than K in N, found 'F'
  t:1:8: expected ' ' in S or something other than K in N, found 'F'
  t:1:8: expected ' ' in S or something other than K in N, found 'F'
  $ printf 'SELECT a FROM SELECT' > t
  $ for n in 0 1 4096; do pegtool explain g t --terminals --rules --memo $n; done | grep expected
  t:1:15: expected ' ' in S or something other than K in N, found 'S'
  t:1:15: expected ' ' in S or something other than K in N, found 'S'
  t:1:15: expected ' ' in S or something other than K in N, found 'S'

Of FRO the last byte of the literal fails at position 12, but the literal counts at 9. FRO is found up to the blank.

  $ printf '' > t
  $ for n in 0 1 4096; do pegtool explain g t --terminals --rules --memo $n; done | grep expected
  t:1:1: expected 'SELECT' in SELECT, found the end
  t:1:1: expected 'SELECT' in SELECT, found the end
  t:1:1: expected 'SELECT' in SELECT, found the end
  $ printf 'SELECT a FRO t' > t
  $ for n in 0 1 4096; do pegtool explain g t --terminals --rules --memo $n; done | grep expected
  t:1:10: expected 'FROM' in FROM or ' ' in S, found 'FRO'
  t:1:10: expected 'FROM' in FROM or ' ' in S, found 'FRO'
  t:1:10: expected 'FROM' in FROM or ' ' in S, found 'FRO'
  $ printf 'SELECT 1 FROM t' > t
  $ for n in 0 1 4096; do pegtool explain g t --terminals --rules --memo $n; done | grep expected
  t:1:8: expected [A-Za-z] in N or ' ' in S, found '1'
  t:1:8: expected [A-Za-z] in N or ' ' in S, found '1'
  t:1:8: expected [A-Za-z] in N or ' ' in S, found '1'

Where the query should end, a letter, a blank or the end could follow its last name.

  $ printf 'SELECT a FROM t;' > t
  $ for n in 0 1 4096; do pegtool explain g t --terminals --rules --memo $n; done | grep expected
  t:1:16: expected the end in Q, [A-Za-z] in N or ' ' in S, found ';'
  t:1:16: expected the end in Q, [A-Za-z] in N or ' ' in S, found ';'
  t:1:16: expected the end in Q, [A-Za-z] in N or ' ' in S, found ';'

No blank is needed after the keyword, so this text matches and has no message.

  $ printf 'SELECTa FROM t' > t
  $ for n in 0 1 4096; do pegtool explain g t --memo $n && echo $n; done
  0
  1
  4096
  $ for n in 0 1 4096; do pegtool parse g t --rows --memo $n; done | grep -o '"rows".*' | uniq
  "rows":[[1,"Q",0,14],[2,"SELECT",0,6],[3,"S",6,6],[2,"N",6,8],[3,"S",7,8],[2,"FROM",8,13],[3,"S",12,13],[2,"N",13,14],[3,"S",14,14]]}

The copies of rules within predicates, `N!` and `Q!`, are no rules of the grammar.

  $ printf a > t
  $ pegtool explain g t --start 'N!'
  g: no rule is named N!
  [3]
  $ pegtool explain g t --start 'Q!'
  g: no rule is named Q!
  [3]
  $ pegtool explain g t --start 'X'
  g: no rule is named X
  [3]
  $ pegtool explain g t --start '' > message
  [3]
  $ cat -A message
  g: no rule is named $

From the rule N the keyword is no name at position 0.

  $ printf FROM > t
  $ pegtool explain g t --start N --terminals --rules --memo 0
  t:1:1: expected something other than K in N, found 'F'
  FROM
  ^
  [1]

The parse of the whole query takes more than five steps, so it has no place.

  $ printf 'SELECT a FROM t' > t
  $ pegtool explain g t --memo 0 --steps 5
  t: the parse takes more steps than --steps allows
  [6]

A grammar that isn't well-formed is refused before any text is read.

  $ printf "S <- S 'a' / 'b'" > g
  $ pegtool explain g t
  g:1:1: left recursion: S -> S
  S <- S 'a' / 'b'
  ^
  [2]

The counts make 520,200 tests of a byte; items with their rules would need over 1,000,000 instructions.

  $ printf "S <- (('a'{255}){255}){8}" > g; printf b > t
  $ pegtool explain g t --rules
  t:1:1: expected 'a', found 'b'
  b
  ^
  note: failures in predicates are included
  [1]

A small grammar has items with their rules, on the same text.

  $ printf "S <- 'a'" > g
  $ pegtool explain g t --rules
  t:1:1: expected 'a' in S, found 'b'
  b
  ^
  [1]
