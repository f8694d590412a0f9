How explain lists what is expected: first the end, then different items once, in the order of the grammar file, and at
most eight. An optional choice matches the empty string, so that the end is expected, too.

A grammar that is too large for its items fails by a predicate, in which no terminal fails. A note says which failures
count.

  $ printf "S <- !'a' (('a'{255}){255}){8}" > g; printf a > t
  $ pegtool explain g t
  t:1:1: expected something else, found 'a'
  a
  ^
  note: failures in predicates are included
  [1]

The empty literal matches the empty string, so only the end is expected at the first byte.

  $ printf "S <- ''" > g; printf z > t
  $ pegtool explain g t
  t:1:1: expected the end, found 'z'
  z
  ^
  [1]

One, two or three items are separated by a comma and by the last or.

  $ printf "S <- 'a'" > g; printf z > t
  $ pegtool explain g t
  t:1:1: expected 'a', found 'z'
  z
  ^
  [1]
  $ printf "S <- 'b' / 'a'" > g; printf z > t
  $ pegtool explain g t
  t:1:1: expected 'b' or 'a', found 'z'
  z
  ^
  [1]
  $ printf "S <- 'a'?" > g; printf z > t
  $ pegtool explain g t
  t:1:1: expected the end or 'a', found 'z'
  z
  ^
  [1]
  $ printf "S <- 'a' / 'b' / 'c'" > g; printf z > t
  $ pegtool explain g t
  t:1:1: expected 'a', 'b' or 'c', found 'z'
  z
  ^
  [1]

An item that is written the same as an earlier one is left out.

  $ printf "S <- 'a' / 'a' / 'a'" > g; printf z > t
  $ pegtool explain g t
  t:1:1: expected 'a', found 'z'
  z
  ^
  [1]
  $ printf "S <- ('a' / 'b' / 'a')?" > g; printf z > t
  $ pegtool explain g t
  t:1:1: expected the end, 'a' or 'b', found 'z'
  z
  ^
  [1]
  $ printf "S <- 'a' / 'b' / 'c' / 'd' / 'e' / 'f' / 'g' / 'h' / 'h' / 'd'" > g; printf z > t
  $ pegtool explain g t
  t:1:1: expected 'a', 'b', 'c', 'd', 'e', 'f', 'g' or 'h', found 'z'
  z
  ^
  [1]

Eight different items are listed; of nine the last one is only counted.

  $ printf "S <- 'a' / 'b' / 'c' / 'd' / 'e' / 'f' / 'g' / 'h'" > g; printf z > t
  $ pegtool explain g t
  t:1:1: expected 'a', 'b', 'c', 'd', 'e', 'f', 'g' or 'h', found 'z'
  z
  ^
  [1]
  $ printf "S <- ('a' / 'b' / 'c' / 'd' / 'e' / 'f' / 'g' / 'h')?" > g; printf z > t
  $ pegtool explain g t
  t:1:1: expected the end, 'a', 'b', 'c', 'd', 'e', 'f', 'g' or 1 more, found 'z'
  z
  ^
  [1]
  $ printf "S <- 'a' / 'b' / 'c' / 'd' / 'e' / 'f' / 'g' / 'h' / 'i'" > g; printf z > t
  $ pegtool explain g t
  t:1:1: expected 'a', 'b', 'c', 'd', 'e', 'f', 'g', 'h' or 1 more, found 'z'
  z
  ^
  [1]

Ten different items and the end are eleven, of which three are only counted.

  $ printf "S <- ('j' / 'i' / 'h' / 'j' / 'i' / 'h' / 'g' / 'f' / 'e' / 'd' / 'c' / 'b' / 'a' / 'a')?" > g
  $ printf z > t
  $ pegtool explain g t
  t:1:1: expected the end, 'j', 'i', 'h', 'g', 'f', 'e', 'd' or 3 more, found 'z'
  z
  ^
  [1]

The predicate `!.` expects the end, so it is written before the eight items that precede it in the file. The rule E is
written in place of its parts. With --terminals these are written, and with --rules each of the two predicates has its
rule.

  $ printf "S <- 'a' / 'b' / 'c' / 'd' / 'e' / 'f' / 'g' / 'h' / !. / E\nE <- 'i' / ! .\n" > g; printf z > t
  $ pegtool explain g t
  t:1:1: expected the end, 'a', 'b', 'c', 'd', 'e', 'f', 'g' or 2 more, found 'z'
  z
  ^
  [1]
  $ pegtool explain g t --rules --terminals
  t:1:1: expected the end in S, the end in E, 'a' in S, 'b' in S, 'c' in S, 'd' in S, 'e' in S, 'f' in S or 3 more, found 'z'
  z
  ^
  [1]

The predicate `!.` and the end of the match both expect the end, which is written once.

  $ printf "S <- (!. / 'b')?" > g; printf z > t
  $ pegtool explain g t
  t:1:1: expected the end or 'b', found 'z'
  z
  ^
  [1]

All 64 items are written twice and compared, so 56 are left of them after eight.

  $ (printf "S <- '1'"; printf " / '%s'" $(seq 2 64) $(seq 64)) > g; printf z > t
  $ pegtool explain g t
  t:1:1: expected '1', '2', '3', '4', '5', '6', '7', '8' or 56 more, found 'z'
  z
  ^
  [1]

Of 70 items the last six aren't kept for comparisons, so each of them counts twice.

  $ (printf "S <- '1'"; printf " / '%s'" $(seq 2 70) $(seq 70)) > g; printf z > t
  $ pegtool explain g t
  t:1:1: expected '1', '2', '3', '4', '5', '6', '7', '8' or 68 more, found 'z'
  z
  ^
  [1]
