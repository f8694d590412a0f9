Terminals in predicates don't count for the message of explain.

Three terminals are in a predicate, and two are outside.

  $ echo "S <- !('a' 'b' 'c') 'a' 'd'*" > guarded.peg

In the predicate `'c'` fails at the third byte, but outside `'d'` fails at the second one, where the match ends.

  $ printf abx > t.txt; pegtool explain guarded.peg t.txt
  t.txt:1:2: expected the end or 'd', found 'b'
  abx
   ^
  [1]

The predicate finds its part, so it is what isn't expected at the start.

  $ printf abc > t.txt; pegtool explain guarded.peg t.txt
  t.txt:1:1: expected something other than ('a' 'b' 'c'), found 'a'
  abc
  ^
  [1]

Both `'a'` fail at the start, and the one outside counts.

  $ printf x > t.txt; pegtool explain guarded.peg t.txt
  t.txt:1:1: expected 'a', found 'x'
  x
  ^
  [1]

The whole text matches.

  $ printf ad > t.txt; pegtool explain guarded.peg t.txt
