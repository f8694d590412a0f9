Where explain finds the failure of a text: at the start of a failing predicate, at the end of a match, or after it.

The keyword matches in the predicate, so no terminal fails where the name is expected.

  $ cat > g <<'END'
  > S <- !K I End
  > K <- 'if' ![a-z]
  > I <- [a-z]+
  > End <- !.
  > END
  $ printf if > t
  $ pegtool explain g t
  t:1:1: expected something other than K, found 'i'
  if
  ^
  [1]

After the name either a further letter or the end is expected at position 2.

  $ printf ab1 > t
  $ pegtool explain g t
  t:1:3: expected the end or [a-z], found '1'
  ab1
    ^
  [1]

The letter after the keyword makes it a name, so the text matches and has no message.

  $ printf iff > t
  $ pegtool explain g t

Predicates use a second copy of each rule inside, which can't be named as the start.

  $ printf ab > t
  $ pegtool explain g t --start 'I!'
  g: no rule is named I!
  [3]
  $ pegtool explain g t --start I

The predicate of Name fails at position 7, where its rule was called. So Name fails at once, and is named.

  $ cat > g <<'END'
  > Q <- 'SELECT' ' ' Name
  > Name <- !Keyword [A-Z]+
  > Keyword <- 'FROM' ![A-Z]
  > END
  $ printf 'SELECT FROM' > t
  $ pegtool explain g t
  t:1:8: expected Name, found 'F'
  SELECT FROM
         ^
  [1]

A name may begin with the letters of a keyword if a letter follows them.

  $ printf 'SELECT FROMAGE' > t
  $ pegtool explain g t

Nothing failed after the match of a, so the text should have ended there.

  $ printf "S <- 'a'\n" > g; printf ab > t
  $ pegtool explain g t
  t:1:2: expected the end, found 'b'
  ab
   ^
  [1]
  $ printf "S <- 'b' / 'a'\n" > g; printf ab > t
  $ pegtool explain g t
  t:1:2: expected the end, found 'b'
  ab
   ^
  [1]

A further a could follow the match of the plus, or the text could have ended.

  $ printf "S <- 'a'+\n" > g; printf ab > t
  $ pegtool explain g t
  t:1:2: expected the end or 'a', found 'b'
  ab
   ^
  [1]

The match ended at position 1, but the part of the star failed at 2.

  $ printf "S <- 'a' ('b' 'c')*\n" > g; printf abd > t
  $ pegtool explain g t
  t:1:3: expected 'c', found 'd'
  abd
    ^
  [1]
