How explain writes one item: as in the grammar file, with escapes for other bytes, but for a dot and for predicates.

With --terminals a class and a dot are written as in the file, as a literal always is.

  $ printf 'S <- [a-c]' > g; printf z > t
  $ pegtool explain g t --terminals
  t:1:1: expected [a-c], found 'z'
  z
  ^
  [1]
  $ printf 'S <- []' > g; printf z > t
  $ pegtool explain g t --terminals
  t:1:1: expected [], found 'z'
  z
  ^
  [1]
  $ printf 'S <- "if"' > g; printf z > t
  $ pegtool explain g t
  t:1:1: expected "if", found 'z'
  z
  ^
  [1]
  $ printf 'S <- .' > g; printf '' > t
  $ pegtool explain g t --terminals | cat -A
  t:1:1: expected any byte, found the end$
  $
  ^$

A predicate `&e` is written as it is, and `!e` as `something other than e`.

  $ printf "S <- &'x'" > g; printf z > t
  $ pegtool explain g t
  t:1:1: expected &'x', found 'z'
  z
  ^
  [1]
  $ printf "S <- !'x'" > g; printf x > t
  $ pegtool explain g t
  t:1:1: expected something other than 'x', found 'x'
  x
  ^
  [1]

Blanks and comments between the sign and its part are left out.

  $ printf "S <- ! \t'x'" > g; printf x > t
  $ pegtool explain g t
  t:1:1: expected something other than 'x', found 'x'
  x
  ^
  [1]
  $ printf "S <- !# a comment\r\n# and one more\n 'x'" > g; printf x > t
  $ pegtool explain g t
  t:1:1: expected something other than 'x', found 'x'
  x
  ^
  [1]

The predicate `!.` is written as the end, also with a comment in it.

  $ printf 'S <- !.' > g; printf z > t
  $ pegtool explain g t
  t:1:1: expected the end, found 'z'
  z
  ^
  [1]
  $ printf 'S <- ! # the end\n.' > g; printf z > t
  $ pegtool explain g t
  t:1:1: expected the end, found 'z'
  z
  ^
  [1]

Only the first sign is written as no; the second one needs parentheses in the notation.

  $ printf "S <- !(!'x')" > g; printf z > t
  $ pegtool explain g t
  t:1:1: expected something other than (!'x'), found 'z'
  z
  ^
  [1]

Raw tabs and line ends of a literal are written as escapes.

  $ printf "S <- 'a\tb\n'" > g; printf z > t
  $ pegtool explain g t
  t:1:1: expected 'a\tb\n', found 'z'
  z
  ^
  [1]

A character of UTF-8 is written as it is, other bytes as escapes.

  $ printf "S <- '\303\251'" > g; printf z > t
  $ pegtool explain g t | cat -A
  t:1:1: expected 'M-CM-)', found 'z'$
  z$
  ^$
  $ printf "S <- '\377\000'" > g; printf z > t
  $ pegtool explain g t
  t:1:1: expected '\xFF\x00', found 'z'
  z
  ^
  [1]

An escape of the grammar file is written as it is there.

  $ printf "S <- '\\\\''" > g; printf z > t
  $ pegtool explain g t
  t:1:1: expected '\'', found 'z'
  z
  ^
  [1]
