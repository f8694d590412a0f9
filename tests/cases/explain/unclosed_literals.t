What explain says of a literal, a class or a comment that isn't closed.

A comment, a literal and a class without their ends are shown at their starts.

  $ printf "A <- 'x' #end" > g
  $ pegtool explain g
  g:1:10: this comment has no line end
  A <- 'x' #end
           ^
  [2]
  $ printf "A <- 'x\n" > g
  $ pegtool explain g
  g:1:6: this literal isn't closed
  A <- 'x
       ^
  [2]
  $ printf 'A <- [a-]' > g
  $ pegtool explain g
  g:1:6: this class isn't closed: a bracket after a dash, as in [a-], ends a range
  A <- [a-]
       ^
  [2]

These literals aren't closed: an escaped quote and the other quote close none.

  $ printf "'a\\\\'" > g
  $ pegtool explain g
  g:1:1: this literal isn't closed
  'a\'
  ^
  [2]
  $ printf "'a\"" > g
  $ pegtool explain g
  g:1:1: this literal isn't closed
  'a"
  ^
  [2]

These classes aren't closed, some of them since a range ends at their bracket.

  $ printf '[' > g
  $ pegtool explain g
  g:1:1: this class isn't closed: a bracket after a dash, as in [a-], ends a range
  [
  ^
  [2]
  $ printf '[a-' > g
  $ pegtool explain g
  g:1:1: this class isn't closed: a bracket after a dash, as in [a-], ends a range
  [a-
  ^
  [2]
  $ printf "[+-] 'x'" > g
  $ pegtool explain g
  g:1:1: this class isn't closed: a bracket after a dash, as in [a-], ends a range
  [+-] 'x'
  ^
  [2]
  $ printf '[\\12-]' > g
  $ pegtool explain g
  g:1:1: this class isn't closed: a bracket after a dash, as in [a-], ends a range
  [\12-]
  ^
  [2]
