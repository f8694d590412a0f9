Which cause of a syntax error explain finds: in these files a token is wrong or missing at the very start, or within a
definition.

An empty file ends where its first rule should begin.

  $ printf '' > g
  $ pegtool explain g | cat -A
  g:1:1: the file ends too early$
  $
  ^$

Only at the start of the file a byte order mark has a sentence of its own.

  $ printf 'A \357\273\277' > g
  $ pegtool explain g | cat -A
  g:1:3: unexpected '\xEF\xBB\xBF' (byte order mark)$
  A M-oM-;M-?$
    ^$

These literals are closed, so it is the quote that can't begin a definition.

  $ printf "'a'" > g
  $ pegtool explain g
  g:1:1: unexpected '\''
  'a'
  ^
  [2]
  $ printf "'a\\\\''" > g
  $ pegtool explain g
  g:1:1: unexpected '\''
  'a\''
  ^
  [2]

The first escape that isn't one is named, at its backslash; others before it are passed over.

  $ printf "\"a'\\\\x4G\"" > g
  $ pegtool explain g
  g:1:4: \x isn't an escape
  "a'\x4G"
     ^
  [2]
  $ printf "'\\\\" > g
  $ pegtool explain g
  g:1:2: \ isn't an escape
  '\
   ^
  [2]
  $ printf "'\\\\xfF\\\\101\\\\8'" > g
  $ pegtool explain g
  g:1:10: \8 isn't an escape
  '\xfF\101\8'
           ^
  [2]
  $ printf '[a-\\-z]' > g
  $ pegtool explain g
  g:1:4: \- isn't an escape: write a dash first in its class, as in [-a]
  [a-\-z]
     ^
  [2]

These classes are closed, so it is the bracket that can't begin a definition.

  $ printf '[a-z]' > g
  $ pegtool explain g
  g:1:1: unexpected '['
  [a-z]
  ^
  [2]
  $ printf '[]' > g
  $ pegtool explain g
  g:1:1: unexpected '['
  []
  ^
  [2]
  $ printf '[-a]' > g
  $ pegtool explain g
  g:1:1: unexpected '['
  [-a]
  ^
  [2]
  $ printf '[a-z-]' > g
  $ pegtool explain g
  g:1:1: unexpected '['
  [a-z-]
  ^
  [2]
  $ printf '[a-\\x41-]' > g
  $ pegtool explain g
  g:1:1: unexpected '['
  [a-\x41-]
  ^
  [2]

A second arrow and a dash after a name can't follow there in a definition.

  $ printf 'A <- <-' > g
  $ pegtool explain g
  g:1:6: unexpected '<'
  A <- <-
       ^
  [2]
  $ printf 'A <- a-b' > g
  $ pegtool explain g
  g:1:7: unexpected '-'
  A <- a-b
        ^
  [2]
