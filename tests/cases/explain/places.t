The place that a message of explain names, the line that it shows, and its caret. The grammar of each case expects the
byte a where the text has another byte.

The text fails at its first byte, so the caret is below column 1.

  $ printf "S <- 'a'" > g; printf b > t
  $ pegtool explain g t
  t:1:1: expected 'a', found 'b'
  b
  ^
  [1]

An empty text has an empty line, and the end is found in it.

  $ printf "S <- 'a'" > g; printf '' > t
  $ pegtool explain g t | cat -A
  t:1:1: expected 'a', found the end$
  $
  ^$

At the end of the text the caret is one column after the last byte.

  $ printf "S <- 'ab' 'a'" > g; printf ab > t
  $ pegtool explain g t
  t:1:3: expected 'a', found the end
  ab
    ^
  [1]

LF, CR LF and CR alone end a line, and only the line of the position is shown.

  $ printf "S <- 'a\\\\nb' 'a'" > g; printf 'a\nbc\nd' > t
  $ pegtool explain g t
  t:2:2: expected 'a', found 'c'
  bc
   ^
  [1]
  $ printf "S <- 'a\\\\r\\\\nb' 'a'" > g; printf 'a\r\nbc' > t
  $ pegtool explain g t
  t:2:2: expected 'a', found 'c'
  bc
   ^
  [1]
  $ printf "S <- 'ab\\\\rc' 'a'" > g; printf 'ab\rcd' > t
  $ pegtool explain g t
  t:2:2: expected 'a', found 'd'
  cd
   ^
  [1]

A line end belongs to the line that it ends, and it is written as an escape.

  $ printf "S <- 'ab' 'a'" > g; printf 'ab\ncd' > t
  $ pegtool explain g t
  t:1:3: expected 'a', found '\n' (line end)
  ab
    ^
  [1]
  $ printf "S <- 'ab' 'a'" > g; printf 'ab\r\ncd' > t
  $ pegtool explain g t
  t:1:3: expected 'a', found '\r\n' (line end)
  ab
    ^
  [1]

Between CR and LF the position is still in the line, after its CR.

  $ printf "S <- 'ab\\\\r' 'a'" > g; printf 'ab\r\ncd' > t
  $ pegtool explain g t
  t:1:4: expected 'a', found '\n' (line end)
  ab
    ^
  [1]

After two line ends the text ends in a third line, which is empty.

  $ printf "S <- 'a\\\\n\\\\n' 'a'" > g; printf 'a\n\n' > t
  $ pegtool explain g t | cat -A
  t:3:1: expected 'a', found the end$
  $
  ^$
