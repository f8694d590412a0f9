Names of files in messages. Bytes of a name that aren't printable are escapes of the notation, so that a name writes
nothing but its characters to a terminal, and no name looks like several lines.

Byte 27 begins the code of a colour and is \x1B; the line end is \n (docs/NOTATION.md). The text is b, not a.

  $ echo "S <- 'a'" > a.peg; printf b > "$(printf 'b\033[31m\n.txt')"
  $ pegtool explain a.peg b*.txt
  b\x1B[31m\n.txt:1:1: expected 'a', found 'b'
  b
  ^
  [1]

So is the name of a text whose parse takes too many steps, and of one that can't be opened.

  $ pegtool explain a.peg b*.txt --steps 1
  b\x1B[31m\n.txt: the parse takes more steps than --steps allows
  [6]

  $ pegtool explain a.peg "$(printf 'no\r\nfile')"
  pegtool: no\r\nfile: can't be opened
  [4]

The name of a grammar file has escapes where it is refused, lacks the start or can't be opened; so has the start.

  $ pegtool explain b*.txt
  b\x1B[31m\n.txt:1:2: the file ends too early
  b
   ^
  [2]

  $ cp a.peg "$(printf 'a\t.peg')"
  $ pegtool explain "$(printf 'a\t.peg')" --start "$(printf 'T\001')"
  a\t.peg: no rule is named T\x01
  [3]

  $ pegtool explain "$(printf '\177')"
  pegtool: \x7F: can't be opened
  [4]

A character of several bytes is no escape, and a backslash is a backslash.

  $ pegtool explain a.peg 'é\n'
  pegtool: é\n: can't be opened
  [4]

In a list whose names end at zero bytes a name may have line ends.

  $ printf 'no\nfile\0' | pegtool explain a.peg --files-from - --null
  pegtool: no\nfile: can't be opened
  [4]
