The messages of explain --lines: each record is a text of its own, and a message has the line of the text that the
record is in. The grammar is one or more letters a.

The first record that doesn't match is line 2, and its first byte is wrong. In line 4 a prefix matches, so that the end
is expected, too. An empty record ends where the letter is expected.

  $ printf "S <- 'a'+\n" > g; printf 'a\nb\naa\nab\n\n' > t
  $ pegtool explain g t --lines | cat -A
  t:2:1: expected 'a', found 'b'$
  b$
  ^$
  t:4:2: expected the end or 'a', found 'b'$
  ab$
   ^$
  t:5:1: expected 'a', found the end$
  $
  ^$
  $ pegtool explain g t --lines > /dev/null
  [1]

The last record may lack its end. A text without bytes has no record.

  $ printf 'a\nb' > open; printf '' > none
  $ pegtool explain g open --lines
  open:2:1: expected 'a', found 'b'
  b
  ^
  [1]
  $ pegtool explain g none --lines
  $ pegtool explain g --lines

All records match: nothing is printed.

  $ printf 'a\naa\n' > all; pegtool explain g all --lines

Each text counts its lines from 1.

  $ pegtool explain g open all open --lines
  open:2:1: expected 'a', found 'b'
  b
  ^
  open:2:1: expected 'a', found 'b'
  b
  ^
  [1]

With --max-errors only the first messages of each text are printed. A limit of two leaves out the message of line 5, and
a limit of three leaves out none. A record that matches has no message and doesn't count.

  $ pegtool explain g t --lines --max-errors 2
  t:2:1: expected 'a', found 'b'
  b
  ^
  t:4:2: expected the end or 'a', found 'b'
  ab
   ^
  [1]
  $ pegtool explain g t --lines --max-errors 3 | grep -c '^t:'
  3

The limit is that of each text, so each has its first message.

  $ pegtool explain g t open --lines --max-errors 1
  t:2:1: expected 'a', found 'b'
  b
  ^
  open:2:1: expected 'a', found 'b'
  b
  ^
  [1]

The exit status is that of all records. Each of 1000 letters takes at least a step, so that the last record is refused,
and its message is left out.

  $ (printf 'b\n'; head -c 1000 /dev/zero | tr '\0' a; printf '\n') > last
  $ pegtool explain g last --lines --steps 500 --max-errors 1
  last:1:1: expected 'a', found 'b'
  b
  ^
  [6]

A limit is at least one, and belongs to records.

  $ pegtool explain g t --lines --max-errors 0 > /dev/null 2>&1
  [3]
  $ pegtool explain g t --max-errors 1 > /dev/null 2>&1
  [3]

Without texts the records are those of standard input, and with texts it isn't read.

  $ printf 'a\na\nb\n' | pegtool explain g --lines
  standard input:3:1: expected 'a', found 'b'
  b
  ^
  [1]
  $ printf 'b\n' | pegtool explain g all --lines

A carriage return is a byte of the record. It ends no line, as it does in a text without --lines: in the record a CR b
the line stays 2, the column counts the two bytes before, and the line is shown with an escape.

  $ printf 'a\na\rb\n' > inner; printf "S <- [a\\\\r]+\n" > returns
  $ pegtool explain returns inner --lines
  inner:2:3: expected the end or [a\r], found 'b'
  a\rb
     ^
  [1]
  $ pegtool explain g inner --lines
  inner:2:2: expected the end or 'a', found '\r' (carriage return)
  a\rb
   ^
  [1]

With --crlf a carriage return right before a line feed isn't part of the record.

  $ printf 'a\r\nb\r\n' > crlf
  $ pegtool explain g crlf --lines
  crlf:1:2: expected the end or 'a', found '\r' (carriage return)
  a\r
   ^
  crlf:2:1: expected 'a', found 'b'
  b\r
  ^
  [1]
  $ pegtool explain g crlf --lines --crlf
  crlf:2:1: expected 'a', found 'b'
  b
  ^
  [1]

With --null a zero byte ends a record. The line is one more than the number of line feeds before the position: the
second record begins in line 1, its third byte is in line 2, and the third record is in line 3.

  $ printf "T <- [ab\\\\n]+\n" > n; printf 'a\0a\nx\nb\0z' > zeros
  $ pegtool explain n zeros --lines --null
  zeros:2:1: expected the end or [ab\n], found 'x'
  x
  ^
  zeros:3:1: expected [ab\n], found 'z'
  z
  ^
  [1]

The line feeds of a record of more than 64 MiB count, too, though it isn't kept in memory: here 70,000,001 of them are
before the next record.

  $ (head -c 70000001 /dev/zero | tr '\0' '\n'; printf '\0z') | pegtool explain n --lines --null
  standard input: the text is longer than 67108864 bytes
  standard input:70000002:1: expected [ab\n], found 'z'
  z
  ^
  [6]

Columns count from the start of the record, and a record may be longer than any block that is read.

  $ (head -c 300000 /dev/zero | tr '\0' a; printf 'b\na\nb\n') | pegtool explain g --lines | grep expected
  standard input:1:300001: expected the end or 'a', found 'b'
  standard input:3:1: expected 'a', found 'b'

A record that takes too many steps is refused, with the message that a text has, and the others are explained: each of
1000 letters takes at least a step, and one letter takes a few. The status is that of the refusal.

  $ (head -c 1000 /dev/zero | tr '\0' a; printf '\na\nb\n') > long
  $ pegtool explain g long --lines --steps 500
  long: the parse takes more steps than --steps allows
  long:3:1: expected 'a', found 'b'
  b
  ^
  [6]

The start, the style of items and quiet runs are those of explain.

  $ printf "S <- A B\nA <- [a-z]\nB <- [0-9]\n" > ab; printf '1\nx\n' > numbers
  $ pegtool explain ab numbers --lines --start B
  numbers:2:1: expected [0-9], found 'x'
  x
  ^
  [1]
  $ pegtool explain ab numbers --lines --rules --terminals
  numbers:1:1: expected [a-z] in A, found '1'
  1
  ^
  numbers:2:2: expected [0-9] in B, found the end
  x
   ^
  [1]
  $ pegtool explain ab numbers --lines --quiet
  [1]

What is wrong with the grammar file or the start is reported before a record is read, as without --lines.

  $ printf 'S <- S\n' > cycle
  $ pegtool explain cycle nowhere --lines > /dev/null
  [2]
  $ pegtool explain cycle nowhere > whole; pegtool explain cycle nowhere --lines | cmp - whole
  $ pegtool explain g nowhere --lines --start T
  g: no rule is named T
  [3]
  $ pegtool explain nowhere t --lines
  pegtool: nowhere: can't be opened
  [4]

A text that can't be opened or read ends the run, after the messages of the texts before it.

  $ pegtool explain g open nowhere open --lines
  open:2:1: expected 'a', found 'b'
  b
  ^
  pegtool: file fault
  nowhere: No such file or directory
  [4]
  $ mkdir folder; pegtool explain g folder --lines
  pegtool: file fault
  folder: Is a directory
  [4]
  $ pegtool explain g --lines < folder
  pegtool: file fault
  standard input: Is a directory
  [4]

An output that can't be written is a fault. If its reader is gone, the status alone says so.

  $ pegtool explain g t --lines > /dev/full
  pegtool: file fault
  standard output: No space left on device
  [4]
  $ (yes b | head -n 200000 | pegtool explain g --lines; echo $? > status) | head -n 1; cat status
  standard input:1:1: expected 'a', found 'b'
  4

The message of a record is there before the stream ends.

  $ coproc P { pegtool explain g --lines; }; printf 'b\n' >&"${P[1]}"; read -r line <&"${P[0]}"; echo "$line"
  standard input:1:1: expected 'a', found 'b'

A list of names and records exclude each other, and --crlf needs records.

  $ pegtool explain g --lines --files-from t 2> e
  [3]
  $ grep -c "cannot be used with" e
  1
  $ pegtool explain g t --crlf 2> e
  [3]
  $ grep -c -e '^  --lines' e
  1
