The command explain: its messages, its options, its statuses and lists of names. Messages are worked out by hand.

A text that matches as a whole has no message, and neither has an accepted grammar alone.

  $ echo "S <- 'a' S / 'b'" > line; printf "S <- T 'c'\nT <- 'a' / 'b'\n" > short; printf aab > aab; printf bcd > bcd
  $ pegtool explain line
  $ pegtool explain line aab
  $ pegtool explain examples/json.peg
  $ pegtool explain examples/json.peg examples/json/match_object.txt

A match that ends before the text has a message where the end is expected.

  $ pegtool explain line bcd aab
  bcd:1:2: expected the end, found 'c'
  bcd
   ^
  [1]

Each text that doesn't match has its message, in the order of the arguments.

  $ pegtool explain short aab bcd
  aab:1:2: expected 'c', found 'a'
  aab
   ^
  bcd:1:3: expected the end, found 'd'
  bcd
    ^
  [1]

With the option for rules an item that isn't the name of a rule is followed by its rule.

  $ pegtool explain short aab --rules
  aab:1:2: expected 'c' in S, found 'a'
  aab
   ^
  [1]

From the rule T only the first letter of the text matches.

  $ pegtool explain short --start T bcd
  bcd:1:2: expected the end, found 'c'
  bcd
   ^
  [1]

A memo of another capacity changes no message.

  $ pegtool explain line bcd --memo 0
  bcd:1:2: expected the end, found 'c'
  bcd
   ^
  [1]

The quiet option prints nothing, and the status alone says that a text doesn't match.

  $ pegtool explain line bcd --quiet
  [1]

A parse that takes more steps than the limit has a message without a position.

  $ pegtool explain line bcd --steps 1
  bcd: the parse takes more steps than --steps allows
  [6]

A refused grammar has a message with its place and its cause, and no text is opened.

  $ pegtool explain aab
  aab:1:4: the file ends too early
  aab
     ^
  [2]

  $ pegtool explain aab bcd nowhere
  aab:1:4: the file ends too early
  aab
     ^
  [2]

  $ pegtool explain aab --quiet
  [2]

A start that no rule has is reported of the grammar.

  $ pegtool explain line --start T aab
  line: no rule is named T
  [3]

A file that can't be opened is named on standard error, and the other texts are read.

  $ pegtool explain nowhere bcd
  pegtool: nowhere: can't be opened
  [4]

  $ pegtool explain line nowhere bcd 2> /dev/null
  bcd:1:2: expected the end, found 'c'
  bcd
   ^
  [4]

  $ pegtool explain line nowhere bcd > /dev/null
  pegtool: nowhere: can't be opened
  [4]

  $ pegtool explain line nowhere bcd --quiet
  [4]

A folder can be opened but not read.

  $ pegtool explain line .
  pegtool: .: can't be read
  [4]

A name may have quotes and blanks, and is written in the message as it is.

  $ pegtool explain line "no 'such' \"file\""
  pegtool: no 'such' "file": can't be opened
  [4]

So is a list of names that can't be opened; the texts of the arguments are read.

  $ pegtool explain line bcd --files-from nowhere 2> /dev/null
  bcd:1:2: expected the end, found 'c'
  bcd
   ^
  [4]

  $ pegtool explain line bcd --files-from nowhere > /dev/null
  pegtool: nowhere: can't be opened
  [4]

A list has further names, one in each line; the files aab and bcd list themselves here.

  $ pegtool explain line --files-from aab
  $ pegtool explain line --files-from bcd
  bcd:1:2: expected the end, found 'c'
  bcd
   ^
  [1]

  $ pegtool explain line aab --files-from bcd
  bcd:1:2: expected the end, found 'c'
  bcd
   ^
  [1]

With the null option a name ends at a zero byte, or at the end of the list.

  $ pegtool explain line --files-from bcd --null
  bcd:1:2: expected the end, found 'c'
  bcd
   ^
  [1]

An empty line of a list is no name, and a name may be there twice.

  $ printf 'bcd\n\nbcd\n' > names
  $ pegtool explain line --files-from names
  bcd:1:2: expected the end, found 'c'
  bcd
   ^
  bcd:1:2: expected the end, found 'c'
  bcd
   ^
  [1]

  $ printf 'bcd\0' > names
  $ pegtool explain line --files-from names --null
  bcd:1:2: expected the end, found 'c'
  bcd
   ^
  [1]

A dash in place of a list is standard input, here with three lines that name no file.

  $ printf "S <- 'a'\n%%%%\na" | pegtool explain line --files-from -
  pegtool: S <- 'a': can't be opened
  pegtool: %%: can't be opened
  pegtool: a: can't be opened
  [4]

With the null option the same input is one name with two line ends, which are written as escapes.

  $ printf "S <- 'a'\n%%%%\na" | pegtool explain line --files-from - --null
  pegtool: S <- 'a'\n%%\na: can't be opened
  [4]

A name that isn't UTF-8 names no file. It has a line on standard error, with an escape for byte 255, and the names before
it and after it are explained.

  $ printf 'bcd\n\377\naab\nbcd' > names
  $ pegtool explain line --files-from names 2> /dev/null
  bcd:1:2: expected the end, found 'c'
  bcd
   ^
  bcd:1:2: expected the end, found 'c'
  bcd
   ^
  [4]

  $ pegtool explain line --files-from names > /dev/null
  pegtool: \xFF: the name isn't UTF-8
  [4]

  $ pegtool explain line --files-from names --quiet
  [4]

With the null option the name has a line end, too.

  $ printf 'aab\0x\n\377y\0bcd\0' > names
  $ pegtool explain line --files-from names --null 2> /dev/null
  bcd:1:2: expected the end, found 'c'
  bcd
   ^
  [4]

  $ pegtool explain line --files-from names --null > /dev/null
  pegtool: x\n\xFFy: the name isn't UTF-8
  [4]

A folder as the list can be opened but not read, so it names nothing; the texts of the arguments are explained.

  $ pegtool explain line bcd --files-from . 2> /dev/null
  bcd:1:2: expected the end, found 'c'
  bcd
   ^
  [4]

  $ pegtool explain line aab --files-from .
  pegtool: .: can't be read
  [4]

A message is written before the next text is opened. Here the next text is a pipe with a name, and it gets its bytes only
after the first line of the message was read.

  $ mkfifo later
  $ (timeout 60 pegtool explain line bcd later || echo "status $?") | timeout 60 bash -c '
  > read -r first; echo "seen $first"; printf aab > later; cat'
  seen bcd:1:2: expected the end, found 'c'
  bcd
   ^
  status 1

A name in a list is explained before the rest of the list is read. Here the rest is written only after the first line of
the message was read.

  $ mkfifo rest
  $ (timeout 60 pegtool explain line --files-from rest || echo "status $?") | timeout 60 bash -c '
  > exec 3> rest; echo bcd >&3; read -r first; echo "seen $first"; echo aab >&3; exec 3>&-; cat'
  seen bcd:1:2: expected the end, found 'c'
  bcd
   ^
  status 1
