Files that can't be opened, read or written: status 4, a message, and nothing printed. The second line of the message
names the file or the stream, with the reason in the words of the system's library (POSIX, strerror).

A grammar file that isn't there is a fault of each command.

  $ echo "S <- 'a' S / 'b'" > line; printf aab > aab
  $ pegtool table nowhere
  pegtool: file fault
  nowhere: No such file or directory
  [4]

  $ pegtool check nowhere
  pegtool: file fault
  nowhere: No such file or directory
  [4]

  $ pegtool code nowhere
  pegtool: file fault
  nowhere: No such file or directory
  [4]

  $ pegtool lint nowhere
  pegtool: file fault
  nowhere: No such file or directory
  [4]

  $ pegtool parse nowhere aab
  pegtool: file fault
  nowhere: No such file or directory
  [4]

The name is written with escapes, as in other messages.

  $ pegtool check $'no\nfile\x7f'
  pegtool: file fault
  no\nfile\x7F: No such file or directory
  [4]

A file below something that is no folder, a name that is too long (over 255 bytes), and a link that leads to itself have
reasons of their own.

  $ pegtool check line/grammar
  pegtool: file fault
  line/grammar: Not a directory
  [4]

  $ pegtool check "$(printf '%256s' | tr ' ' n)" 2>&1 | sed 's/n\{256\}/N/'
  pegtool: file fault
  N: File name too long

  $ ln -s loop loop; pegtool check loop
  pegtool: file fault
  loop: Too many levels of symbolic links
  [4]

A text that isn't there is a fault, too, also if the grammar file would be refused.

  $ pegtool parse line nowhere
  pegtool: file fault
  nowhere: No such file or directory
  [4]

  $ pegtool parse aab nowhere
  pegtool: file fault
  nowhere: No such file or directory
  [4]

A folder can be opened but not read, whether it is the grammar file or the text.

  $ pegtool table .
  pegtool: file fault
  .: Is a directory
  [4]

  $ pegtool parse examples/json.peg .
  pegtool: file fault
  .: Is a directory
  [4]

The memory of the process is a file that can be opened, and whose first bytes can't be read. Its error is none of those
that files usually have.

  $ pegtool check /proc/self/mem
  pegtool: file fault
  /proc/self/mem: Unknown error
  [4]

  $ pegtool parse line /proc/self/mem
  pegtool: file fault
  /proc/self/mem: Unknown error
  [4]

Standard input may be a folder, too, which can't be read.

  $ pegtool < .
  pegtool: file fault
  standard input: Is a directory
  [4]

The grammar is opened first: opening this pipe, which nobody writes, would not end.

  $ mkfifo unwritten
  $ timeout 10 pegtool parse nowhere unwritten
  pegtool: file fault
  nowhere: No such file or directory
  [4]

A device that is full takes no byte of the output of any command.

  $ pegtool --help > /dev/full
  pegtool: file fault
  standard output: No space left on device
  [4]

  $ pegtool check examples/json.peg > /dev/full
  pegtool: file fault
  standard output: No space left on device
  [4]

  $ pegtool table examples/json.peg > /dev/full
  pegtool: file fault
  standard output: No space left on device
  [4]

  $ pegtool code examples/json.peg > /dev/full
  pegtool: file fault
  standard output: No space left on device
  [4]

  $ pegtool parse examples/json.peg examples/json/match_object.txt > /dev/full
  pegtool: file fault
  standard output: No space left on device
  [4]

A pipe that nobody reads takes none either, and the signal for it doesn't end the program. As with other filters,
nothing is said of it: the status is that of a file that can't be written.

  $ cat > unread <<'END'
  > mkfifo pipe; exec 3<> pipe 4> pipe 3>&-; rm pipe
  > pegtool "$@" >&4
  > END
  $ bash unread --help
  [4]

  $ bash unread check examples/json.peg
  [4]

  $ bash unread table examples/json.peg
  [4]

  $ bash unread code examples/json.peg
  [4]

  $ bash unread parse examples/json.peg examples/json/match_object.txt
  [4]

  $ bash unread lint examples/json.peg
  [4]

  $ bash unread profile examples/json.peg examples/json/match_object.txt
  [4]

  $ bash unread profile examples/json.peg --coverage examples/json/match_object.txt
  [4]

  $ echo '[1' > open.json
  $ bash unread explain examples/json.peg open.json
  [4]

Where a write fails later, the file has the first part of the line, here 1024 bytes of it.

  $ pegtool code examples/json.peg > whole
  $ bash -c "trap '' XFSZ; ulimit -f 1; exec pegtool code examples/json.peg > part"
  pegtool: file fault
  standard output: File too large
  [4]

  $ wc -c < part
  1024

  $ head -c 1024 whole | cmp - part
