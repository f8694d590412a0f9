How a stream is split into records, and how they are numbered. Each record is a text of its own, so that positions are
within it. In the grammar below the literal is at 5 to 8; it is tried again after the last a.

Without texts the records are those of standard input. A line feed ends a record.

  $ printf "S <- 'a'+\n" > g
  $ printf 'aa\nb\n' | pegtool parse g --lines --no-tree
  {"record":1,"consumed":2,"expected":[[5,8]],"far":2,"result":"matched"}
  {"record":2,"expected":[[5,8]],"far":0,"result":"failed"}
  [1]

An empty stream has no record, so that all of its records match.

  $ pegtool parse g --lines < /dev/null
  $ touch empty; pegtool parse g empty empty --lines

No empty record follows the last end. A record between two ends may be empty, and this grammar fails on it.

  $ printf 'a\n' | pegtool parse g --lines --no-tree
  {"record":1,"consumed":1,"expected":[[5,8]],"far":1,"result":"matched"}
  $ printf 'a\n\n' | pegtool parse g --lines --no-tree
  {"record":1,"consumed":1,"expected":[[5,8]],"far":1,"result":"matched"}
  {"record":2,"expected":[[5,8]],"far":0,"result":"failed"}
  [1]
  $ printf '\na\n' | pegtool parse g --lines --no-tree
  {"record":1,"expected":[[5,8]],"far":0,"result":"failed"}
  {"record":2,"consumed":1,"expected":[[5,8]],"far":1,"result":"matched"}
  [1]

The last record may lack its end.

  $ printf 'a\naa' | pegtool parse g --lines --no-tree
  {"record":1,"consumed":1,"expected":[[5,8]],"far":1,"result":"matched"}
  {"record":2,"consumed":2,"expected":[[5,8]],"far":2,"result":"matched"}

A carriage return is a byte of the record, and with --crlf one right before a line feed isn't. Elsewhere it is one.

  $ printf 'a\r\naa\n' > crlf
  $ pegtool parse g crlf --lines --no-tree --all
  {"record":1,"consumed":1,"expected":[[5,8]],"far":1,"result":"partial"}
  {"record":2,"consumed":2,"expected":[[5,8]],"far":2,"result":"matched"}
  [1]
  $ pegtool parse g crlf --lines --crlf --no-tree --all
  {"record":1,"consumed":1,"expected":[[5,8]],"far":1,"result":"matched"}
  {"record":2,"consumed":2,"expected":[[5,8]],"far":2,"result":"matched"}
  $ printf 'a\r\r\na\r' | pegtool parse g --lines --crlf --no-tree --all
  {"record":1,"consumed":1,"expected":[[5,8]],"far":1,"result":"partial"}
  {"record":2,"consumed":1,"expected":[[5,8]],"far":1,"result":"partial"}
  [1]

With --null a zero byte ends a record, and a line feed is a byte of it.

  $ printf 'a\0a\na\0aa' | pegtool parse g --lines --null --no-tree --all
  {"record":1,"consumed":1,"expected":[[5,8]],"far":1,"result":"matched"}
  {"record":2,"consumed":1,"expected":[[5,8]],"far":1,"result":"partial"}
  {"record":3,"consumed":2,"expected":[[5,8]],"far":2,"result":"matched"}
  [1]

Numbers go on from text to text, and the end of a text ends its last record.

  $ printf 'a\na' > one; printf 'aa\n' > two
  $ pegtool parse g one two one --lines --no-tree
  {"record":1,"consumed":1,"expected":[[5,8]],"far":1,"result":"matched"}
  {"record":2,"consumed":1,"expected":[[5,8]],"far":1,"result":"matched"}
  {"record":3,"consumed":2,"expected":[[5,8]],"far":2,"result":"matched"}
  {"record":4,"consumed":1,"expected":[[5,8]],"far":1,"result":"matched"}
  {"record":5,"consumed":1,"expected":[[5,8]],"far":1,"result":"matched"}

With texts standard input isn't read.

  $ printf b | pegtool parse g two --lines --no-tree
  {"record":1,"consumed":2,"expected":[[5,8]],"far":2,"result":"matched"}

A record may be longer than any block that is read: this one has 300,000 bytes.

  $ (head -c 300000 /dev/zero | tr '\0' a; printf '\nb') | pegtool parse g --lines --no-tree
  {"record":1,"consumed":300000,"expected":[[5,8]],"far":300000,"result":"matched"}
  {"record":2,"expected":[[5,8]],"far":0,"result":"failed"}
  [1]

The line of a record is there before the stream ends.

  $ coproc P { pegtool parse g --lines --no-tree; }; printf 'a\n' >&"${P[1]}"; read -r line <&"${P[0]}"; echo "$line"
  {"record":1,"consumed":1,"expected":[[5,8]],"far":1,"result":"matched"}
