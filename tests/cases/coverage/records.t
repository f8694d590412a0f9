The coverage of records: each record of the texts, or of standard input without texts, counts as a text. The grammar has
two alternatives, at 5 to 8 and 11 to 14.

The records a and b use both alternatives; one of them alone leaves the other unused. A tries its own alone, and b tries
both.

  $ printf "S <- 'a' / 'b'" > g
  $ printf 'a\nb\n' | pegtool profile g --coverage --lines
  {"matched":2,"texts":2,"unused_alternatives":[],"unused_rules":[]}
  $ printf 'a\n' | pegtool profile g --coverage --lines
  {"matched":1,"texts":1,"unused_alternatives":[{"column":12,"end":14,"line":1,"start":11,"tried":false}],"unused_rules":[]}
  [1]
  $ printf 'b\n' | pegtool profile g --coverage --lines
  {"matched":1,"texts":1,"unused_alternatives":[{"column":6,"end":8,"line":1,"start":5,"tried":true}],"unused_rules":[]}
  [1]

So the line is the same as for two texts with these bytes.

  $ printf a > a; printf b > b
  $ pegtool profile g --coverage a b
  {"matched":2,"texts":2,"unused_alternatives":[],"unused_rules":[]}

An empty stream has no record, and nothing is tried.

  $ pegtool profile g --coverage --lines < /dev/null
  {"matched":0,"texts":0,"unused_alternatives":[{"column":6,"end":8,"line":1,"start":5,"tried":false},{"column":12,"end":14,"line":1,"start":11,"tried":false}],"unused_rules":[{"column":1,"end":1,"line":1,"rule":"S","start":0,"tried":false}]}
  [1]

No empty record follows the last end, and the last record may lack its end.

  $ printf 'a\nb' | pegtool profile g --coverage --lines
  {"matched":2,"texts":2,"unused_alternatives":[],"unused_rules":[]}

An empty record is a text: it tries both alternatives, and fails.

  $ printf '\n' | pegtool profile g --coverage --lines
  {"matched":0,"texts":1,"unused_alternatives":[{"column":6,"end":8,"line":1,"start":5,"tried":true},{"column":12,"end":14,"line":1,"start":11,"tried":true}],"unused_rules":[{"column":1,"end":1,"line":1,"rule":"S","start":0,"tried":true}]}
  [1]
  $ printf 'a\n\nb\n' | pegtool profile g --coverage --lines
  {"matched":2,"texts":3,"unused_alternatives":[],"unused_rules":[]}

A record that doesn't match counts as a text, and so does what it tries.

  $ printf 'a\nc\n' | pegtool profile g --coverage --lines
  {"matched":1,"texts":2,"unused_alternatives":[{"column":12,"end":14,"line":1,"start":11,"tried":true}],"unused_rules":[]}
  [1]

A carriage return is a byte of the record, so that a prefix matches; with --crlf one right before a line feed isn't.

  $ printf 'a\r\nb\r\n' > crlf
  $ pegtool profile g --coverage --lines crlf
  {"matched":0,"texts":2,"unused_alternatives":[],"unused_rules":[]}
  $ pegtool profile g --coverage --lines crlf --prefix
  {"matched":2,"texts":2,"unused_alternatives":[],"unused_rules":[]}
  $ pegtool profile g --coverage --lines crlf --crlf
  {"matched":2,"texts":2,"unused_alternatives":[],"unused_rules":[]}

With --null a zero byte ends a record, and a line feed is a byte of it.

  $ printf 'a\0b\0' | pegtool profile g --coverage --lines --null
  {"matched":2,"texts":2,"unused_alternatives":[],"unused_rules":[]}
  $ printf 'a\n\0b' | pegtool profile g --coverage --lines --null
  {"matched":1,"texts":2,"unused_alternatives":[],"unused_rules":[]}

Several texts have the records of each; the end of a text ends its last record. With texts standard input isn't read.

  $ printf 'a\na' > one; printf 'b\n' > two
  $ printf 'c\n' | pegtool profile g one --coverage two --lines one
  {"matched":5,"texts":5,"unused_alternatives":[],"unused_rules":[]}

The start is that of each record, and no result depends on the memo.

  $ printf "S <- A / B\nA <- 'a'\nB <- 'b'" > rules
  $ for n in 0 1 4096; do printf 'b\na\n' | pegtool profile rules --coverage --lines --start B --memo $n; done
  {"matched":1,"texts":2,"unused_alternatives":[{"column":6,"end":6,"line":1,"start":5,"tried":false},{"column":10,"end":10,"line":1,"start":9,"tried":false}],"unused_rules":[{"column":1,"end":1,"line":1,"rule":"S","start":0,"tried":false},{"column":1,"end":12,"line":2,"rule":"A","start":11,"tried":false}]}
  {"matched":1,"texts":2,"unused_alternatives":[{"column":6,"end":6,"line":1,"start":5,"tried":false},{"column":10,"end":10,"line":1,"start":9,"tried":false}],"unused_rules":[{"column":1,"end":1,"line":1,"rule":"S","start":0,"tried":false},{"column":1,"end":12,"line":2,"rule":"A","start":11,"tried":false}]}
  {"matched":1,"texts":2,"unused_alternatives":[{"column":6,"end":6,"line":1,"start":5,"tried":false},{"column":10,"end":10,"line":1,"start":9,"tried":false}],"unused_rules":[{"column":1,"end":1,"line":1,"rule":"S","start":0,"tried":false},{"column":1,"end":12,"line":2,"rule":"A","start":11,"tried":false}]}
  [1]

A record may be longer than any block that is read, and there may be many: 300,000 bytes, and 100,000 records.

  $ printf "S <- 'a'+ / 'b'" > long
  $ (head -c 300000 /dev/zero | tr '\0' a; printf '\nb') | pegtool profile long --coverage --lines
  {"matched":2,"texts":2,"unused_alternatives":[],"unused_rules":[]}
  $ (yes a | head -n 99999; echo b) | pegtool profile g --coverage --lines
  {"matched":100000,"texts":100000,"unused_alternatives":[],"unused_rules":[]}

A stopped record uses nothing, and the others count. Standard error names it by its number, which goes on from text to
text. A parse of a takes 11 steps without a memo, and one of b takes 13.

  $ printf 'a\nb\na\nb\n' > four
  $ pegtool profile g --coverage --lines four --memo 0 --steps 12
  {"matched":2,"stopped":2,"texts":4,"unused_alternatives":[{"column":12,"end":14,"line":1,"start":11,"tried":false}],"unused_rules":[]}
  pegtool: record 2: the parse takes more steps than --steps allows
  pegtool: record 4: the parse takes more steps than --steps allows
  [6]
  $ pegtool profile g --coverage --lines one two --memo 0 --steps 12
  {"matched":2,"stopped":1,"texts":3,"unused_alternatives":[{"column":12,"end":14,"line":1,"start":11,"tried":false}],"unused_rules":[]}
  pegtool: record 3: the parse takes more steps than --steps allows
  [6]
  $ pegtool profile g --coverage --lines four --memo 0 --steps 13
  {"matched":4,"texts":4,"unused_alternatives":[],"unused_rules":[]}

A record of more than 64 MiB ends the run, as such a text does; one of 64 MiB doesn't.

  $ (printf 'a\n'; head -c 67108865 /dev/zero; printf '\nb\n') | pegtool profile g --coverage --lines
  {"refusal":"TextTooLong"}
  [6]
  $ (printf 'a\n'; head -c 67108864 /dev/zero; printf '\nb\n') | pegtool profile g --coverage --lines
  {"matched":2,"texts":3,"unused_alternatives":[],"unused_rules":[]}

A text that can't be opened or read ends the run, too, after whichever records: then nothing is said of them.

  $ pegtool profile g --coverage --lines one nowhere two
  pegtool: file fault
  nowhere: No such file or directory
  [4]
  $ mkdir folder; pegtool profile g --coverage --lines one folder
  pegtool: file fault
  folder: Is a directory
  [4]
  $ pegtool profile g --coverage --lines < folder
  pegtool: file fault
  standard input: Is a directory
  [4]

Of several faults the first one is reported.

  $ (head -c 67108865 /dev/zero; printf '\n') > large
  $ pegtool profile g --coverage --lines one large nowhere
  {"refusal":"TextTooLong"}
  [6]
  $ pegtool profile g --coverage --lines one nowhere large
  pegtool: file fault
  nowhere: No such file or directory
  [4]

What is wrong with the grammar file or the start is reported before a record is read. Even records that can't be read
don't matter then.

  $ printf "S <- S\n" > cycle
  $ pegtool profile cycle --coverage --lines nowhere
  {"path":["S"],"refusal":"LeftRecursion"}
  [2]
  $ pegtool profile g --coverage --lines nowhere --start T
  {"name":"T","refusal":"NoSuchStart"}
  [3]
  $ pegtool profile g --coverage --lines --start T < folder
  {"name":"T","refusal":"NoSuchStart"}
  [3]
  $ pegtool profile nowhere --coverage --lines < /dev/null
  pegtool: file fault
  nowhere: No such file or directory
  [4]

An output that can't be written is a fault.

  $ pegtool profile g --coverage --lines one two > /dev/full
  pegtool: file fault
  standard output: No space left on device
  [4]
