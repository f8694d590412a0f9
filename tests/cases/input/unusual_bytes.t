Bytes that are no text, 0 and 128 to 255: where a grammar file may have them, and where not.

Each of these 129 bytes may be in both literals, in a class, at both ends of a range and in a comment.

  $ for byte in 0 $(seq 128 255); do
  >   b=$(printf '\\%03o' $byte)
  >   printf "A <- '$b' \"$b\" [$b] [$b-$b] #$b\n" > byte.peg
  >   printf "$b$b$b$b" | pegtool parse byte.peg /dev/stdin --rows || echo $?
  > done | sort | uniq -c | sed 's/^ *//'
  129 {"consumed":4,"expected":[],"far":0,"result":"matched","rows":[[1,"A",0,4]]}

Between two tokens no token starts with such a byte, so the file is refused there.

  $ for byte in 0 $(seq 128 255); do
  >   printf "A $(printf '\\%03o' $byte) <- 'x'" | pegtool check /dev/stdin; echo $?
  > done | sort | uniq -c | sed 's/^ *//'
  129 2
  129 {"at":2,"column":3,"line":1,"refusal":"Syntax"}

A name ends before such a byte, and the file is refused there, too.

  $ for byte in 0 $(seq 128 255); do
  >   printf "A$(printf '\\%03o' $byte)B <- 'x'" | pegtool check /dev/stdin; echo $?
  > done | sort | uniq -c | sed 's/^ *//'
  129 2
  129 {"at":1,"column":2,"line":1,"refusal":"Syntax"}
