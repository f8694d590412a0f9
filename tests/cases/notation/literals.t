Where literals start and end, and what they contain.

The script writes each line of its input as a grammar file, and prints the result and its position before the line.

  $ cat > each.sh <<'END'
  > while IFS= read -r file; do
  >   printf '%s' "$file" > g.peg
  >   line=$(pegtool check g.peg)
  >   echo "$(sed -E 's/.*"at":([0-9]+).*:"(\w+)".*/\2 \1/; s/.*accepted.*:(.*)\}/accepted \1/' <<< "$line"): $file"
  > done
  > END

A literal contains any characters but its own quote; a `#` in it starts no comment (Ford 2004, figure 1).

  $ bash each.sh <<'END'
  > A <- ''
  > A <- ""
  > A <- '"'
  > A <- "'"
  > A <- '# no comment'
  > END
  accepted 1: A <- ''
  accepted 1: A <- ""
  accepted 1: A <- '"'
  accepted 1: A <- "'"
  accepted 1: A <- '# no comment'

A literal contains bytes above 127 as they are, and each of them is one instruction.

  $ printf "A <- '\200\377'" | pegtool code /dev/stdin
  {"code":[["end"],["test",0,[[128,128]]],["test",0,[[255,255]]],["ret"]],"entries":[1]}

A literal contains all three line ends and goes on after them to its quote.

  $ printf "A <- 'a\nb\r\nc\r'" | pegtool code /dev/stdin
  {"code":[["end"],["test",0,[[97,97]]],["test",0,[[10,10]]],["test",0,[[98,98]]],["test",0,[[13,13]]],["test",0,[[10,10]]],["test",0,[[99,99]]],["test",0,[[13,13]]],["ret"]],"entries":[1]}

A zero byte is a byte like others in a literal.

  $ printf "A <- '\000'" | pegtool code /dev/stdin
  {"code":[["end"],["test",0,[[0,0]]],["ret"]],"entries":[1]}

A literal without its closing quote is refused where it is opened; an escaped quote closes none.

  $ bash each.sh <<'END'
  > A <- '
  > A <- "
  > A <- 'a"
  > A <- "a'
  > A <- '\'
  > A <- "\"
  > A <- '''
  > A <- """
  > END
  Syntax 5: A <- '
  Syntax 5: A <- "
  Syntax 5: A <- 'a"
  Syntax 5: A <- "a'
  Syntax 5: A <- '\'
  Syntax 5: A <- "\"
  Syntax 7: A <- '''
  Syntax 7: A <- """

A line end doesn't close a literal, so it is refused at its quote in the line above.

  $ printf "A <- 'a\n" | pegtool check /dev/stdin
  {"at":5,"column":6,"line":1,"refusal":"Syntax"}
  [2]
