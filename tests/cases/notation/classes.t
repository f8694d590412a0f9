Where classes end, and the bytes that they contain.

The script writes each line of its input as a grammar file, and prints the result and its position before the line.

  $ cat > each.sh <<'END'
  > while IFS= read -r file; do
  >   printf '%s' "$file" > g.peg
  >   line=$(pegtool check g.peg)
  >   echo "$(sed -E 's/.*"at":([0-9]+).*:"(\w+)".*/\2 \1/; s/.*accepted.*:(.*)\}/accepted \1/' <<< "$line"): $file"
  > done
  > END

A class ends at the first bracket that isn't the end of a range (Ford 2004, figure 1, rules Class and Range).

  $ bash each.sh <<'END'
  > A <- []
  > A <- [^a]
  > A <- [-]
  > A <- [-a]
  > A <- [a-b-]
  > A <- [--a]
  > A <- [a--]
  > A <- [z-a]
  > A <- [[]
  > A <- [']
  > A <- [ #]
  > A <- [a-]]
  > END
  accepted 1: A <- []
  accepted 1: A <- [^a]
  accepted 1: A <- [-]
  accepted 1: A <- [-a]
  accepted 1: A <- [a-b-]
  accepted 1: A <- [--a]
  accepted 1: A <- [a--]
  accepted 1: A <- [z-a]
  accepted 1: A <- [[]
  accepted 1: A <- [']
  accepted 1: A <- [ #]
  accepted 1: A <- [a-]]

Raw bytes may be the ends of a range, and the class has all bytes between them.

  $ printf "A <- [\200-\377]" | pegtool code /dev/stdin
  {"code":[["end"],["test",0,[[128,255]]],["ret"]],"entries":[1]}

Line ends are characters of a class like others: 10 and 13.

  $ printf "A <- [\n\r]" | pegtool code /dev/stdin
  {"code":[["end"],["test",0,[[10,10],[13,13]]],["ret"]],"entries":[1]}

A zero byte may be a character of a class.

  $ printf "A <- [\000]" | pegtool code /dev/stdin
  {"code":[["end"],["test",0,[[0,0]]],["ret"]],"entries":[1]}

After `a-` a bracket is the end of a range, so these classes aren't closed; a closed one may leave a stray bracket.

  $ bash each.sh <<'END'
  > A <- [
  > A <- [a
  > A <- [a-
  > A <- [a-]
  > A <- [+-]
  > A <- [._-]
  > A <- [a-]b
  > A <- []]
  > END
  Syntax 5: A <- [
  Syntax 5: A <- [a
  Syntax 5: A <- [a-
  Syntax 5: A <- [a-]
  Syntax 5: A <- [+-]
  Syntax 5: A <- [._-]
  Syntax 5: A <- [a-]b
  Syntax 7: A <- []]

A class that isn't closed goes on over the next rule, and is refused at its bracket.

  $ printf "A <- [a-]\nB <- 'x'\n" | pegtool check /dev/stdin
  {"at":5,"column":6,"line":1,"refusal":"Syntax"}
  [2]

A class has the bytes of its ranges and single characters, and no others; the lists were worked out by hand.

  $ pegtool code /dev/stdin <<'END'
  > A <- [a-cx]
  > END
  {"code":[["end"],["test",0,[[97,99],[120,120]]],["ret"]],"entries":[1]}
  $ pegtool code /dev/stdin <<'END'
  > A <- [-+]
  > END
  {"code":[["end"],["test",0,[[43,43],[45,45]]],["ret"]],"entries":[1]}
  $ pegtool code /dev/stdin <<'END'
  > A <- [\]-_]
  > END
  {"code":[["end"],["test",0,[[93,95]]],["ret"]],"entries":[1]}
  $ pegtool code /dev/stdin <<'END'
  > A <- [z-a\n]
  > END
  {"code":[["end"],["test",0,[[10,10]]],["ret"]],"entries":[1]}
  $ printf "A <- [\310]" | pegtool code /dev/stdin
  {"code":[["end"],["test",0,[[200,200]]],["ret"]],"entries":[1]}
  $ pegtool code /dev/stdin <<'END'
  > A <- [\x80-\xbf]
  > END
  {"code":[["end"],["test",0,[[128,191]]],["ret"]],"entries":[1]}
  $ pegtool code /dev/stdin <<'END'
  > A <- [\x80-\xBF]
  > END
  {"code":[["end"],["test",0,[[128,191]]],["ret"]],"entries":[1]}
  $ pegtool code /dev/stdin <<'END'
  > A <- [\xfF\x5d]
  > END
  {"code":[["end"],["test",0,[[93,93],[255,255]]],["ret"]],"entries":[1]}

Sets of bytes are right at bytes that are multiples of 64, where the words of a set end.

  $ pegtool code /dev/stdin <<'END'
  > A <- [\x3C-\x46]
  > END
  {"code":[["end"],["test",0,[[60,70]]],["ret"]],"entries":[1]}
  $ pegtool code /dev/stdin <<'END'
  > A <- [\x46-\x3C]
  > END
  {"code":[["end"],["test",0,[]],["ret"]],"entries":[1]}
  $ pegtool code /dev/stdin <<'END'
  > A <- [\x00]
  > END
  {"code":[["end"],["test",0,[[0,0]]],["ret"]],"entries":[1]}
  $ pegtool code /dev/stdin <<'END'
  > A <- [\x3F]
  > END
  {"code":[["end"],["test",0,[[63,63]]],["ret"]],"entries":[1]}
  $ pegtool code /dev/stdin <<'END'
  > A <- [\x40]
  > END
  {"code":[["end"],["test",0,[[64,64]]],["ret"]],"entries":[1]}
  $ pegtool code /dev/stdin <<'END'
  > A <- [\xFF]
  > END
  {"code":[["end"],["test",0,[[255,255]]],["ret"]],"entries":[1]}

A class is the union of its parts, which may be far apart, empty or all bytes.

  $ pegtool code /dev/stdin <<'END'
  > A <- [\x00\xC8-\xFF]
  > END
  {"code":[["end"],["test",0,[[0,0],[200,255]]],["ret"]],"entries":[1]}
  $ pegtool code /dev/stdin <<'END'
  > A <- [b-ad-c]
  > END
  {"code":[["end"],["test",0,[]],["ret"]],"entries":[1]}
  $ pegtool code /dev/stdin <<'END'
  > A <- [\x00-\xFF]
  > END
  {"code":[["end"],["test",0,[[0,255]]],["ret"]],"entries":[1]}
