Escapes in literals and classes.

The script writes each line of its input as a grammar file, and prints the result and its position before the line.

  $ cat > each.sh <<'END'
  > while IFS= read -r file; do
  >   printf '%s' "$file" > g.peg
  >   line=$(pegtool check g.peg)
  >   echo "$(sed -E 's/.*"at":([0-9]+).*:"(\w+)".*/\2 \1/; s/.*accepted.*:(.*)\}/accepted \1/' <<< "$line"): $file"
  > done
  > END

Ford 2004, figure 1, has these escapes of one character and of digits, and hexadecimal ones are added.

  $ bash each.sh <<'END'
  > A <- '\n'
  > A <- '\r'
  > A <- '\t'
  > A <- '\''
  > A <- '\"'
  > A <- '\['
  > A <- '\]'
  > A <- '\\'
  > A <- '\0'
  > A <- '\7'
  > A <- '\08'
  > A <- '\00'
  > A <- '\77'
  > A <- '\000'
  > A <- '\277'
  > A <- '\377'
  > A <- '\x00'
  > A <- '\x9f'
  > A <- '\xF9'
  > A <- '\xAf'
  > A <- '\x414'
  > A <- "\n\"\'\\"
  > END
  accepted 1: A <- '\n'
  accepted 1: A <- '\r'
  accepted 1: A <- '\t'
  accepted 1: A <- '\''
  accepted 1: A <- '\"'
  accepted 1: A <- '\['
  accepted 1: A <- '\]'
  accepted 1: A <- '\\'
  accepted 1: A <- '\0'
  accepted 1: A <- '\7'
  accepted 1: A <- '\08'
  accepted 1: A <- '\00'
  accepted 1: A <- '\77'
  accepted 1: A <- '\000'
  accepted 1: A <- '\277'
  accepted 1: A <- '\377'
  accepted 1: A <- '\x00'
  accepted 1: A <- '\x9f'
  accepted 1: A <- '\xF9'
  accepted 1: A <- '\xAf'
  accepted 1: A <- '\x414'
  accepted 1: A <- "\n\"\'\\"

The rule Char of the metagrammar is the same in classes, so a class may have the same escapes.

  $ bash each.sh <<'END'
  > A <- [\n]
  > A <- [\r]
  > A <- [\t]
  > A <- [\']
  > A <- [\"]
  > A <- [\[]
  > A <- [\]]
  > A <- [\\]
  > A <- [\0-\7]
  > A <- [\00-\77]
  > A <- [\000-\277]
  > A <- [\377]
  > A <- [\x80-\xBF]
  > A <- [a-\xff]
  > A <- [a-\]]
  > A <- [\\-\]]
  > END
  accepted 1: A <- [\n]
  accepted 1: A <- [\r]
  accepted 1: A <- [\t]
  accepted 1: A <- [\']
  accepted 1: A <- [\"]
  accepted 1: A <- [\[]
  accepted 1: A <- [\]]
  accepted 1: A <- [\\]
  accepted 1: A <- [\0-\7]
  accepted 1: A <- [\00-\77]
  accepted 1: A <- [\000-\277]
  accepted 1: A <- [\377]
  accepted 1: A <- [\x80-\xBF]
  accepted 1: A <- [a-\xff]
  accepted 1: A <- [a-\]]
  accepted 1: A <- [\\-\]]

Anything else after a backslash is no escape, so no token starts at the quote, bracket or backslash.

  $ bash each.sh <<'END'
  > A <- '\8'
  > A <- '\9'
  > A <- '\-'
  > A <- '\a'
  > A <- '\x'
  > A <- '\x4'
  > A <- '\xf'
  > A <- '\x4g'
  > A <- '\xg4'
  > A <- '\x4
  > A <- '\X41'
  > A <- [\x4]
  > A <- [\x-z]
  > A <- [a-\x4]
  > A <- [\X41]
  > A <- '\u0041'
  > A <- '\ '
  > A <- [\8]
  > A <- [\-]
  > A <- [\a]
  > A <- [\^]
  > A <- [a-\-]
  > A <- '\
  > A <- 'a\
  > A <- [\
  > A <- [a-\
  > A <- \
  > A <- \n
  > END
  Syntax 5: A <- '\8'
  Syntax 5: A <- '\9'
  Syntax 5: A <- '\-'
  Syntax 5: A <- '\a'
  Syntax 5: A <- '\x'
  Syntax 5: A <- '\x4'
  Syntax 5: A <- '\xf'
  Syntax 5: A <- '\x4g'
  Syntax 5: A <- '\xg4'
  Syntax 5: A <- '\x4
  Syntax 5: A <- '\X41'
  Syntax 5: A <- [\x4]
  Syntax 5: A <- [\x-z]
  Syntax 5: A <- [a-\x4]
  Syntax 5: A <- [\X41]
  Syntax 5: A <- '\u0041'
  Syntax 5: A <- '\ '
  Syntax 5: A <- [\8]
  Syntax 5: A <- [\-]
  Syntax 5: A <- [\a]
  Syntax 5: A <- [\^]
  Syntax 5: A <- [a-\-]
  Syntax 5: A <- '\
  Syntax 5: A <- 'a\
  Syntax 5: A <- [\
  Syntax 5: A <- [a-\
  Syntax 5: A <- \
  Syntax 5: A <- \n

A backslash at the end of a line is no escape either, although a literal may contain a line end.

  $ printf "A <- '\\\\\n'" | pegtool check /dev/stdin
  {"at":5,"column":6,"line":1,"refusal":"Syntax"}
  [2]

Where the escape after `a-` is one character, the last dash is a character and the class is closed.

  $ bash each.sh <<'END'
  > A <- [a-\0-]
  > A <- [a-\7-]
  > A <- [a-\37-]
  > A <- [a-\77-]
  > A <- [a-\000-]
  > A <- [a-\277-]
  > A <- [a-\n-]
  > A <- [a-\x41-]
  > END
  accepted 1: A <- [a-\0-]
  accepted 1: A <- [a-\7-]
  accepted 1: A <- [a-\37-]
  accepted 1: A <- [a-\77-]
  accepted 1: A <- [a-\000-]
  accepted 1: A <- [a-\277-]
  accepted 1: A <- [a-\n-]
  accepted 1: A <- [a-\x41-]

Where the last digit is a character of its own, it starts a range up to the bracket, and the class is open.

  $ bash each.sh <<'END'
  > A <- [a-\08-]
  > A <- [a-\78-]
  > A <- [a-\300-]
  > A <- [a-\377-]
  > A <- [a-\777-]
  > A <- [a-\378-]
  > A <- [a-\278-]
  > A <- [a-\0000-]
  > A <- [a-\x414-]
  > A <- [a-\x41a-]
  > END
  Syntax 5: A <- [a-\08-]
  Syntax 5: A <- [a-\78-]
  Syntax 5: A <- [a-\300-]
  Syntax 5: A <- [a-\377-]
  Syntax 5: A <- [a-\777-]
  Syntax 5: A <- [a-\378-]
  Syntax 5: A <- [a-\278-]
  Syntax 5: A <- [a-\0000-]
  Syntax 5: A <- [a-\x414-]
  Syntax 5: A <- [a-\x41a-]

Each of the eight escapes of one character is the byte that the table of escapes in NOTATION.md lists.

  $ pegtool code /dev/stdin <<'END'
  > A <- '\n\r\t\'\"\[\]\\'
  > END
  {"code":[["end"],["test",0,[[10,10]]],["test",0,[[13,13]]],["test",0,[[9,9]]],["test",0,[[39,39]]],["test",0,[[34,34]]],["test",0,[[91,91]]],["test",0,[[93,93]]],["test",0,[[92,92]]],["ret"]],"entries":[1]}

Three octal digits are taken only after 0, 1 or 2 (Ford 2004, figure 1), so 377 is 31 and a character.

  $ pegtool code /dev/stdin <<'END'
  > A <- "\377\191\0\177\277a"
  > END
  {"code":[["end"],["test",0,[[31,31]]],["test",0,[[55,55]]],["test",0,[[1,1]]],["test",0,[[57,57]]],["test",0,[[49,49]]],["test",0,[[0,0]]],["test",0,[[127,127]]],["test",0,[[191,191]]],["test",0,[[97,97]]],["ret"]],"entries":[1]}

A hexadecimal escape takes exactly two digits, in upper or lower case, so the last 4 is a character.

  $ pegtool code /dev/stdin <<'END'
  > A <- '\x00\x7f\xC8\xfF\x9a\xA9\x414'
  > END
  {"code":[["end"],["test",0,[[0,0]]],["test",0,[[127,127]]],["test",0,[[200,200]]],["test",0,[[255,255]]],["test",0,[[154,154]]],["test",0,[[169,169]]],["test",0,[[65,65]]],["test",0,[[52,52]]],["ret"]],"entries":[1]}
