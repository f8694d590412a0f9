Spacing, comments, names and bytes that start no token.

The script writes each line of its input as a grammar file, and prints the result and its position before the line.

  $ cat > each.sh <<'END'
  > while IFS= read -r file; do
  >   printf '%s' "$file" > g.peg
  >   line=$(pegtool check g.peg)
  >   echo "$(sed -E 's/.*"at":([0-9]+).*:"(\w+)".*/\2 \1/; s/.*accepted.*:(.*)\}/accepted \1/' <<< "$line"): $file"
  > done
  > END

A comment ends with LF, CR or CR LF, as the place of the undefined name after it shows.

  $ printf '#c\nA<-B' | pegtool check /dev/stdin
  {"column":4,"end":7,"line":2,"name":"B","refusal":"Undefined","start":6}
  [2]
  $ printf '#c\rA<-B' | pegtool check /dev/stdin
  {"column":4,"end":7,"line":2,"name":"B","refusal":"Undefined","start":6}
  [2]
  $ printf "#'\rA<-B" | pegtool check /dev/stdin
  {"column":4,"end":7,"line":2,"name":"B","refusal":"Undefined","start":6}
  [2]
  $ printf '#\000\377#\r\nA<-B' | pegtool check /dev/stdin
  {"column":4,"end":10,"line":2,"name":"B","refusal":"Undefined","start":9}
  [2]
  $ printf 'A#\n<-B' | pegtool check /dev/stdin
  {"column":3,"end":6,"line":2,"name":"B","refusal":"Undefined","start":5}
  [2]

A comment without a line end is refused at its `#`, also in the last line.

  $ bash each.sh <<'END'
  > #
  > # c
  > #A <- B
  > A <- B # c
  > A <- B #
  > END
  Syntax 0: #
  Syntax 0: # c
  Syntax 0: #A <- B
  Syntax 7: A <- B # c
  Syntax 7: A <- B #

A file of spacing alone has no definition, so it is refused where it ends.

  $ printf '' | pegtool check /dev/stdin
  {"at":0,"column":1,"line":1,"refusal":"Syntax"}
  [2]
  $ printf ' ' | pegtool check /dev/stdin
  {"at":1,"column":2,"line":1,"refusal":"Syntax"}
  [2]
  $ printf ' \t\r\n\n\r\r' | pegtool check /dev/stdin
  {"at":7,"column":1,"line":5,"refusal":"Syntax"}
  [2]
  $ printf '#\n' | pegtool check /dev/stdin
  {"at":2,"column":1,"line":2,"refusal":"Syntax"}
  [2]
  $ printf '\n# a\r# b\r\n \t# c\n' | pegtool check /dev/stdin
  {"at":16,"column":1,"line":5,"refusal":"Syntax"}
  [2]

A file is refused where no token starts, even if an earlier token isn't allowed there.

  $ bash each.sh <<'END'
  > <
  > < -
  > <<-
  > =
  > ]
  > -
  >  <
  > A<
  > A<=B
  > A <- B )= C
  > A <- 'x';
  > END
  Syntax 0: <
  Syntax 0: < -
  Syntax 0: <<-
  Syntax 0: =
  Syntax 0: ]
  Syntax 0: -
  Syntax 1:  <
  Syntax 1: A<
  Syntax 1: A<=B
  Syntax 8: A <- B )= C
  Syntax 8: A <- 'x';

Control characters and the byte order mark are no spacing.

  $ printf '\000' | pegtool check /dev/stdin
  {"at":0,"column":1,"line":1,"refusal":"Syntax"}
  [2]
  $ printf '\357\273\277A <- B\n' | pegtool check /dev/stdin
  {"at":0,"column":1,"line":1,"refusal":"Syntax"}
  [2]
  $ printf '\013' | pegtool check /dev/stdin
  {"at":0,"column":1,"line":1,"refusal":"Syntax"}
  [2]
  $ printf '\014' | pegtool check /dev/stdin
  {"at":0,"column":1,"line":1,"refusal":"Syntax"}
  [2]
  $ printf 'A\000' | pegtool check /dev/stdin
  {"at":1,"column":2,"line":1,"refusal":"Syntax"}
  [2]
  $ printf 'A <- \n\t $ \000' | pegtool check /dev/stdin
  {"at":8,"column":3,"line":2,"refusal":"Syntax"}
  [2]

A name has letters, digits and underscores, and starts with no digit.

  $ bash each.sh <<'END'
  > _ <- 'x'
  > aZ_09 <- 'x'
  > Zz <- 'x'
  > a_1-b
  > 1a
  > -a
  > END
  accepted 1: _ <- 'x'
  accepted 1: aZ_09 <- 'x'
  accepted 1: Zz <- 'x'
  Syntax 3: a_1-b
  Syntax 0: 1a
  Syntax 0: -a

A letter beyond ASCII neither continues nor starts a name.

  $ printf 'a_1\303\251' | pegtool check /dev/stdin
  {"at":3,"column":4,"line":1,"refusal":"Syntax"}
  [2]
  $ printf '\303\251' | pegtool check /dev/stdin
  {"at":0,"column":1,"line":1,"refusal":"Syntax"}
  [2]

No spacing is needed between the tokens of a definition.

  $ printf "A<-'x'" | pegtool check /dev/stdin
  {"result":"accepted","rules":1}

A file of 1,048,576 bytes is read to its end; one name or spacing alone is no grammar, so its end is reported.

  $ head -c 1048576 /dev/zero | tr '\000' a | pegtool check /dev/stdin
  {"at":1048576,"column":1048577,"line":1,"refusal":"Syntax"}
  [2]
  $ head -c 1048576 /dev/zero | tr '\000' ' ' | pegtool check /dev/stdin
  {"at":1048576,"column":1048577,"line":1,"refusal":"Syntax"}
  [2]

A file of one byte more is too long, whatever its bytes are, also a byte that starts no token.

  $ head -c 1048577 /dev/zero | tr '\000' ' ' | pegtool check /dev/stdin
  {"refusal":"FileTooLong"}
  [2]
  $ head -c 1048577 /dev/zero | tr '\000' a | pegtool check /dev/stdin
  {"refusal":"FileTooLong"}
  [2]
  $ head -c 1048577 /dev/zero | cat | pegtool check /dev/stdin
  {"refusal":"FileTooLong"}
  [2]

A file at the limit is read as others: a name without an arrow is refused at the end, and a rule is accepted.

  $ printf '%*s ' 1048575 A | pegtool check /dev/stdin
  {"at":1048576,"column":1048577,"line":1,"refusal":"Syntax"}
  [2]
  $ printf '%-1048576s' 'A<-' | pegtool check /dev/stdin
  {"result":"accepted","rules":1}
  $ printf '%-1048577s' 'A<-' | pegtool check /dev/stdin
  {"refusal":"FileTooLong"}
  [2]
