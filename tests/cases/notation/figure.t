The metagrammar of Ford 2004, figure 1, with hexadecimal escapes in Char and counts in Suffix, as a grammar file.

The text has 1,086 bytes and defines 31 rules; both were counted by hand, line by line.

  $ cat > figure.peg <<'END'
  > Grammar <- Spacing Definition+ EndOfFile
  > Definition <- Identifier LEFTARROW Expression
  > Expression <- Sequence (SLASH Sequence)*
  > Sequence <- Prefix*
  > Prefix <- (AND / NOT)? Suffix
  > Suffix <- Primary (QUESTION / STAR / PLUS / COUNT)?
  > Primary <- Identifier !LEFTARROW / OPEN Expression CLOSE / Literal / Class / DOT
  > Identifier <- IdentStart IdentCont* Spacing
  > IdentStart <- [a-zA-Z_]
  > IdentCont <- IdentStart / [0-9]
  > Literal <- ['] (!['] Char)* ['] Spacing / ["] (!["] Char)* ["] Spacing
  > Class <- '[' (!']' Range)* ']' Spacing
  > Range <- Char '-' Char / Char
  > Char <- '\\x' [0-9a-fA-F][0-9a-fA-F] / '\\' [nrt'"\[\]\\] / '\\' [0-2][0-7][0-7] / '\\' [0-7][0-7]? / !'\\' .
  > LEFTARROW <- '<-' Spacing
  > SLASH <- '/' Spacing
  > AND <- '&' Spacing
  > NOT <- '!' Spacing
  > QUESTION <- '?' Spacing
  > STAR <- '*' Spacing
  > PLUS <- '+' Spacing
  > COUNT <- '{' Number (',' Number)? '}' Spacing
  > Number <- [0-9]+
  > OPEN <- '(' Spacing
  > CLOSE <- ')' Spacing
  > DOT <- '.' Spacing
  > Spacing <- (Space / Comment)*
  > Comment <- '#' (!EndOfLine .)* EndOfLine
  > Space <- ' ' / '\t' / EndOfLine
  > EndOfLine <- '\r\n' / '\n' / '\r'
  > EndOfFile <- !.
  > END
  > wc -c < figure.peg; pegtool check figure.peg
  1086
  {"result":"accepted","rules":31}

Each proper prefix of it is read as a grammar, or is refused within the prefix.

  $ text=$(cat figure.peg)
  > for length in {0..1085}; do
  >   printf '%s' "${text:0:length}" > front.peg
  >   line=$(pegtool check front.peg)
  >   status=$?
  >   [[ $line =~ '"at":'([0-9]+) ]] && [ "${BASH_REMATCH[1]}" -gt $length ] && status=beyond
  >   echo $status
  > done | grep -c '^[02]$'
  1086
