The code of the metagrammar of Ford 2004, figure 1, counted by hand.

The text of the metagrammar, with hexadecimal escapes in Char and counts in Suffix, has 1,086 bytes.

  $ cat > figure.peg <<'END'
  > Grammar <- Spacing Definition+ EndOfFile
  > Definition <- Identifier LEFTARROW Expression
  > Expression <- Sequence (SLASH Sequence)*
  > Sequence <- Prefix*
  > Prefix <- (AND / NOT)? Suffix
  > Suffix <- Primary (QUESTION / STAR / PLUS / COUNT)?
  > Primary <- Identifier !LEFTARROW / OPEN Expression CLOSE / Literal / Class / DOT
  > Identifier <- IdentStart IdentCont* Spacing
  > IdentStart <- [a-zA-Z_]
  > IdentCont <- IdentStart / [0-9]
  > Literal <- ['] (!['] Char)* ['] Spacing / ["] (!["] Char)* ["] Spacing
  > Class <- '[' (!']' Range)* ']' Spacing
  > Range <- Char '-' Char / Char
  > Char <- '\\x' [0-9a-fA-F][0-9a-fA-F] / '\\' [nrt'"\[\]\\] / '\\' [0-2][0-7][0-7] / '\\' [0-7][0-7]? / !'\\' .
  > LEFTARROW <- '<-' Spacing
  > SLASH <- '/' Spacing
  > AND <- '&' Spacing
  > NOT <- '!' Spacing
  > QUESTION <- '?' Spacing
  > STAR <- '*' Spacing
  > PLUS <- '+' Spacing
  > COUNT <- '{' Number (',' Number)? '}' Spacing
  > Number <- [0-9]+
  > OPEN <- '(' Spacing
  > CLOSE <- ')' Spacing
  > DOT <- '.' Spacing
  > Spacing <- (Space / Comment)*
  > Comment <- '#' (!EndOfLine .)* EndOfLine
  > Space <- ' ' / '\t' / EndOfLine
  > EndOfLine <- '\r\n' / '\n' / '\r'
  > EndOfFile <- !.
  > END
  > wc -c < figure.peg
  1086

It has 31 rules, 57 calls (one is twice, in a plus), 20 slashes, 8 stars, 2 pluses, 4 options and 7 predicates.

  $ pegtool code figure.peg > code; grep -o '\["[a-z]*"' code | sort | uniq -c | tr -s ' '
   58 ["call"
   41 ["choice"
   34 ["commit"
   1 ["end"
   7 ["failtwice"
   31 ["ret"
   52 ["test"

Its 28 literals, 17 classes and 3 dots are the terminals 0 to 47.

  $ grep -o '"test",[0-9]*' code | sort -u | wc -l
  48

A text that is stopped uses nothing, so that each rule is listed, with its name and the offset where its line starts.

  $ pegtool profile figure.peg --coverage /dev/null --steps 1 2> e | grep -o '"rule":"[A-Za-z]*","start":[0-9]*' > places
  > wc -l < places; grep -ob '^[A-Za-z]*' figure.peg | sed 's/\(.*\):\(.*\)/"rule":"\2","start":\1/' | cmp - places
  31
