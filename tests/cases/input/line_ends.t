Line ends in grammar files are LF, CR LF and CR: what is refused in the second line has its place there.

The file is the rule A and a second line, each with one of the three line ends.

  $ cat > each_end <<'END'
  > for end in '\n' '\r\n' '\r'; do { printf "A <- 'x'$end"; printf '%s' "$1"; printf "$end"; } | pegtool; echo $?; done
  > END

A question mark without a part and a class that isn't closed are refused in column 6.

  $ bash each_end 'B <- ?'
  {"at":14,"column":6,"line":2,"refusal":"Syntax"}
  2
  {"at":15,"column":6,"line":2,"refusal":"Syntax"}
  2
  {"at":14,"column":6,"line":2,"refusal":"Syntax"}
  2

  $ bash each_end 'B <- [a-]'
  {"at":14,"column":6,"line":2,"refusal":"Syntax"}
  2
  {"at":15,"column":6,"line":2,"refusal":"Syntax"}
  2
  {"at":14,"column":6,"line":2,"refusal":"Syntax"}
  2

The 201st parenthesis of the second line is one too many, in column 206.

  $ bash each_end "B <- $(printf '(%.0s' {1..201})'y'$(printf ')%.0s' {1..201})"
  {"at":214,"column":206,"line":2,"refusal":"TooNested"}
  2
  {"at":215,"column":206,"line":2,"refusal":"TooNested"}
  2
  {"at":214,"column":206,"line":2,"refusal":"TooNested"}
  2

A second definition is reported at the start of its line.

  $ bash each_end "A <- 'y'"
  {"column":1,"end":10,"line":2,"name":"A","refusal":"Duplicate","start":9}
  2
  {"column":1,"end":11,"line":2,"name":"A","refusal":"Duplicate","start":10}
  2
  {"column":1,"end":10,"line":2,"name":"A","refusal":"Duplicate","start":9}
  2

The second line goes on with the rule of the first, and calls a rule that isn't defined.

  $ bash each_end '  Far'
  {"column":3,"end":14,"line":2,"name":"Far","refusal":"Undefined","start":11}
  2
  {"column":3,"end":15,"line":2,"name":"Far","refusal":"Undefined","start":12}
  2
  {"column":3,"end":14,"line":2,"name":"Far","refusal":"Undefined","start":11}
  2

A plus over a star is an empty loop, reported with its span.

  $ bash each_end "B <- ('y'*)+"
  {"column":6,"end":21,"line":2,"refusal":"EmptyLoop","rule":"B","start":14}
  2
  {"column":6,"end":22,"line":2,"refusal":"EmptyLoop","rule":"B","start":15}
  2
  {"column":6,"end":21,"line":2,"refusal":"EmptyLoop","rule":"B","start":14}
  2

Left recursion is reported without a place.

  $ bash each_end "B <- 'y'? B"
  {"path":["B"],"refusal":"LeftRecursion"}
  2
  {"path":["B"],"refusal":"LeftRecursion"}
  2
  {"path":["B"],"refusal":"LeftRecursion"}
  2

Line ends are read from the front: LF CR is two of them, and CR CR LF LF is three.

  $ printf "A <- 'x'\n\rB <- ?" | pegtool
  {"at":15,"column":6,"line":3,"refusal":"Syntax"}
  [2]

  $ printf "A <- 'x'\r\r\n\nB <- ?" | pegtool
  {"at":17,"column":6,"line":4,"refusal":"Syntax"}
  [2]

A line end in a literal counts, too, so the parenthesis is in line 3.

  $ printf "A <- 'x\r\n' \r)" | pegtool
  {"at":12,"column":1,"line":3,"refusal":"Syntax"}
  [2]

A line end may be between any two tokens, and it ends a comment.

  $ for end in '\n' '\r\n' '\r'; do
  >   printf "@A@<-@!@'x'@/@(@'y'@)@*@#c@" | sed "s/@/$end/g" | pegtool check /dev/stdin || echo $?
  > done
  {"result":"accepted","rules":1}
  {"result":"accepted","rules":1}
  {"result":"accepted","rules":1}

A line end in a literal stands for its bytes.

  $ for end in '\n' '\r\n' '\r'; do
  >   printf "$end" > end.txt; { printf "A <- '"; cat end.txt; printf "'"; } | pegtool parse /dev/stdin end.txt --rows
  > done
  {"consumed":1,"expected":[],"far":0,"result":"matched","rows":[[1,"A",0,1]]}
  {"consumed":2,"expected":[],"far":0,"result":"matched","rows":[[1,"A",0,2]]}
  {"consumed":1,"expected":[],"far":0,"result":"matched","rows":[[1,"A",0,1]]}

In a class it stands for each of its bytes, so the plus takes two of CR LF.

  $ for end in '\n' '\r\n' '\r'; do
  >   printf "$end" > end.txt; { printf 'A <- ['; cat end.txt; printf ']+'; } | pegtool parse /dev/stdin end.txt --rows
  > done
  {"consumed":1,"expected":[[5,8]],"far":1,"result":"matched","rows":[[1,"A",0,1]]}
  {"consumed":2,"expected":[[5,9]],"far":2,"result":"matched","rows":[[1,"A",0,2]]}
  {"consumed":1,"expected":[[5,8]],"far":1,"result":"matched","rows":[[1,"A",0,1]]}

An arrow can't have a line end in it, so no token starts at its first byte.

  $ for end in '\n' '\r\n' '\r'; do printf "A <$end- 'x'" | pegtool check /dev/stdin; done
  {"at":2,"column":3,"line":1,"refusal":"Syntax"}
  {"at":2,"column":3,"line":1,"refusal":"Syntax"}
  {"at":2,"column":3,"line":1,"refusal":"Syntax"}
  [2]
