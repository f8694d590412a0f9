The program without arguments: standard input is a grammar file, a line %% and a text.

The line is that of a parse without options, and the text starts after the line %%.

  $ printf "S <- 'a' S / 'b'\n%%%%\naab" | pegtool
  {"consumed":3,"expected":[[5,8]],"far":2,"result":"matched","tree":{"children":[{"children":[{"children":[],"end":3,"rule":"S","start":2}],"end":3,"rule":"S","start":1}],"end":3,"rule":"S","start":0}}

The text may be empty, and then no alternative matches.

  $ printf "S <- 'a' S / 'b'\n%%%%\n" | pegtool
  {"expected":[[5,8],[13,16]],"far":0,"result":"failed"}
  [1]

A match of a prefix is a match, since no option asks for the whole text.

  $ printf "S <- 'a' / 'ab'\n%%%%\nab" | pegtool
  {"consumed":1,"expected":[],"far":0,"result":"matched","tree":{"children":[],"end":1,"rule":"S","start":0}}

A refused grammar has the line and the status of a check.

  $ printf "S <- S\n%%%%\nx" | pegtool
  {"path":["S"],"refusal":"LeftRecursion"}
  [2]

Tokens need no spacing between them, other than two names.

  $ printf "S<-'a'\n%%%%\na" | pegtool
  {"consumed":1,"expected":[],"far":0,"result":"matched","tree":{"children":[],"end":1,"rule":"S","start":0}}

An octal escape of three digits starts with 0 to 2, so this is byte 31 and a 7.

  $ { echo "A <- '\377'"; printf '%%%%\n\0377'; } | pegtool
  {"consumed":2,"expected":[],"far":0,"result":"matched","tree":{"children":[],"end":2,"rule":"A","start":0}}

The first alternative fails at its last letter, and the second one matches.

  $ printf "A <- '(' A ')' 'x' / '(' A ')' 'y' / 'a'\n%%%%\n(a)y" | pegtool
  {"consumed":4,"expected":[[15,18]],"far":3,"result":"matched","tree":{"children":[{"children":[],"end":2,"rule":"A","start":1}],"end":4,"rule":"A","start":0}}

Without a line %% the whole input is the grammar file, and the text is empty.

  $ echo "S <- ''" | pegtool
  {"consumed":0,"expected":[],"far":0,"result":"matched","tree":{"children":[],"end":0,"rule":"S","start":0}}

  $ echo "A <- 'x' #end" | pegtool
  {"expected":[[5,8]],"far":0,"result":"failed"}
  [1]

A line end at the end of the text is part of it, and here it follows the match.

  $ printf "S <- T 'c'\nT <- 'a' / 'b'\n%%%%\nbc\n" | pegtool
  {"consumed":2,"expected":[[16,19]],"far":0,"result":"matched","tree":{"children":[{"children":[],"end":1,"rule":"T","start":0}],"end":2,"rule":"S","start":0}}

Grammar and text are bytes, so a literal may have a byte that isn't UTF-8.

  $ printf "S <- 'a\377'\n%%%%\na\377" | pegtool
  {"consumed":2,"expected":[],"far":0,"result":"matched","tree":{"children":[],"end":2,"rule":"S","start":0}}

The memo has its default capacity: without one, 40 parentheses would take more than 2^40 steps.

  $ { printf "S <- '(' S 'x' / '(' S 'y' / 'a'\n%%%%\n"; printf '(%.0s' {1..40}; printf b; } | pegtool
  {"expected":[[5,8],[17,20],[29,32]],"far":40,"result":"failed"}
  [1]

So 100 parentheses are parsed at once, and only their 101 levels are too many.

  $ cat > memo.in <<'END'
  > A <- '(' A ')' 'x' / '(' A ')' 'y' / 'a'
  > %%
  > END
  $ { cat memo.in; printf '(%.0s' {1..100}; printf a; printf ')y%.0s' {1..100}; } | pegtool
  {"refusal":"TooDeep"}
  [6]

A tree of 61 levels is too deep, without the b there is no match, and 60 levels are printed.

  $ { printf "S <- 'a' S / 'b'\n%%%%\n"; printf 'a%.0s' {1..60}; } > deep.in
  $ { cat deep.in; printf b; } | pegtool
  {"refusal":"TooDeep"}
  [6]

  $ head -c 79 deep.in | pegtool
  {"expected":[[5,8],[13,16]],"far":59,"result":"failed"}
  [1]

  $ { head -c 79 deep.in; printf b; } | pegtool | cut -c 1-43
  {"consumed":60,"expected":[[5,8]],"far":59,

  $ { head -c 79 deep.in; printf b; } | pegtool > /dev/null

An empty input ends where the first definition is missing.

  $ pegtool
  {"at":0,"column":1,"line":1,"refusal":"Syntax"}
  [2]

A class, a comment and a literal that aren't closed are refused where they start.

  $ echo "A <- [a-]" | pegtool
  {"at":5,"column":6,"line":1,"refusal":"Syntax"}
  [2]

  $ printf "A <- 'x' #end" | pegtool
  {"at":9,"column":10,"line":1,"refusal":"Syntax"}
  [2]

  $ echo 'A <- "a\-b"' | pegtool
  {"at":5,"column":6,"line":1,"refusal":"Syntax"}
  [2]

A token that can follow in no grammar is refused at its start.

  $ printf "A <-\r\n  ?\n" | pegtool
  {"at":8,"column":3,"line":2,"refusal":"Syntax"}
  [2]

  $ echo "A <- (B <- 'x')" | pegtool
  {"at":8,"column":9,"line":1,"refusal":"Syntax"}
  [2]

A second definition is reported at its name, before the call of a missing rule.

  $ printf "A <- B\nA <- 'x'\n" | pegtool
  {"column":1,"end":8,"line":2,"name":"A","refusal":"Duplicate","start":7}
  [2]

  $ printf "S <- 'a'\nS <- T\n%%%%\na" | pegtool
  {"column":1,"end":10,"line":2,"name":"S","refusal":"Duplicate","start":9}
  [2]

The call of a rule that isn't defined is reported with its place.

  $ echo "A <- B" | pegtool
  {"column":6,"end":6,"line":1,"name":"B","refusal":"Undefined","start":5}
  [2]

  $ printf "S <- T\n%%%%\nx" | pegtool
  {"column":6,"end":6,"line":1,"name":"T","refusal":"Undefined","start":5}
  [2]

The lines before this call end with CR LF, CR and LF, so it is in line 4.

  $ printf "S <- 'a' # one\r\n\tTail\rTail <- ( 'b'\n / Rest )\n%%%%\na" | pegtool
  {"column":4,"end":43,"line":4,"name":"Rest","refusal":"Undefined","start":39}
  [2]
