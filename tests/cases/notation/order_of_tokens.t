Tokens that aren't allowed after those before them, and where rules start.

The script writes each line of its input as a grammar file, and prints the result and its position before the line.

  $ cat > each.sh <<'END'
  > while IFS= read -r file; do
  >   printf '%s' "$file" > g.peg
  >   line=$(pegtool check g.peg)
  >   echo "$(sed -E 's/.*"at":([0-9]+).*:"(\w+)".*/\2 \1/; s/.*accepted.*:(.*)\}/accepted \1/' <<< "$line"): $file"
  > done
  > END

Without a definition, the first token that no grammar could have there is reported, or else the end of the file.

  $ bash each.sh <<'END'
  > 
  > A
  > <- 'x'
  > A A <- 'x'
  > A <- (B <- 'x')
  > A <- (B C <- D)
  > A <- ('x'
  > A <- 'x')
  > A <- ?
  > A <- 'x'?*
  > A <- !!A
  > A <- !
  > A <- & / B
  > A <- (/ ?)
  > END
  Syntax 0: 
  Syntax 1: A
  Syntax 0: <- 'x'
  Syntax 2: A A <- 'x'
  Syntax 8: A <- (B <- 'x')
  Syntax 10: A <- (B C <- D)
  Syntax 9: A <- ('x'
  Syntax 8: A <- 'x')
  Syntax 5: A <- ?
  Syntax 9: A <- 'x'?*
  Syntax 6: A <- !!A
  Syntax 6: A <- !
  Syntax 7: A <- & / B
  Syntax 8: A <- (/ ?)

The line and column are those of the token: after CR LF, line 2.

  $ printf 'A <-\r\n  ?' | pegtool check /dev/stdin
  {"at":8,"column":3,"line":2,"refusal":"Syntax"}
  [2]

A name with an arrow inside parentheses is refused at the arrow, also in a later line.

  $ printf 'A <- B\n(C <- D' | pegtool check /dev/stdin
  {"at":10,"column":4,"line":2,"refusal":"Syntax"}
  [2]

Each of these files is refused at its first token that isn't allowed there.

  $ bash each.sh <<'END'
  > A <- (B <- 'x')
  > A <- 'x' )
  > A B
  > A <- & 'x'* *
  > A <- !B <- 'x'
  > A <- B? C* <- 'x'
  > A <- 'x' <- B
  > A <- (B) <- 'x'
  > A <- ((B)) )
  > A <- / / ? B
  > A <- {1}
  > A
  > A <- (
  > A <- &
  > END
  Syntax 8: A <- (B <- 'x')
  Syntax 9: A <- 'x' )
  Syntax 2: A B
  Syntax 12: A <- & 'x'* *
  Syntax 8: A <- !B <- 'x'
  Syntax 11: A <- B? C* <- 'x'
  Syntax 9: A <- 'x' <- B
  Syntax 9: A <- (B) <- 'x'
  Syntax 11: A <- ((B)) )
  Syntax 9: A <- / / ? B
  Syntax 5: A <- {1}
  Syntax 1: A
  Syntax 6: A <- (
  Syntax 6: A <- &

The tokens before it start a grammar in each case: with another end, and with the rules B and C, there are three
rules.

  $ bash each.sh <<'END'
  > A <- (B ) B <- 'x' C <- 'x'
  > A <- 'x' 'y' B <- 'x' C <- 'x'
  > A <- B B <- 'x' C <- 'x'
  > A <- & 'x'* 'y' B <- 'x' C <- 'x'
  > A <- !B 'x' B <- 'x' C <- 'x'
  > A <- B? C* 'x' B <- 'x' C <- 'x'
  > A <- 'x' B B <- 'x' C <- 'x'
  > A <- (B) 'x' B <- 'x' C <- 'x'
  > A <- ((B)) B B <- 'x' C <- 'x'
  > A <- / / B B <- 'x' C <- 'x'
  > A <- 'x'{1} B <- 'x' C <- 'x'
  > A <- 'x' B <- 'x' C <- 'x'
  > A <- () B <- 'x' C <- 'x'
  > A <- &. B <- 'x' C <- 'x'
  > END
  accepted 3: A <- (B ) B <- 'x' C <- 'x'
  accepted 3: A <- 'x' 'y' B <- 'x' C <- 'x'
  accepted 3: A <- B B <- 'x' C <- 'x'
  accepted 3: A <- & 'x'* 'y' B <- 'x' C <- 'x'
  accepted 3: A <- !B 'x' B <- 'x' C <- 'x'
  accepted 3: A <- B? C* 'x' B <- 'x' C <- 'x'
  accepted 3: A <- 'x' B B <- 'x' C <- 'x'
  accepted 3: A <- (B) 'x' B <- 'x' C <- 'x'
  accepted 3: A <- ((B)) B B <- 'x' C <- 'x'
  accepted 3: A <- / / B B <- 'x' C <- 'x'
  accepted 3: A <- 'x'{1} B <- 'x' C <- 'x'
  accepted 3: A <- 'x' B <- 'x' C <- 'x'
  accepted 3: A <- () B <- 'x' C <- 'x'
  accepted 3: A <- &. B <- 'x' C <- 'x'

The whole file is split into tokens first, so a later place where no token starts is reported before such a token.

  $ bash each.sh <<'END'
  > A <
  > A <- [a-]
  > A <- 'x' #end
  > A <- "a\-b"
  > ?? 'x
  > ) <- - 
  > END
  Syntax 2: A <
  Syntax 5: A <- [a-]
  Syntax 9: A <- 'x' #end
  Syntax 5: A <- "a\-b"
  Syntax 3: ?? 'x
  Syntax 5: ) <- - 

A name followed by an arrow starts the next rule, without a line end between them.

  $ bash each.sh <<'END'
  > A <- B B <- 'x'
  > A <- B C <- D B <- 'x' D <- 'x'
  > A<-B<-C<-
  > _1a <- a_2 a_2 <- 'x'
  > END
  accepted 2: A <- B B <- 'x'
  accepted 4: A <- B C <- D B <- 'x' D <- 'x'
  accepted 3: A<-B<-C<-
  accepted 2: _1a <- a_2 a_2 <- 'x'

An expression may be empty, and comments may come before the first rule and after the last.

  $ printf 'A <-\nB <-\n\n' | pegtool check /dev/stdin
  {"result":"accepted","rules":2}
  $ printf "# first\n\nA <- 'x' # last\n" | pegtool check /dev/stdin
  {"result":"accepted","rules":1}

Comments may be between any two tokens; this star of a predicate, from 13 to 52, loops on the empty string.

  $ printf "A # a\n<- # b\n( # c\n'x' # d\n/ # e\n! # f\nB # g\n) # h\n* # i\nB <- ." > g.peg
  > pegtool check g.peg
  {"column":1,"end":52,"line":3,"refusal":"EmptyLoop","rule":"A","start":13}
  [2]

It has two rules, A and B: the star never fails, and the dot consumes a byte or fails.

  $ pegtool table g.peg
  {"table":[{"fails":false,"nothing":true,"rule":"A","something":true},{"fails":true,"nothing":false,"rule":"B","something":true}]}

Two hundred parentheses may be open at once, in each of two rules; both lines have 409 bytes.

  $ printf "A <- $(printf '(%.0s' {1..200})'a'$(printf ')%.0s' {1..200})\n" > deep.peg;
  >   printf "B <- $(printf '(%.0s' {1..200})'a'$(printf ')%.0s' {1..200})\n" >> deep.peg
  > wc -c < deep.peg; pegtool check deep.peg
  818
  {"result":"accepted","rules":2}

One more is refused at the parenthesis that is one too many, 200 after the first, which is at 5 in the line.

  $ (cat deep.peg; printf "C <- $(printf '(%.0s' {1..201})'a'$(printf ')%.0s' {1..201})\n") | pegtool check /dev/stdin
  {"at":1023,"column":206,"line":3,"refusal":"TooNested"}
  [2]

Too many parentheses are reported before a later token that isn't allowed, and before the end of the file.

  $ printf "A <- $(printf '(%.0s' {1..201})'a'$(printf ')%.0s' {1..201})\n)" | pegtool check /dev/stdin
  {"at":205,"column":206,"line":1,"refusal":"TooNested"}
  [2]
  $ printf "A <- $(printf '(%.0s' {1..201})" | pegtool check /dev/stdin
  {"at":205,"column":206,"line":1,"refusal":"TooNested"}
  [2]

An earlier token that isn't allowed is reported before them.

  $ printf "A <- ? A <- $(printf '(%.0s' {1..201})'a'$(printf ')%.0s' {1..201})\n" | pegtool check /dev/stdin
  {"at":5,"column":6,"line":1,"refusal":"Syntax"}
  [2]
