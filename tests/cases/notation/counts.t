Counts in braces: where they start and end, and which are in range.

The script writes each line of its input as a grammar file, and prints the result and its position before the line.

  $ cat > each.sh <<'END'
  > while IFS= read -r file; do
  >   printf '%s' "$file" > g.peg
  >   line=$(pegtool check g.peg)
  >   echo "$(sed -E 's/.*"at":([0-9]+).*:"(\w+)".*/\2 \1/; s/.*accepted.*:(.*)\}/accepted \1/' <<< "$line"): $file"
  > done
  > END

These are counts, whether in range or not; a count out of range is reported at its brace.

  $ bash each.sh <<'END'
  > A <- 'x'{0}
  > A <- 'x'{2}
  > A <- 'x'{007}
  > A <- 'x'{2,4}
  > A <- 'x'{9,0}
  > A <- 'x'{256}
  > A <- 'x'{00,1234567890}
  > END
  BadCount 8: A <- 'x'{0}
  accepted 1: A <- 'x'{2}
  accepted 1: A <- 'x'{007}
  accepted 1: A <- 'x'{2,4}
  BadCount 8: A <- 'x'{9,0}
  BadCount 8: A <- 'x'{256}
  BadCount 8: A <- 'x'{00,1234567890}

A count has one or two decimal numbers without spacing inside, so these are no tokens.

  $ bash each.sh <<'END'
  > A <- 'x'{
  > A <- 'x'}
  > A <- 'x'{}
  > A <- 'x'{,}
  > A <- 'x'{2
  > A <- 'x'{2,
  > A <- 'x'{2,}
  > A <- 'x'{,2}
  > A <- 'x'{ 2}
  > A <- 'x'{2 }
  > A <- 'x'{2, 4}
  > A <- 'x'{2,4,8}
  > A <- 'x'{-2}
  > A <- 'x'{a}
  > A <- 'x'{0x2}
  > END
  Syntax 8: A <- 'x'{
  Syntax 8: A <- 'x'}
  Syntax 8: A <- 'x'{}
  Syntax 8: A <- 'x'{,}
  Syntax 8: A <- 'x'{2
  Syntax 8: A <- 'x'{2,
  Syntax 8: A <- 'x'{2,}
  Syntax 8: A <- 'x'{,2}
  Syntax 8: A <- 'x'{ 2}
  Syntax 8: A <- 'x'{2 }
  Syntax 8: A <- 'x'{2, 4}
  Syntax 8: A <- 'x'{2,4,8}
  Syntax 8: A <- 'x'{-2}
  Syntax 8: A <- 'x'{a}
  Syntax 8: A <- 'x'{0x2}

The script prints how many tests and choices the code of a counted dot has: as many as most and optional iterations.

  $ cat > iterations.sh <<'END'
  > while IFS= read -r count; do
  >   code=$(pegtool code <(echo "A <- .$count"))
  >   echo "$count: $(grep -o test <<< "$code" | wc -l) tests, $(grep -o choice <<< "$code" | wc -l) choices"
  > done
  > END

A count `{m,n}` has m iterations that must match and n - m optional ones; zeros may come before a number.

  $ bash iterations.sh <<'END'
  > {1}
  > {255}
  > {0,255}
  > {2,4} # c
  > {0007,010}
  > END
  {1}: 1 tests, 0 choices
  {255}: 255 tests, 0 choices
  {0,255}: 255 tests, 255 choices
  {2,4} # c: 4 tests, 2 choices
  {0007,010}: 10 tests, 3 choices

A count is in range if m is at most n and n is 1 to 255; `{2,}` is no count.

  $ bash each.sh <<'END'
  > A <- 'x'{0}
  > A <- 'x'{0,0}
  > A <- 'x'{4,2}
  > A <- 'x'{256}
  > A <- 'x'{1,256}
  > A <- 'x'{1,18446744073709551617}
  > A <- 'x'{2,}
  > END
  BadCount 8: A <- 'x'{0}
  BadCount 8: A <- 'x'{0,0}
  BadCount 8: A <- 'x'{4,2}
  BadCount 8: A <- 'x'{256}
  BadCount 8: A <- 'x'{1,256}
  BadCount 8: A <- 'x'{1,18446744073709551617}
  Syntax 8: A <- 'x'{2,}

A count in range is read after any primary, with spacing before it.

  $ bash each.sh <<'END'
  > A <- 'x' {007}
  > A <- (''){3}
  > A <- [a-z]{1,255}
  > A <- .{255}
  > A <- B{2}C <- 'x' B <- 'x'
  > END
  accepted 1: A <- 'x' {007}
  accepted 1: A <- (''){3}
  accepted 1: A <- [a-z]{1,255}
  accepted 1: A <- .{255}
  accepted 3: A <- B{2}C <- 'x' B <- 'x'

Counts of rules and of groups are read; neither rule has an outcome, since A calls B first and B calls A.

  $ printf 'A <- B{2}\nB <- (A{1}){0,1}' | pegtool table /dev/stdin
  {"table":[{"fails":false,"nothing":false,"rule":"A","something":false},{"fails":false,"nothing":false,"rule":"B","something":false}]}

A count follows a primary only, and a primary has at most one suffix.

  $ bash each.sh <<'END'
  > A <- 'x'{2,}
  > A <- 'x'{2}{3}
  > A <- ('x'{2}){3}{4}{5}
  > A <- 'x'{2}?
  > A <- 'x'*{2}
  > A <- {2}
  > A <- !{2}
  > A{2} <- 'x'
  > END
  Syntax 8: A <- 'x'{2,}
  Syntax 11: A <- 'x'{2}{3}
  Syntax 16: A <- ('x'{2}){3}{4}{5}
  Syntax 11: A <- 'x'{2}?
  Syntax 9: A <- 'x'*{2}
  Syntax 5: A <- {2}
  Syntax 6: A <- !{2}
  Syntax 1: A{2} <- 'x'

The first count out of range is reported, at its brace: of nested counts that is the inner one.

  $ bash each.sh <<'END'
  > A <- 'x'{0}
  > A <- 'x'{3,2}
  > A <- 'x'{256}
  > A <- 'x'{0,0}
  > A <- 'x'{0,256}
  > A <- ('x'{1}){0}
  > A <- ('x'{0}){0}
  > A <- 'x'{1} 'y'{2,1} 'z'{0}
  > END
  BadCount 8: A <- 'x'{0}
  BadCount 8: A <- 'x'{3,2}
  BadCount 8: A <- 'x'{256}
  BadCount 8: A <- 'x'{0,0}
  BadCount 8: A <- 'x'{0,256}
  BadCount 13: A <- ('x'{1}){0}
  BadCount 9: A <- ('x'{0}){0}
  BadCount 15: A <- 'x'{1} 'y'{2,1} 'z'{0}

A count out of range has the line and column of its brace, also after a comment or in a later rule.

  $ printf "A <- 'x' # c\n{2,1}" | pegtool check /dev/stdin
  {"at":13,"column":1,"line":2,"refusal":"BadCount"}
  [2]
  $ printf "A <- 'x'{2}\nB <- A{300}" | pegtool check /dev/stdin
  {"at":18,"column":7,"line":2,"refusal":"BadCount"}
  [2]

A thousand digits are a number: of ones and of zeros it is out of range, and zeros before a 7 are seven.

  $ printf "A <- 'x'{$(printf '1%.0s' {1..1000})}" | pegtool check /dev/stdin
  {"at":8,"column":9,"line":1,"refusal":"BadCount"}
  [2]
  $ printf "A <- 'x'{$(printf '0%.0s' {1..1000})}" | pegtool check /dev/stdin
  {"at":8,"column":9,"line":1,"refusal":"BadCount"}
  [2]
  $ printf "A <- 'x'{$(printf '0%.0s' {1..999})7}" | pegtool check /dev/stdin
  {"result":"accepted","rules":1}

A count out of range and a token that isn't allowed are reported in file order.

  $ bash each.sh <<'END'
  > A <- 'x'{0} ?
  > A <- ('x'{0}
  > A <- 'x'{0}{1}
  > A <- 'x'{0} )
  > A <- ? 'x'{0}
  > A <- {0}
  > A <- 'x'{1}{0}
  > END
  BadCount 8: A <- 'x'{0} ?
  BadCount 9: A <- ('x'{0}
  BadCount 8: A <- 'x'{0}{1}
  BadCount 8: A <- 'x'{0} )
  Syntax 5: A <- ? 'x'{0}
  Syntax 5: A <- {0}
  Syntax 11: A <- 'x'{1}{0}

A brace that starts no count is reported first, since the whole file is split into tokens first.

  $ bash each.sh <<'END'
  > A <- 'x'{0} {
  > END
  Syntax 12: A <- 'x'{0} {

Too many parentheses and a count out of range are reported in file order, too.

  $ printf "B <- 'x'{0} A <- $(printf '(%.0s' {1..201})'a'$(printf ')%.0s' {1..201})\n" | pegtool check /dev/stdin
  {"at":8,"column":9,"line":1,"refusal":"BadCount"}
  [2]
  $ printf "A <- $(printf '(%.0s' {1..201})'a'$(printf ')%.0s' {1..201})\nB <- 'x'{0}" | pegtool check /dev/stdin
  {"at":205,"column":206,"line":1,"refusal":"TooNested"}
  [2]
