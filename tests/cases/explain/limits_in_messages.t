The limits that messages of explain name are those of the program.

A file of 1,048,576 bytes is read to its end, and one byte more is too long.

  $ printf '%1048576s' '' > g; pegtool check g
  {"at":1048576,"column":1048577,"line":1,"refusal":"Syntax"}
  [2]
  $ printf '%1048577s' '' > g; pegtool explain g
  g: the grammar file is longer than 1048576 bytes
  [2]

The counts of the first grammar make 999,998 tests of a byte; return and end are two more.

  $ printf "A <- (('x'{255}){255}){15} ('x'{255}){96} 'x'{143}" > g; pegtool explain g
  $ printf "A <- (('x'{255}){255}){15} ('x'{255}){96} 'x'{144}" > g; pegtool explain g
  g: the code would have more than 1000000 instructions
  [2]

200 parentheses may be open at once, and 201 may not.

  $ (printf 'A <-\n'; printf '(%.0s' $(seq 199); printf "\n('x'"; printf ')%.0s' $(seq 200)) > g; pegtool explain g

The second parenthesis of the third line is the one too many, and the line is shown.

  $ (printf 'A <-\n'; printf '(%.0s' $(seq 199); printf '\n((') > g
  $ pegtool explain g
  g:3:2: parentheses nest deeper than 200
  ((
   ^
  [2]
