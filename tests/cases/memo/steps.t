Steps and calls that a memo saves, worked out by hand.

Each alternative of A but the last reads the parentheses anew.

  $ echo "A <- '(' A ')' 'x' / '(' A ')' 'y' / 'a'" > twice.peg; printf '(a)y' > one.txt

Without a memo A is called at 0 once and at 1 twice.

  $ pegtool profile twice.peg one.txt
  {"consumed":4,"result":"matched","rules":[{"again":1,"calls":3,"places":2,"rule":"A"}],"steps":25}

With a memo of one entry the second call at 1 is one step instead of seven.

  $ pegtool profile twice.peg one.txt --memo 1
  {"consumed":4,"result":"matched","rules":[{"again":0,"calls":2,"places":2,"rule":"A"}],"steps":19}

That many steps are enough. One less stops the run before its last instruction, when all calls have been made.

  $ pegtool profile twice.peg one.txt --memo 1 --steps 19
  {"consumed":4,"result":"matched","rules":[{"again":0,"calls":2,"places":2,"rule":"A"}],"steps":19}
  $ pegtool profile twice.peg one.txt --memo 1 --steps 18
  {"result":"stopped","rules":[{"again":0,"calls":2,"places":2,"rule":"A"}],"steps":18}
  [6]

With capacity for each rule at each position, no call runs twice.

  $ pegtool profile twice.peg one.txt --memo 5
  {"consumed":4,"result":"matched","rules":[{"again":0,"calls":2,"places":2,"rule":"A"}],"steps":19}

The script writes parentheses around an `a`, each followed by `y`.

  $ cat > nested.sh <<'END'
  > printf '(%.0s' $(seq $1); printf a; printf ')y%.0s' $(seq $1)
  > END
  > bash nested.sh 30 > 30.txt; bash nested.sh 100 > 100.txt; wc -c < 30.txt; wc -c < 100.txt
  91
  301

Each level takes twelve steps, and the innermost call seven: 12 n + 7 steps for n levels, at any capacity.

  $ pegtool profile twice.peg 30.txt --memo 1 --steps 367
  {"consumed":91,"result":"matched","rules":[{"again":0,"calls":31,"places":31,"rule":"A"}],"steps":367}
  $ pegtool profile twice.peg 30.txt --memo 1 --steps 366
  {"result":"stopped","rules":[{"again":0,"calls":31,"places":31,"rule":"A"}],"steps":366}
  [6]

Without a memo the time would be exponential; each node starts a byte later and ends two bytes earlier than its
parent.

  $ pegtool parse twice.peg 30.txt --memo 1 --rows > line
  > (printf '{"consumed":91,"expected":[[15,18]],"far":90,"result":"matched","rows":['
  > seq 0 30 | awk '{printf "%s[%d,\"A\",%d,%d]", $1 ? "," : "", $1 + 1, $1, 91 - 2 * $1}'; echo ']}') | cmp - line

Each level takes twelve steps, and the innermost call seven: 12 n + 7 steps for n levels, at any capacity.

  $ pegtool profile twice.peg 30.txt --memo 4096 --steps 367
  {"consumed":91,"result":"matched","rules":[{"again":0,"calls":31,"places":31,"rule":"A"}],"steps":367}
  $ pegtool profile twice.peg 30.txt --memo 4096 --steps 366
  {"result":"stopped","rules":[{"again":0,"calls":31,"places":31,"rule":"A"}],"steps":366}
  [6]

Without a memo the time would be exponential; each node starts a byte later and ends two bytes earlier than its
parent.

  $ pegtool parse twice.peg 30.txt --memo 4096 --rows > line
  > (printf '{"consumed":91,"expected":[[15,18]],"far":90,"result":"matched","rows":['
  > seq 0 30 | awk '{printf "%s[%d,\"A\",%d,%d]", $1 ? "," : "", $1 + 1, $1, 91 - 2 * $1}'; echo ']}') | cmp - line

Each level takes twelve steps, and the innermost call seven: 12 n + 7 steps for n levels, at any capacity.

  $ pegtool profile twice.peg 100.txt --memo 1 --steps 1207
  {"consumed":301,"result":"matched","rules":[{"again":0,"calls":101,"places":101,"rule":"A"}],"steps":1207}
  $ pegtool profile twice.peg 100.txt --memo 1 --steps 1206
  {"result":"stopped","rules":[{"again":0,"calls":101,"places":101,"rule":"A"}],"steps":1206}
  [6]

Without a memo the time would be exponential; each node starts a byte later and ends two bytes earlier than its
parent.

  $ pegtool parse twice.peg 100.txt --memo 1 --rows > line
  > (printf '{"consumed":301,"expected":[[15,18]],"far":300,"result":"matched","rows":['
  > seq 0 100 | awk '{printf "%s[%d,\"A\",%d,%d]", $1 ? "," : "", $1 + 1, $1, 301 - 2 * $1}'; echo ']}') | cmp - line

Each level takes twelve steps, and the innermost call seven: 12 n + 7 steps for n levels, at any capacity.

  $ pegtool profile twice.peg 100.txt --memo 4096 --steps 1207
  {"consumed":301,"result":"matched","rules":[{"again":0,"calls":101,"places":101,"rule":"A"}],"steps":1207}
  $ pegtool profile twice.peg 100.txt --memo 4096 --steps 1206
  {"result":"stopped","rules":[{"again":0,"calls":101,"places":101,"rule":"A"}],"steps":1206}
  [6]

Without a memo the time would be exponential; each node starts a byte later and ends two bytes earlier than its
parent.

  $ pegtool parse twice.peg 100.txt --memo 4096 --rows > line
  > (printf '{"consumed":301,"expected":[[15,18]],"far":300,"result":"matched","rows":['
  > seq 0 100 | awk '{printf "%s[%d,\"A\",%d,%d]", $1 ? "," : "", $1 + 1, $1, 301 - 2 * $1}'; echo ']}') | cmp - line

40,000 parentheses in C have over 2^20 stored nodes and links, so these are forgotten, and work is repeated. A level
takes some 200 steps. A thousand for each are enough, unless the results are lost again and again.

  $ (printf '(%.0s' $(seq 40000); printf x; printf ')%.0s' $(seq 40000); echo ';') > deep.txt
  $ pegtool parse examples/c.peg deep.txt --no-tree --steps 40000000 | grep -o '"result":"[a-z]*"'
  "result":"matched"
