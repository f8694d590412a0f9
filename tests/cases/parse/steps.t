The limit of steps, where each step is an instruction of the code that the machine executes.

On the text aab the chain of three calls takes 15 steps: five for each a, four for b, one for the end.

  $ echo "S <- 'a' S / 'b'" > chain.peg; printf aab > aab.txt
  $ pegtool parse chain.peg aab.txt --memo 0 --steps 15
  {"consumed":3,"expected":[[5,8]],"far":2,"result":"matched","tree":{"children":[{"children":[{"children":[],"end":3,"rule":"S","start":2}],"end":3,"rule":"S","start":1}],"end":3,"rule":"S","start":0}}

  $ pegtool parse chain.peg aab.txt --memo 4096 --steps 15
  {"consumed":3,"expected":[[5,8]],"far":2,"result":"matched","tree":{"children":[{"children":[{"children":[],"end":3,"rule":"S","start":2}],"end":3,"rule":"S","start":1}],"end":3,"rule":"S","start":0}}

So a limit of 14 steps is not enough, with a memo or without one.

  $ pegtool parse chain.peg aab.txt --memo 0 --steps 14
  {"refusal":"StepLimit"}
  [6]

  $ pegtool parse chain.peg aab.txt --memo 4096 --steps 14
  {"refusal":"StepLimit"}
  [6]

Without a memo the text (a)y takes 25 steps, since the inner rule runs twice (worked out by hand).

  $ printf "A <- '(' A ')' 'x' / '(' A ')' 'y' / 'a'" > twice.peg; printf '(a)y' > y.txt
  $ pegtool parse twice.peg y.txt --memo 0 --steps 25
  {"consumed":4,"expected":[[15,18]],"far":3,"result":"matched","tree":{"children":[{"children":[],"end":2,"rule":"A","start":1}],"end":4,"rule":"A","start":0}}

  $ pegtool parse twice.peg y.txt --memo 0 --steps 24
  {"refusal":"StepLimit"}
  [6]

A memo of one result saves six steps of these, all of the second run of the inner rule.

  $ pegtool parse twice.peg y.txt --memo 1 --steps 19
  {"consumed":4,"expected":[[15,18]],"far":3,"result":"matched","tree":{"children":[{"children":[],"end":2,"rule":"A","start":1}],"end":4,"rule":"A","start":0}}

  $ pegtool parse twice.peg y.txt --memo 1 --steps 18
  {"refusal":"StepLimit"}
  [6]

A profile prints the same numbers of steps, since it parses in one run with the given memo.

  $ pegtool profile twice.peg y.txt --memo 0 | grep -o '"steps":.*'
  "steps":25}

  $ pegtool profile twice.peg y.txt --memo 1 | grep -o '"steps":.*'
  "steps":19}

With a memo n parentheses take 12n + 7 steps, so 367 for 30 and 1207 for 100 (worked out by hand).

  $ for n in 30 100; do
  >   { printf '(%.0s' $(seq $n); printf a; printf ')y%.0s' $(seq $n); } > nested_$n.txt
  >   printf '{"consumed":%d,"expected":[[15,18]],"far":%d,"result":"matched","rows":[[1,"A",0,%d]' \
  >     $((3 * n + 1)) $((3 * n)) $((3 * n + 1)) > wanted_$n
  >   for i in $(seq $n); do printf ',[%d,"A",%d,%d]' $((i + 1)) $i $((3 * n + 1 - 2 * i)); done >> wanted_$n
  >   echo ']}' >> wanted_$n
  > done
  $ pegtool parse twice.peg nested_30.txt --rows --memo 1 --steps 367 | cmp - wanted_30
  $ pegtool parse twice.peg nested_30.txt --rows --memo 4096 --steps 367 | cmp - wanted_30
  $ pegtool parse twice.peg nested_100.txt --rows --memo 1 --steps 1207 | cmp - wanted_100
  $ pegtool parse twice.peg nested_100.txt --rows --memo 4096 --steps 1207 | cmp - wanted_100

One step fewer is not enough for either of them, whether the memo is small or large.

  $ pegtool parse twice.peg nested_30.txt --rows --memo 1 --steps 366
  {"refusal":"StepLimit"}
  [6]

  $ pegtool parse twice.peg nested_30.txt --rows --memo 4096 --steps 366
  {"refusal":"StepLimit"}
  [6]

  $ pegtool parse twice.peg nested_100.txt --rows --memo 1 --steps 1206
  {"refusal":"StepLimit"}
  [6]

  $ pegtool parse twice.peg nested_100.txt --rows --memo 4096 --steps 1206
  {"refusal":"StepLimit"}
  [6]

Without a memo 100 parentheses would take more than 2^100 steps, so the limit ends the parse.

  $ pegtool parse twice.peg nested_100.txt --memo 0 --steps 100000
  {"refusal":"StepLimit"}
  [6]

  $ pegtool parse twice.peg nested_100.txt --memo 0 --steps 100000 --rows
  {"refusal":"StepLimit"}
  [6]

The nested text of the cookbook has more than 10,000 steps without a memo, and fewer with one.

  $ pegtool parse examples/cookbook/memo.peg examples/cookbook/memo/match_nested.txt --rows --steps 10000 --memo 0
  {"refusal":"StepLimit"}
  [6]

  $ pegtool parse examples/cookbook/memo.peg examples/cookbook/memo/match_nested.txt --rows --steps 10000 > /dev/null

Nine parentheses are over the limit of the run without a memo, so the memo's 115 steps are enough.

  $ { printf '(%.0s' {1..9}; printf a; printf ')y%.0s' {1..9}; } > nine.txt
  $ pegtool parse twice.peg nine.txt --no-tree --steps 115
  {"consumed":28,"expected":[[15,18]],"far":27,"result":"matched"}

  $ pegtool parse twice.peg nine.txt --no-tree --steps 114
  {"refusal":"StepLimit"}
  [6]

Eight parentheses take 103 steps with a memo, if the limit is below what they take without one.

  $ { printf '(%.0s' {1..8}; printf a; printf ')y%.0s' {1..8}; } > eight.txt
  $ pegtool parse twice.peg eight.txt --no-tree --steps 103
  {"consumed":25,"expected":[[15,18]],"far":24,"result":"matched"}

  $ pegtool parse twice.peg eight.txt --no-tree --steps 102
  {"refusal":"StepLimit"}
  [6]

Without a memo eight parentheses take 18 times 2^8 minus 11 steps, which is 4597 (worked out by hand).

  $ pegtool parse twice.peg eight.txt --no-tree --memo 0 --steps 4597
  {"consumed":25,"expected":[[15,18]],"far":24,"result":"matched"}

  $ pegtool parse twice.peg eight.txt --no-tree --memo 0 --steps 4596
  {"refusal":"StepLimit"}
  [6]
