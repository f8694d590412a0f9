The command profile: calls, places and steps, worked out by hand.

A call of S with n letters before the b takes 5n + 4 steps, and the end one more.

  $ echo "S <- 'a' S / 'b'" > chain.peg; printf aab > aab.txt
  $ pegtool profile chain.peg aab.txt
  {"consumed":3,"result":"matched","rules":[{"again":0,"calls":3,"places":3,"rule":"S"}],"steps":15}

A takes 6 steps on a, and on (t)y it takes 12 and twice those of t: 60 here.

  $ echo "A <- '(' A ')' 'x' / '(' A ')' 'y' / 'a'" > twice.peg; printf '((a)y)y' > y.txt
  $ pegtool profile twice.peg y.txt
  {"consumed":7,"result":"matched","rules":[{"again":4,"calls":7,"places":3,"rule":"A"}],"steps":61}

With a memo some calls are answered by it, and the different positions stay.

  $ pegtool profile twice.peg y.txt --memo 4096 | grep -o '"places":3'
  "places":3

  $ pegtool profile twice.peg y.txt --memo 4096 > /dev/null

A failure has no number of consumed bytes, and status 1.

  $ printf "S <- T 'b'\nT <- 'a'\n" > pair.peg; printf aa > aa.txt
  $ pegtool profile pair.peg aa.txt
  {"result":"failed","rules":[{"again":0,"calls":1,"places":1,"rule":"S"},{"again":0,"calls":1,"places":1,"rule":"T"}],"steps":4}
  [1]

A rule that the start doesn't call has zeros.

  $ pegtool profile pair.peg aa.txt --start T
  {"consumed":1,"result":"matched","rules":[{"again":0,"calls":0,"places":0,"rule":"S"},{"again":0,"calls":1,"places":1,"rule":"T"}],"steps":3}

Refusals are those of a parse, with the same statuses (docs/USAGE.md).

  $ pegtool profile chain.peg aab.txt --start B
  {"name":"B","refusal":"NoSuchStart"}
  [3]

  $ echo "S <- S" | pegtool profile /dev/stdin aab.txt
  {"path":["S"],"refusal":"LeftRecursion"}
  [2]

A text of the examples that doesn't match has status 1, and an unknown start 3.

  $ pegtool profile examples/semver.peg examples/semver/no_match_letter.txt > /dev/null
  [1]

  $ pegtool profile examples/json.peg examples/json/match_object.txt --start Nothing
  {"name":"Nothing","refusal":"NoSuchStart"}
  [3]

A parse that takes more steps than the limit has status 6, and the calls made so far are printed. Without a memo the
nested text of the cookbook takes more than 10,000 steps.

  $ pegtool profile chain.peg aab.txt --steps 14
  {"result":"stopped","rules":[{"again":0,"calls":3,"places":3,"rule":"S"}],"steps":14}
  [6]
  $ pegtool profile examples/cookbook/memo.peg examples/cookbook/memo/match_nested.txt --steps 10000 > nested
  [6]
  $ grep -oE '"result":"stopped"|"steps":[0-9]*' nested
  "result":"stopped"
  "steps":10000

A text that can't be opened is a fault, and nothing is printed.

  $ pegtool profile examples/json.peg missing
  pegtool: file fault
  missing: No such file or directory
  [4]

Two texts need the option for coverage, which the message names.

  $ pegtool profile chain.peg aab.txt aa.txt 2>&1 | grep -o "^error: without '--coverage'"
  error: without '--coverage'

  $ pegtool profile chain.peg aab.txt aa.txt 2> /dev/null
  [3]
