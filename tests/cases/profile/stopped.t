A parse that meets the step limit has a profile of the calls made so far. Each call of S takes three steps before it
calls S again: a choice, a test of the a, and the call.

  $ printf "S <- 'a' S / 'b'" > g; printf aab > t
  $ pegtool profile g t --steps 3
  {"result":"stopped","rules":[{"again":0,"calls":2,"places":2,"rule":"S"}],"steps":3}
  [6]

After the first two steps S is called at the start alone, where the parse begins.

  $ pegtool profile g t --steps 2
  {"result":"stopped","rules":[{"again":0,"calls":1,"places":1,"rule":"S"}],"steps":2}
  [6]

The sixth step calls S at 2. The parse takes 15 steps, and the other ones call no rule.

  $ pegtool profile g t --steps 6
  {"result":"stopped","rules":[{"again":0,"calls":3,"places":3,"rule":"S"}],"steps":6}
  [6]
  $ pegtool profile g t --steps 14
  {"result":"stopped","rules":[{"again":0,"calls":3,"places":3,"rule":"S"}],"steps":14}
  [6]

The first two steps are the choice of S and the call of A. B isn't reached, so it has no call.

  $ printf "S <- A / B\nA <- 'x' B\nB <- 'y'\n" > g; printf z > t
  $ pegtool profile g t --steps 2
  {"result":"stopped","rules":[{"again":0,"calls":1,"places":1,"rule":"S"},{"again":0,"calls":1,"places":1,"rule":"A"},{"again":0,"calls":0,"places":0,"rule":"B"}],"steps":2}
  [6]

The rule reads the rest of the text twice at each of 64 parentheses. So it is called at 65 positions, and the parse takes
more than a billion steps. The first descent takes three steps for each parenthesis: a choice, a test and a call.

  $ printf "A <- '(' A ')' 'x' / '(' A ')' 'y' / 'a'\n" > twice.peg
  $ printf '(%.0s' {1..64} > deep.txt
  $ pegtool profile twice.peg deep.txt --steps 192
  {"result":"stopped","rules":[{"again":0,"calls":65,"places":65,"rule":"A"}],"steps":192}
  [6]

A call takes five to seven steps of its own, so that 20 million steps make some three million calls, at these positions.

  $ pegtool profile twice.peg deep.txt --steps 20000000 | grep -cE '"calls":[0-9]{7},"places":65,'
  1

With a memo the steps are few for each parenthesis, so the limit isn't met.

  $ pegtool profile twice.peg deep.txt --steps 10000 --memo 4096 | grep -oE '"result":"[a-z]*"|"places":[0-9]*'
  "result":"failed"
  "places":65
