How often profile counts the calls of a rule, and at how many positions. Without a memo all calls are counted.

The rule calls itself after each a, at positions 0, 1 and 2, in 15 steps.

  $ printf "S <- 'a' S / 'b'" > g; printf aab > t
  $ pegtool profile g t
  {"consumed":3,"result":"matched","rules":[{"again":0,"calls":3,"places":3,"rule":"S"}],"steps":15}

The second alternative reads the inner text again, so position 1 has two calls.

  $ printf "A <- '(' A ')' 'x' / '(' A ')' 'y' / 'a'\n" > g; printf '(a)y' > t
  $ pegtool profile g t | grep -o '"rules":.*]'
  "rules":[{"again":1,"calls":3,"places":2,"rule":"A"}]

The rule reads the inner text twice at position 1, and each time the innermost one twice at 2.

  $ printf '((a)y)y' > t
  $ pegtool profile g t | grep -o '"rules":.*]'
  "rules":[{"again":4,"calls":7,"places":3,"rule":"A"}]

With a memo the rule is called at the same three positions, at most seven times.

  $ pegtool profile g t --memo 4096 | grep -c '"calls":[3-7],"places":3,"rule":"A"'
  1

A is called in the predicate at 0, 1 and 2, and B at 2, 3 and 4 (grammar: Ford 2004, section 3.4).

  $ cat > g <<'END'
  > D <- &(A !'b') 'a'* B !.
  > A <- 'a' A 'b' / ''
  > B <- 'b' B 'c' / ''
  > END
  $ printf aabbcc > t
  $ pegtool profile g t | grep -o '"rules":.*]'
  "rules":[{"again":0,"calls":1,"places":1,"rule":"D"},{"again":0,"calls":3,"places":3,"rule":"A"},{"again":0,"calls":3,"places":3,"rule":"B"}]

From B the other rules aren't called, and B is called at 0, 1 and 2.

  $ printf bbcc > t
  $ pegtool profile g t --start B | grep -o '"rules":.*]'
  "rules":[{"again":0,"calls":0,"places":0,"rule":"D"},{"again":0,"calls":0,"places":0,"rule":"A"},{"again":0,"calls":3,"places":3,"rule":"B"}]

The parse fails after T has matched, and both rules have their calls.

  $ printf "S <- T 'b'\nT <- 'a'" > g; printf aa > t
  $ pegtool profile g t | sed 's/,"steps".*//'
  {"result":"failed","rules":[{"again":0,"calls":1,"places":1,"rule":"S"},{"again":0,"calls":1,"places":1,"rule":"T"}]
  $ pegtool profile g t > /dev/null
  [1]

No rule is named T, so nothing is parsed and the name is printed.

  $ printf "S <- 'a' S / 'b'" > g; printf aab > t
  $ pegtool profile g t --start T
  {"name":"T","refusal":"NoSuchStart"}
  [3]

The parse takes 15 steps, so a limit of 15 is enough.

  $ pegtool profile g t --steps 15
  {"consumed":3,"result":"matched","rules":[{"again":0,"calls":3,"places":3,"rule":"S"}],"steps":15}
