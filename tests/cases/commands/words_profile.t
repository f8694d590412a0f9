The options of profile and of profile --coverage. By default the memo of profile is 0 and the step limit
1,000,000,000.

The parse of aab takes 15 steps, and each of its three calls is counted.

  $ printf "S <- 'a' S / 'b'\n" > g; printf aab > t; printf ab > u
  $ pegtool profile g t
  {"consumed":3,"result":"matched","rules":[{"again":0,"calls":3,"places":3,"rule":"S"}],"steps":15}
  $ pegtool profile g t --memo 0 --steps 1000000000
  {"consumed":3,"result":"matched","rules":[{"again":0,"calls":3,"places":3,"rule":"S"}],"steps":15}

A memo of nine entries is allowed; the positions of the calls stay the same.

  $ pegtool profile g t --memo 9 | grep -o '"places":3'
  "places":3

Without a memo these calls at one position are all made again, by default too.

  $ printf "A <- '(' A ')' 'x' / '(' A ')' 'y' / 'a'" > d; printf '((a)y)y' > y
  $ pegtool profile d y | grep -o '"calls":7'
  "calls":7
  $ pegtool profile d y --memo 0 | grep -o '"calls":7'
  "calls":7

A start and a step limit may stand on both sides of the files.

  $ pegtool profile --start A g t --steps 8
  {"name":"A","refusal":"NoSuchStart"}
  [3]
  $ pegtool profile --start S g t --steps 8
  {"result":"stopped","rules":[{"again":0,"calls":3,"places":3,"rule":"S"}],"steps":8}
  [6]

One text or several may stand on both sides of --coverage, also the same text twice.

  $ pegtool profile g t --coverage
  {"matched":1,"texts":1,"unused_alternatives":[],"unused_rules":[]}
  $ pegtool profile --coverage g t u t
  {"matched":3,"texts":3,"unused_alternatives":[],"unused_rules":[]}
  $ pegtool profile g t --coverage u --memo 9
  {"matched":2,"texts":2,"unused_alternatives":[],"unused_rules":[]}

The start is a rule of the grammar, and eight steps are too few for aab and ab.

  $ pegtool profile --start A g --steps 8 t u --coverage
  {"name":"A","refusal":"NoSuchStart"}
  [3]
  $ pegtool profile --start S g --steps 8 t u --coverage 2>&1 | grep -o -e '"stopped":2' -e 'pegtool: [tu]:'
  "stopped":2
  pegtool: t:
  pegtool: u:
