The warning Shadowed: an alternative that fails wherever an earlier one fails, so that its result is never taken.

Where `'a'` fails the literal `'ab'` fails too, so its match is never taken.

  $ printf "S <- 'a' / 'ab'" | pegtool lint /dev/stdin
  {"warnings":[{"by":[5,8],"column":12,"end":15,"kind":"Shadowed","line":1,"proved":true,"rule":"S","start":11}]}
  [1]

The class holds the letter i, with which the keyword begins, so the keyword never wins.

  $ printf "S <- [a-z] / 'if'" | pegtool lint /dev/stdin
  {"warnings":[{"by":[5,10],"column":14,"end":17,"kind":"Shadowed","line":1,"proved":true,"rule":"S","start":13}]}
  [1]

The rule L begins with `<`, so its call fails where the first alternative does.

  $ printf "S <- '<' / L\nL <- '<=' ' '*" | pegtool lint /dev/stdin
  {"warnings":[{"by":[5,8],"column":12,"end":12,"kind":"Shadowed","line":1,"proved":true,"rule":"S","start":11}]}
  [1]

A dot fails only at the end of the text, where a class fails as well.

  $ printf 'S <- . / [a]' | pegtool lint /dev/stdin
  {"warnings":[{"by":[5,6],"column":10,"end":12,"kind":"Shadowed","line":1,"proved":true,"rule":"S","start":9}]}
  [1]

Both later alternatives begin with a letter of the first class, so both are shadowed by it.

  $ printf "S <- [a-z] / 'x' / [b-d] 'c'" | pegtool lint /dev/stdin
  {"warnings":[{"by":[5,10],"column":14,"end":16,"kind":"Shadowed","line":1,"proved":true,"rule":"S","start":13},{"by":[5,10],"column":20,"end":28,"kind":"Shadowed","line":1,"proved":true,"rule":"S","start":19}]}
  [1]

The predicate `&'a'` fails where the first alternative fails, and with it the third alternative.

  $ printf "S <- 'a' / 'b' / &'a' ." | pegtool lint /dev/stdin
  {"warnings":[{"by":[5,8],"column":18,"end":23,"kind":"Shadowed","line":1,"proved":true,"rule":"S","start":17}]}
  [1]

A plus fails where its part fails, so it is shadowed by that part.

  $ printf "S <- 'a' / 'a'+" | pegtool lint /dev/stdin
  {"warnings":[{"by":[5,8],"column":12,"end":15,"kind":"Shadowed","line":1,"proved":true,"rule":"S","start":11}]}
  [1]

The longer literal and the keyword are first, so both alternatives can be taken.

  $ printf "S <- 'ab' / 'a'" | pegtool lint /dev/stdin
  {"warnings":[]}
  $ printf "S <- 'if' / [a-z]" | pegtool lint /dev/stdin
  {"warnings":[]}

The first alternative can fail where the second one matches: on ac, on d, and twice on b.

  $ printf "S <- 'a' 'b' / 'ac'" | pegtool lint /dev/stdin
  {"warnings":[]}
  $ printf 'S <- [a-c] / [b-d]' | pegtool lint /dev/stdin
  {"warnings":[]}
  $ printf "S <- 'a' / !'a' 'b'" | pegtool lint /dev/stdin
  {"warnings":[]}
  $ printf "S <- 'a' / 'a'? 'b'" | pegtool lint /dev/stdin
  {"warnings":[]}

The empty class after a dot has no warning, since it fails on purpose.

  $ printf 'S <- . / []' | pegtool lint /dev/stdin
  {"warnings":[]}

A rule, a repetition and a sequence shadow the second alternative here: each of them fails only where the text begins
with another character.

  $ printf "S <- L / '<='\nL <- '<'" | pegtool lint /dev/stdin
  {"warnings":[{"by":[5,6],"column":10,"end":13,"kind":"Shadowed","line":1,"proved":true,"rule":"S","start":9}]}
  [1]
  $ printf "S <- 'a'+ / 'ab'" | pegtool lint /dev/stdin
  {"warnings":[{"by":[5,9],"column":13,"end":16,"kind":"Shadowed","line":1,"proved":true,"rule":"S","start":12}]}
  [1]
  $ printf "S <- 'a' 'b'? / 'ac'" | pegtool lint /dev/stdin
  {"warnings":[{"by":[5,13],"column":17,"end":20,"kind":"Shadowed","line":1,"proved":true,"rule":"S","start":16}]}
  [1]

The rule W for names takes the letter with which the keyword begins.

  $ printf "S <- W / 'if'\nW <- [a-z]+ ' '*" | pegtool lint /dev/stdin
  {"warnings":[{"by":[5,6],"column":10,"end":13,"kind":"Shadowed","line":1,"proved":true,"rule":"S","start":9}]}
  [1]

A rule that needs a second byte may fail where the text begins as the later alternative does.

  $ printf "S <- W / 'if'\nW <- [a-z] [0-9]" | pegtool lint /dev/stdin
  {"warnings":[]}

What docs/LINT.md says that isn't found: an alternative that several earlier ones shadow together, or that is shadowed
by a literal of several bytes in a rule.

  $ printf "S <- [a-m] / [n-z] / [a-z]" | pegtool lint /dev/stdin
  {"warnings":[]}
  $ printf "S <- L / '<=>'\nL <- '<='" | pegtool lint /dev/stdin
  {"warnings":[]}

An alternative is compared with the 32 before it. The first number of two digits is 11, so x is the 32nd before the last
alternative and then the 33rd.

  $ for last in 41 42; do
  >   { printf "S <- 'x'"; printf " / '%d'" $(seq 11 $last); printf " / 'xy'"; } | pegtool lint /dev/stdin |
  >     grep -c '"kind":"Shadowed"'
  > done
  1
  0
  [1]

Names are followed through 16 rules, so the 17th isn't looked at. R1 is the first rule that is called.

  $ for n in 16 17; do
  >   { printf "S <- 'x' / R1\n"; for k in $(seq $((n - 1))); do printf 'R%d <- R%d\n' $k $((k + 1)); done
  >     printf "R%d <- 'xy'\n" $n; } | pegtool lint /dev/stdin | grep -c '"kind":"Shadowed"'
  > done
  1
  0
  [1]

A grammar that nests more than 100 deep isn't looked at. The literals are in a choice, and it is in 98 predicates or 99.

  $ for n in 98 99; do
  >   { printf 'S <- '; printf '!(%.0s' $(seq $n); printf "'a' / 'ab'"; printf ')%.0s' $(seq $n); } |
  >     pegtool lint /dev/stdin | grep -c '"kind":"Shadowed"'
  > done
  1
  0
  [1]
