The warning SameAlternative: an alternative with the results of an earlier one, so that it never adds a match.

The third alternative is the first one again, which has failed where it is tried.

  $ printf "S <- 'a' / 'b' / 'a'" | pegtool lint /dev/stdin
  {"warnings":[{"by":[5,8],"column":18,"end":20,"kind":"SameAlternative","line":1,"proved":true,"rule":"S","start":17}]}
  [1]

The classes `[a-c]` and `[abc]` have the same bytes, so the two sequences are equal.

  $ printf "S <- [a-c] 'x' / 'y' / [abc] 'x'" | pegtool lint /dev/stdin
  {"warnings":[{"by":[5,14],"column":24,"end":32,"kind":"SameAlternative","line":1,"proved":true,"rule":"S","start":23}]}
  [1]

The third alternative is that of the start again. The second one lacks the question mark, so it is shadowed alone.

  $ printf "S <- A 'b'? / A 'b' / A 'b'?\nA <- 'a'" | pegtool lint /dev/stdin
  {"warnings":[{"by":[5,11],"column":15,"end":19,"kind":"Shadowed","line":1,"proved":true,"rule":"S","start":14},{"by":[5,11],"column":23,"end":28,"kind":"SameAlternative","line":1,"proved":true,"rule":"S","start":22}]}
  [1]

A choice that is an item of a sequence is compared, too.

  $ printf "S <- 'x' ('a' / 'b' / 'b') 'y'" | pegtool lint /dev/stdin
  {"warnings":[{"by":[16,19],"column":23,"end":25,"kind":"SameAlternative","line":1,"proved":true,"rule":"S","start":22}]}
  [1]

Two counts with the same part and the same numbers have the same results.

  $ printf "S <- !'a' . / 'a'{1,2} / 'a'{1,2}" | pegtool lint /dev/stdin
  {"warnings":[{"by":[14,22],"column":26,"end":33,"kind":"SameAlternative","line":1,"proved":true,"rule":"S","start":25}]}
  [1]

Two sequences are equal if their items are, also where an item is a choice.

  $ printf "S <- 'x' ('a' / 'b') 'c' / 'x' ('a' / 'b') 'c'" | pegtool lint /dev/stdin
  {"warnings":[{"by":[5,24],"column":28,"end":46,"kind":"SameAlternative","line":1,"proved":true,"rule":"S","start":27}]}
  [1]

These pairs differ: in case, in the number of literals, or in the second number of a count.

  $ printf "S <- 'a' / 'A'" | pegtool lint /dev/stdin
  {"warnings":[]}
  $ printf "S <- 'a' 'b' / 'ab'" | pegtool lint /dev/stdin
  {"warnings":[]}
  $ printf "S <- 'a'{1,2} / 'a'{1,3}" | pegtool lint /dev/stdin
  {"warnings":[]}

Calls of different rules aren't compared, even if the rules have equal expressions. The second one is shadowed here.

  $ printf "S <- A / B\nA <- 'a'\nB <- 'a'" | pegtool lint /dev/stdin
  {"warnings":[{"by":[5,6],"column":10,"end":10,"kind":"Shadowed","line":1,"proved":true,"rule":"S","start":9}]}
  [1]

A plus and its part differ, though the plus shadows its part, and so do the predicates `!'a'` and `&'a'`.

  $ printf "S <- 'a'+ / 'a'" | pegtool lint /dev/stdin
  {"warnings":[{"by":[5,9],"column":13,"end":15,"kind":"Shadowed","line":1,"proved":true,"rule":"S","start":12}]}
  [1]
  $ printf "S <- !'a' 'b' / &'a' 'b'" | pegtool lint /dev/stdin
  {"warnings":[]}

Of 20,000 equal alternatives each but the first one repeats the one before it.

  $ (printf 'S <- A'; printf '/A%.0s' $(seq 19999); printf "\nA <- 'a'") > g.peg
  > pegtool lint g.peg | grep -o '"kind":"SameAlternative"' | wc -l
  19999
  $ pegtool lint g.peg | grep -o '"kind"' | wc -l
  19999
