The calls of each rule and their positions, worked out by hand.

Right recursion calls S once at each of the three positions, in 15 steps.

  $ pegtool profile <(echo "S <- 'a' S / 'b'") <(printf aab)
  {"consumed":3,"result":"matched","rules":[{"again":0,"calls":3,"places":3,"rule":"S"}],"steps":15}

The script prints the calls of each rule, and the number of their positions.

  $ cat > calls.sh <<'END'
  > pegtool profile $1 <(printf '%s' "$2") | grep -o '"calls[^}]*'
  > END
  > cat > counts.peg <<'END'
  > D <- &(A !'b') 'a'* B !.
  > A <- 'a' A 'b' / ''
  > B <- 'b' B 'c' / ''
  > END
  > echo "A <- '(' A ')' 'x' / '(' A ')' 'y' / 'a'" > twice.peg

The call at 1 is made in both alternatives.

  $ bash calls.sh twice.peg "(a)y"
  "calls":3,"places":2,"rule":"A"

The call at 1 is made twice, and in each of them that at 2.

  $ bash calls.sh twice.peg "((a)y)y"
  "calls":7,"places":3,"rule":"A"

So it is where the parentheses aren't closed.

  $ bash calls.sh twice.peg "((a"
  "calls":7,"places":3,"rule":"A"

On an empty text there is the first call only.

  $ bash calls.sh twice.peg ""
  "calls":1,"places":1,"rule":"A"

A is called in the predicate alone, at 0, 1 and 2, and B at 2, 3 and 4.

  $ bash calls.sh counts.peg "aabbcc"
  "calls":1,"places":1,"rule":"D"
  "calls":3,"places":3,"rule":"A"
  "calls":3,"places":3,"rule":"B"

The calls are the same where a letter is missing at the end.

  $ bash calls.sh counts.peg "aabbc"
  "calls":1,"places":1,"rule":"D"
  "calls":3,"places":3,"rule":"A"
  "calls":3,"places":3,"rule":"B"

With one of each letter there is a call less of both.

  $ bash calls.sh counts.peg "abc"
  "calls":1,"places":1,"rule":"D"
  "calls":2,"places":2,"rule":"A"
  "calls":2,"places":2,"rule":"B"

The predicate fails at the `b`, so B isn't called.

  $ bash calls.sh counts.peg "b"
  "calls":1,"places":1,"rule":"D"
  "calls":1,"places":1,"rule":"A"
  "calls":0,"places":0,"rule":"B"
