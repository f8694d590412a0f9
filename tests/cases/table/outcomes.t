Abstract outcomes of rules (Ford 2004, section 3.5).

A rule that is only itself has no outcome: the least fixpoint has none of the three.

  $ pegtool table <(echo 'T <- T')
  {"table":[{"fails":false,"nothing":false,"rule":"T","something":false}]}

In the grammar of Ford 2004, section 3.4, A and B can match the empty string and can't fail; D can do all three.

  $ cat > counts.peg <<'END'
  > D <- &(A !'b') 'a'* B !.    A <- 'a' A 'b' / ''    B <- 'b' B 'c' / ''
  > END
  > pegtool table counts.peg
  {"table":[{"fails":true,"nothing":true,"rule":"D","something":true},{"fails":false,"nothing":true,"rule":"A","something":true},{"fails":false,"nothing":true,"rule":"B","something":true}]}
