The outcomes of each operator over each kind of part, as the command table prints them (Ford 2004, section 3.5).

There is a rule for each of the 8 sets of outcomes, of which a rule that only calls itself has none.

  $ cat > kinds.peg <<'END'
  > None <- None
  > Nothing <- ''
  > Something <- 'x' / Something
  > Fails <- []
  > Maybe <- 'x'?
  > Ahead <- !.
  > Byte <- 'x'
  > All <- 'x' / !.
  > END
  $ pegtool table kinds.peg | sed 's/},/},\n/g'
  {"table":[{"fails":false,"nothing":false,"rule":"None","something":false},
  {"fails":false,"nothing":true,"rule":"Nothing","something":false},
  {"fails":false,"nothing":false,"rule":"Something","something":true},
  {"fails":true,"nothing":false,"rule":"Fails","something":false},
  {"fails":false,"nothing":true,"rule":"Maybe","something":true},
  {"fails":true,"nothing":true,"rule":"Ahead","something":false},
  {"fails":true,"nothing":false,"rule":"Byte","something":true},
  {"fails":true,"nothing":true,"rule":"All","something":true}]}

The script prints the outcomes of a rule R for each expression: 0 for nothing, 1 for something, f for failure.

  $ cat > can <<'END'
  > for expression; do
  >   { cat kinds.peg; echo "R <- $expression"; } | pegtool table /dev/stdin > line
  >   outcomes=
  >   grep -q '"nothing":true,"rule":"R"' line && outcomes=0
  >   grep -q '"rule":"R","something":true' line && outcomes=${outcomes}1
  >   grep -Eq '"fails":true,"nothing":(true|false),"rule":"R"' line && outcomes=${outcomes}f
  >   printf '%4s' "${outcomes:--}"
  > done
  > echo
  > END

An optional fails on no text, and has nothing in place of a failure. The order is that of the rules above.

  $ bash can {None,Nothing,Something,Fails,Maybe,Ahead,Byte,All}'?'
     -   0   1   0  01   0  01  01

A star over a part that can match the empty string has no end there, so it has no such outcome (Ford 2004, section 3.5).

  $ bash can {None,Nothing,Something,Fails,Maybe,Ahead,Byte,All}'*'
     -   -   1   0   1   0  01  01

A plus is its part followed by the star of it, and fails where the part fails.

  $ bash can {None,Nothing,Something,Fails,Maybe,Ahead,Byte,All}'+'
     -   -   1   f   1  0f  1f 01f

A predicate & has nothing where its part matches in any way, and fails where the part fails.

  $ bash can '&'{None,Nothing,Something,Fails,Maybe,Ahead,Byte,All}
     -   0   0   f   0  0f  0f  0f

A predicate ! fails where its part matches in any way, and has nothing where the part fails.

  $ bash can '!'{None,Nothing,Something,Fails,Maybe,Ahead,Byte,All}
     -   f   f   0   f  0f  0f  0f

A sequence fails if a part fails, and has something if one part has. Lines are the first parts, columns the second.

  $ for first in None Nothing Something Fails Maybe Ahead Byte All; do
  >   bash can "$first "{None,Nothing,Something,Fails,Maybe,Ahead,Byte,All}
  > done
     -   -   -   -   -   -   -   -
     -   0   1   f  01  0f  1f 01f
     -   1   1   f   1  1f  1f  1f
     f   f   f   f   f   f   f   f
     -  01   1   f  01 01f  1f 01f
     f  0f  1f   f 01f  0f  1f 01f
     f  1f  1f   f  1f  1f  1f  1f
     f 01f  1f   f 01f 01f  1f 01f

A choice has the matches of the first part, and if that can fail, all outcomes of the second one.

  $ for first in None Nothing Something Fails Maybe Ahead Byte All; do
  >   bash can "$first / "{None,Nothing,Something,Fails,Maybe,Ahead,Byte,All}
  > done
     -   -   -   -   -   -   -   -
     0   0   0   0   0   0   0   0
     1   1   1   1   1   1   1   1
     -   0   1   f  01  0f  1f 01f
    01  01  01  01  01  01  01  01
     0   0  01  0f  01  0f 01f 01f
     1  01   1  1f  01 01f  1f 01f
    01  01  01 01f  01 01f 01f 01f

Literals and classes fail or match something, but an empty literal matches the empty string, and an empty class always
fails.

  $ bash can "''" "'ab'" '[]' '[z-a]' '[a-z]' .
     0  1f   f   f  1f  1f

Empty sequences match the empty string, in parentheses and on both sides of a slash.

  $ bash can '()' / 'Byte / / Fails'
     0   0  01

Longer sequences have the outcomes of their parts, two at a time.

  $ bash can 'Maybe Byte Nothing'
    1f
