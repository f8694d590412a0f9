The scripts of examples/ that read the output of the program. What they print is worked out by hand.

A key that is set twice in a section is reported with both lines, and in another section it isn't.

  $ printf '[a]\nk = 1\nk = 2\n[b]\nk = 3\n' > twice.ini
  $ PEGTOOL=pegtool examples/cookbook/lint.py examples/ini/match_section.txt twice.ini
  twice.ini:3: k is already set in line 2
  [1]

A text whose blocks are lines of equal indentation is written with braces; lines without tokens stay empty.

  $ PEGTOOL=pegtool examples/blocks.py examples/layout/match_blocks.txt | grep -n .
  1:def f ( x ) :
  2:{ while x > 0 :
  3:{ x = x - 1
  6:} return x
  7:} pass

A ladder of precedence evaluates 7 - 3 - 2 from the left, and 2 ^ 3 ^ 2 from the right.

  $ PEGTOOL=pegtool examples/cookbook/evaluate.py examples/cookbook/ladder/match_left.txt
  2

  $ PEGTOOL=pegtool examples/cookbook/evaluate.py examples/cookbook/ladder/match_right.txt
  512

The sign binds less than the power, so -2 ^ 2 is -4, and four times that -16.

  $ PEGTOOL=pegtool examples/cookbook/evaluate.py examples/cookbook/ladder/match_levels.txt
  -16
