The limit of a text: 67,108,864 bytes.

A text of the greatest length is parsed to its end, where both dots fail (worked out by hand).

  $ head -c 67108864 /dev/zero | tr '\0' a > limit.txt
  $ echo "S <- .* !." > all.peg
  $ pegtool parse all.peg limit.txt --rows
  {"consumed":67108864,"expected":[[5,6],[9,10]],"far":67108864,"result":"matched","rows":[[1,"S",0,67108864]]}

A text with one byte more is refused before the parse, also by a grammar that doesn't match.

  $ cp limit.txt long.txt; printf a >> long.txt
  $ pegtool parse all.peg long.txt --rows
  {"refusal":"TextTooLong"}
  [6]

  $ echo "S <- 'a' S / 'b'" > chain.peg
  $ pegtool parse chain.peg long.txt
  {"refusal":"TextTooLong"}
  [6]

  $ pegtool profile chain.peg long.txt --start B
  {"refusal":"TextTooLong"}
  [6]

A text that is too long is reported before a start that no rule has (docs/USAGE.md).

  $ echo "S <- 'b'" > b.peg
  $ pegtool parse b.peg long.txt --start T
  {"refusal":"TextTooLong"}
  [6]

Where the text is within its limit, the grammar of a b fails at the first letter.

  $ pegtool parse b.peg limit.txt
  {"expected":[[5,8]],"far":0,"result":"failed"}
  [1]

The same limit holds for the text after the line %% of a joined input.

  $ { cat b.peg; echo %%; cat limit.txt; } | pegtool
  {"expected":[[5,8]],"far":0,"result":"failed"}
  [1]

  $ { cat b.peg; echo %%; cat long.txt; } | pegtool
  {"refusal":"TextTooLong"}
  [6]
