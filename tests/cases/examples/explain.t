What explain says of example texts that don't match, and of small grammars with mistakes.

A basic string of TOML ends in its line; its characters are all but quotes, backslashes and control bytes. The rule
Escape fails where it is called, so it is written in place of the backslash.

  $ pegtool explain examples/toml.peg examples/toml/match_tables.txt examples/toml/no_match_open_string.txt
  examples/toml/no_match_open_string.txt:1:12: expected '"', Escape or something other than ["\\\0-\10\12-\37\177], found '\n' (line end)
  name = "Tom
             ^
  [1]

The second line of the log has no date, so a further character of the name or a blank is missing.

  $ pegtool explain examples/log.peg examples/log/no_match_second_line.txt
  examples/log/no_match_second_line.txt:2:5: expected ' ' or [!-~], found '\n' (line end)
  oops
      ^
  [1]

A response without a body ends after its empty line.

  $ pegtool explain examples/http.peg examples/http/no_match_body.txt
  examples/http/no_match_body.txt:3:1: expected the end, found 'x'
  x
  ^
  [1]

A class is written as the name of its rule, which was called at this position (docs/USAGE.md).

  $ printf "List <- '(' (Item (',' Item)*)? ')' End\nItem <- [a-z]+\nEnd <- !.\n" > list.peg; printf '(a,1)' > list.txt
  $ pegtool explain list.peg list.txt
  list.txt:1:4: expected Item, found '1'
  (a,1)
     ^
  [1]

With the option for terminals the class itself is written, and with the other one its rule.

  $ pegtool explain list.peg list.txt --terminals
  list.txt:1:4: expected [a-z], found '1'
  (a,1)
     ^
  [1]

  $ pegtool explain list.peg list.txt --terminals --rules
  list.txt:1:4: expected [a-z] in Item, found '1'
  (a,1)
     ^
  [1]

A class with a dash before its bracket goes on, which the message explains.

  $ printf 'A <- B\n  B <- [+-] "x"\n' > class.peg
  $ pegtool explain class.peg examples/json.peg
  class.peg:2:8: this class isn't closed: a bracket after a dash, as in [a-], ends a range
    B <- [+-] "x"
         ^
  [2]

A rule that is called and not defined is named, at its first call.

  $ printf 'A <- B / C\nB <- "b"\n' > undefined.peg
  $ pegtool explain undefined.peg examples/json.peg
  undefined.peg:1:10: the rule C is not defined
  A <- B / C
           ^
  [2]

A loop on the empty string has a message with its rule, also where the lines end with CR LF.

  $ printf 'A <- B\r\nB <- ("b"*)*' > loop.peg
  $ pegtool explain loop.peg examples/json.peg
  loop.peg:2:6: this repetition matches the empty text again and again, in B
  B <- ("b"*)*
       ^
  [2]

Left recursion has a message with its path, at the first rule of the path.

  $ printf 'S <- A\nA <- B "x"\nB <- A\n' > left.peg
  $ pegtool explain left.peg
  left.peg:2:1: left recursion: A -> B -> A
  A <- B "x"
  ^
  [2]

Where a match ends before the text, the end is expected, with or without the option for no output.

  $ echo "A <- 'a'" > part.peg; printf ab > ab.txt
  $ pegtool explain part.peg ab.txt
  ab.txt:1:2: expected the end, found 'b'
  ab
   ^
  [1]

  $ pegtool explain --quiet part.peg ab.txt
  [1]

A terminal that fails where the match ends is expected beside the end.

  $ echo "A <- 'a'+" > plus.peg
  $ pegtool explain plus.peg ab.txt
  ab.txt:1:2: expected the end or 'a', found 'b'
  ab
   ^
  [1]

The predicate for the end of the text is written as the end.

  $ echo "A <- 'a' !." > end.peg
  $ pegtool explain end.peg ab.txt
  ab.txt:1:2: expected the end, found 'b'
  ab
   ^
  [1]

Bytes that aren't text are written as escapes, and the name of a file stands as it is.

  $ printf '\377\0a' > "it's \"binary\""
  $ pegtool explain end.peg "it's \"binary\""
  it's "binary":1:1: expected 'a', found '\xFF'
  \xFF\x00a
  ^
  [1]
