The command test: what names of texts ask for, and the counts. Messages are worked out by hand.

A folder in which each text does what its name asks for has a line with the counts alone.

  $ printf "S <- 'a' S / 'b'\n" > ab.peg; mkdir good; printf aab > good/match_two.txt; printf b > good/match
  $ printf aac > good/no_match_c.txt; printf ba > good/no_match_rest.txt
  $ pegtool test ab.peg good
  4 passed, 0 failed, 0 ignored

A text that should match and doesn't has the message of explain. One that shouldn't match and does has another line.

  $ mkdir bad; printf aac > bad/match_c.txt; printf b > bad/no_match_b.txt; printf ab > bad/match_ab.txt
  $ pegtool test ab.peg bad
  bad/match_c.txt:1:3: expected 'a' or 'b', found 'c'
  aac
    ^
  bad/no_match_b.txt: the text matches, and its name says that it doesn't
  1 passed, 2 failed, 0 ignored
  [1]

A text has to match as a whole: after the b of ba an a is left, and the end is expected there.

  $ mkdir rest; printf ba > rest/match_rest.txt
  $ pegtool test ab.peg rest
  rest/match_rest.txt:1:2: expected the end, found 'a'
  ba
   ^
  0 passed, 1 failed, 0 ignored
  [1]

Other names are ignored, and names that end in .rows, too. Capital letters make another name.

  $ mkdir other; printf b > other/match_b.txt; for n in match_b.rows notes.md rematch.txt Match.txt; do printf x > other/$n; done
  $ pegtool test ab.peg other
  1 passed, 0 failed, 4 ignored

A folder inside a folder isn't entered, and an empty folder has no texts.

  $ mkdir -p outer/inner empty; printf x > outer/inner/match_x.txt
  $ pegtool test ab.peg outer empty
  0 passed, 0 failed, 1 ignored

The folders of examples in this repository have such names, five in one and four in the other.

  $ pegtool test examples/json.peg examples/json
  5 passed, 0 failed, 0 ignored
  $ pegtool test examples/csv.peg examples/csv
  4 passed, 0 failed, 0 ignored
