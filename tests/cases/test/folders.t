The command test: several folders, options, and folders and files that can't be read.

Folders are tested in the order of the arguments, and the files of a folder in the order of the bytes of their names.
The last line counts the tests of all folders.

  $ printf "S <- 'a' S / 'b'\n" > ab.peg; mkdir one two; printf c > one/match_b; printf c > one/match_B; printf c > two/match_a
  $ pegtool test ab.peg two one
  two/match_a:1:1: expected 'a' or 'b', found 'c'
  c
  ^
  one/match_B:1:1: expected 'a' or 'b', found 'c'
  c
  ^
  one/match_b:1:1: expected 'a' or 'b', found 'c'
  c
  ^
  0 passed, 3 failed, 0 ignored
  [1]

A folder may end in a slash.

  $ mkdir bad; printf b > bad/no_match
  $ pegtool test ab.peg bad/ --memo 0
  bad/no_match: the text matches, and its name says that it doesn't
  0 passed, 1 failed, 0 ignored
  [1]

A folder that isn't there and a file in its place are tests that fail. Standard error names them, and the other folders
are tested.

  $ mkdir good; printf aab > good/match_two.txt
  $ pegtool test ab.peg missing good ab.peg
  1 passed, 2 failed, 0 ignored
  pegtool: missing: can't be read
  pegtool: ab.peg: can't be read
  [4]

A folder with the name of a text can't be read as a text.

  $ mkdir -p nested/match_folder; printf b > nested/match_text
  $ pegtool test ab.peg nested
  1 passed, 1 failed, 0 ignored
  pegtool: nested/match_folder: can't be read
  [4]

With another start a text is parsed from its rule. Without a rule of that name no folder is listed.

  $ printf "S <- T 'c'\nT <- 'a' / 'b'\n" > short.peg; mkdir texts; printf a > texts/match_a
  $ pegtool test short.peg texts --start T
  1 passed, 0 failed, 0 ignored
  $ pegtool test short.peg texts --start U
  short.peg: no rule is named U
  [3]

A parse that takes more steps than the limit fails its test, whatever the name asks for.

  $ mkdir slow; printf aab > slow/match_two; printf aac > slow/no_match_two
  $ pegtool test ab.peg slow --steps 1
  slow/match_two: the parse takes more steps than --steps allows
  slow/no_match_two: the parse takes more steps than --steps allows
  0 passed, 2 failed, 0 ignored
  [6]

A refused grammar has the message of explain, and no text is read.

  $ printf 'S <- T\n' > refused.peg
  $ pegtool test refused.peg good missing
  refused.peg:1:6: the rule T is not defined
  S <- T
       ^
  [2]
  $ pegtool test none.peg good
  pegtool: none.peg: can't be opened
  [4]

At least one folder has to be given.

  $ pegtool test ab.peg 2> e
  [3]
  $ grep -o -e '<FOLDER>\.\.\.' -e 'pegtool test --help' e | sort -u
  <FOLDER>...
  pegtool test --help
