The files and options of explain. Each text that doesn't match has a message with its name, in the order of the names.

Without texts only the grammar is checked, and nothing is printed.

  $ printf "S <- 'a'\n" > g; for n in t u v - -u --quiet; do printf b > "./$n"; done
  $ pegtool explain g

A text may be named twice, and a dash is an ordinary file name.

  $ set -o pipefail; pegtool explain g t | grep :
  t:1:1: expected 'a', found 'b'
  [1]
  $ set -o pipefail; pegtool explain g t u t | grep :
  t:1:1: expected 'a', found 'b'
  u:1:1: expected 'a', found 'b'
  t:1:1: expected 'a', found 'b'
  [1]
  $ set -o pipefail; pegtool explain g - t - | grep :
  -:1:1: expected 'a', found 'b'
  t:1:1: expected 'a', found 'b'
  -:1:1: expected 'a', found 'b'
  [1]

Options may stand before the files, between the texts or after them.

  $ set -o pipefail; pegtool explain --memo 4096 g t u | grep :
  t:1:1: expected 'a', found 'b'
  u:1:1: expected 'a', found 'b'
  [1]
  $ set -o pipefail; pegtool explain g t --memo 4096 u v | grep :
  t:1:1: expected 'a', found 'b'
  u:1:1: expected 'a', found 'b'
  v:1:1: expected 'a', found 'b'
  [1]

After two dashes every word is a file, also one that begins with a dash.

  $ set -o pipefail; pegtool explain g t -- -u --quiet | grep :
  t:1:1: expected 'a', found 'b'
  -u:1:1: expected 'a', found 'b'
  --quiet:1:1: expected 'a', found 'b'
  [1]

A list of files has one name a line; its texts are read besides those that are named.

  $ printf 'u\n' > list; cp list ./-l; cp list l; cp list ./--null
  $ set -o pipefail; pegtool explain g t --files-from list | grep :
  t:1:1: expected 'a', found 'b'
  u:1:1: expected 'a', found 'b'
  [1]

A dash as the name of a list is standard input, which has the name v here.

  $ set -o pipefail; echo v | pegtool explain --files-from - g t | grep :
  t:1:1: expected 'a', found 'b'
  v:1:1: expected 'a', found 'b'
  [1]

With --null a name in the list ends at a zero byte.

  $ printf 'u\0v\0' > l
  $ set -o pipefail; pegtool explain g --null t --files-from=l | grep :
  t:1:1: expected 'a', found 'b'
  u:1:1: expected 'a', found 'b'
  v:1:1: expected 'a', found 'b'
  [1]

The word after --files-from is the name of the list, also one that begins with dashes.

  $ pegtool explain g t --files-from -l --quiet
  [1]
  $ set -o pipefail; pegtool explain g t --files-from -l | grep :
  t:1:1: expected 'a', found 'b'
  u:1:1: expected 'a', found 'b'
  [1]
  $ set -o pipefail; pegtool explain g --files-from --null t | grep :
  t:1:1: expected 'a', found 'b'
  u:1:1: expected 'a', found 'b'
  [1]

With --quiet nothing is printed, and the exit status says that a text doesn't match.

  $ pegtool explain --quiet g t
  [1]

A memo of 0 and the least step limit are allowed; one step is too few for the text.

  $ set -o pipefail; pegtool explain g t | grep :
  t:1:1: expected 'a', found 'b'
  [1]
  $ pegtool explain g t --memo 0 --steps 1
  t: the parse takes more steps than --steps allows
  [6]

The greatest memo and step limit are allowed, and the answer is the same.

  $ set -o pipefail; pegtool explain g t --memo 1000000 --steps 1000000000000 | grep :
  t:1:1: expected 'a', found 'b'
  [1]

A start that no rule has is named, also one that begins with a dash.

  $ pegtool explain --start A g t --steps 8
  g: no rule is named A
  [3]
  $ pegtool explain g t --start -a --memo 7
  g: no rule is named -a
  [3]

The rule of an item follows it with --rules; a class is written out with --terminals.

  $ printf "S <- 'a' / N\nN <- [0-9]\n" > g
  $ set -o pipefail; pegtool explain g t | grep :
  t:1:1: expected 'a' or N, found 'b'
  [1]
  $ set -o pipefail; pegtool explain g t --rules | grep :
  t:1:1: expected 'a' in S or N, found 'b'
  [1]
  $ set -o pipefail; pegtool explain --terminals g t | grep :
  t:1:1: expected 'a' or [0-9], found 'b'
  [1]
  $ set -o pipefail; pegtool explain g --terminals t --rules | grep :
  t:1:1: expected 'a' in S or [0-9] in N, found 'b'
  [1]
