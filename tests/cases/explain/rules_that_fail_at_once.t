Rules in messages of explain: a rule that is called at the position and fails there at once is named once, in place of
the items that its rest expects. Of such rules, one in another, the outermost is named.

Value is called at 5, where all of its alternatives fail. Word, Number and List are in Value, so they aren't named.

  $ cat > g <<'END'
  > Pair <- Name '=' Value ';'
  > Value <- Word / Number / List
  > Word <- 'true' / 'false'
  > Number <- [0-9]+
  > List <- '(' Value* ')'
  > Name <- [a-z]+
  > END
  $ printf 'name=?;' > t
  $ pegtool explain g t
  t:1:6: expected Value, found '?'
  name=?;
       ^
  [1]

With --terminals all of its items are written.

  $ pegtool explain g t --terminals
  t:1:6: expected 'true', 'false', [0-9] or '(', found '?'
  name=?;
       ^
  [1]

The longest literal of Value that begins like the text has five bytes, so five bytes are shown.

  $ printf 'name=flase;' > t
  $ pegtool explain g t
  t:1:6: expected Value, found 'flase'
  name=flase;
       ^
  [1]

In the open list, Value is called at 6 and fails at once; List is called at 5, so its own `)` is written. The order is
that of the grammar file: Value is defined before `)`.

  $ printf 'name=(;' > t
  $ pegtool explain g t
  t:1:7: expected Value or ')', found ';'
  name=(;
        ^
  [1]

Item begins at 1, fails at once and is named; the comma isn't in it. Its definition comes first in the file.

  $ printf "Item <- 'a' / 'b'\nList <- Item (',' Item)* '.'" > g; printf 'a,' > t
  $ pegtool explain g t --start List
  t:1:3: expected Item, found the end
  a,
    ^
  [1]
  $ printf 'a' > t
  $ pegtool explain g t --start List
  t:1:2: expected ',' or '.', found the end
  a
   ^
  [1]

Left and Right both begin with Name, and neither calls the other: both are named.

  $ printf "S <- '-' (Left / Right)\nLeft <- Name '<'\nRight <- Name '>'\nName <- [a-z]+" > g; printf -- '-1' > t
  $ pegtool explain g t
  t:1:2: expected Left or Right, found '1'
  -1
   ^
  [1]

After the name neither of them fails at once, since both began at 1.

  $ printf -- '-a1' > t
  $ pegtool explain g t
  t:1:3: expected '<', '>' or [a-z], found '1'
  -a1
    ^
  [1]

The start rule fails at once where a text is wrong at its beginning, and isn't named.

  $ printf "S <- A 'x'\nA <- 'a' / 'b'" > g; printf '?' > t
  $ pegtool explain g t
  t:1:1: expected A, found '?'
  ?
  ^
  [1]
  $ pegtool explain g t --start A
  t:1:1: expected 'a' or 'b', found '?'
  ?
  ^
  [1]

Line matches the empty string at 0, so it doesn't fail. Its parts are written: Section and Comment, which fail.

  $ printf "File <- Line !.\nLine <- (Section / Comment)?\nSection <- '['\nComment <- ';' / '#'" > g
  $ pegtool explain g t
  t:1:1: expected the end, Section or Comment, found '?'
  ?
  ^
  [1]

End is the end of the text and nothing else, which is written in its place.

  $ printf "File <- 'a' More* End\nMore <- 'b' / 'c'\nEnd <- !." > g; printf 'a?' > t
  $ pegtool explain g t
  t:1:2: expected the end or More, found '?'
  a?
   ^
  [1]

A rule that fails at a predicate fails at once, too.

  $ printf "S <- 'let ' Name\nName <- !Keyword [a-z]+\nKeyword <- 'if' / 'let'" > g; printf 'let if' > t
  $ pegtool explain g t
  t:1:5: expected Name, found 'i'
  let if
      ^
  [1]

Pair is called at 2 and fails at 3, so it doesn't fail at once; Digit fails there at once.

  $ printf "S <- 'a(' Pair ')'\nPair <- Digit Digit\nDigit <- [0-9]" > g; printf 'a(1)' > t
  $ pegtool explain g t
  t:1:4: expected Digit, found ')'
  a(1)
     ^
  [1]

With a memo and without one the calls are the same.

  $ pegtool explain g t --memo 0
  t:1:4: expected Digit, found ')'
  a(1)
     ^
  [1]

With --rules an item that is left out isn't followed by its rule, and another one is.

  $ printf "S <- 'x' (A / 'y')\nA <- 'a' / 'b'" > g; printf 'x?' > t
  $ pegtool explain g t --rules
  t:1:2: expected 'y' in S or A, found '?'
  x?
   ^
  [1]
