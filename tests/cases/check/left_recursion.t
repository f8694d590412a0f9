Rules that call themselves before a byte is consumed, which Ford's semantics gives no meaning.

A rule may call itself after a byte (Ford 2004, section 3.6).

  $ pegtool check <(printf "%s" "A <- 'a' A / 'b'")
  {"result":"accepted","rules":1}

It may not call itself after an expression that can match the empty string, or in a later alternative.

  $ pegtool check <(printf "%s" "A <- B 'x'    B <- 'y'? A")
  {"path":["A","B"],"refusal":"LeftRecursion"}
  [2]
  $ pegtool check <(printf "%s" "A <- 'x'* A")
  {"path":["A"],"refusal":"LeftRecursion"}
  [2]
  $ pegtool check <(printf "%s" "A <- !'x' A")
  {"path":["A"],"refusal":"LeftRecursion"}
  [2]
  $ pegtool check <(printf "%s" "A <- '' A")
  {"path":["A"],"refusal":"LeftRecursion"}
  [2]
  $ pegtool check <(printf "%s" "A <- '' / A")
  {"path":["A"],"refusal":"LeftRecursion"}
  [2]

What follows an expression that never succeeds isn't reached, so this is well-formed.

  $ pegtool check <(printf "%s" "A <- !'' A")
  {"result":"accepted","rules":1}
  $ pegtool check <(printf "%s" "A <- [] A")
  {"result":"accepted","rules":1}

A call in a predicate is a call, too.

  $ pegtool check <(printf "%s" "A <- 'x' / &A")
  {"path":["A"],"refusal":"LeftRecursion"}
  [2]

A rule that no other one calls is checked, too.

  $ pegtool check <(printf "%s" "A <- 'a'    B <- B")
  {"path":["B"],"refusal":"LeftRecursion"}
  [2]

The path has only rules on the cycle, and starts with the first one in the file that is on any.

  $ pegtool check <(printf "%s" "A <- B    B <- C    C <- B")
  {"path":["B","C"],"refusal":"LeftRecursion"}
  [2]
  $ pegtool check <(printf "%s" "A <- B    B <- C    C <- D    D <- C    E <- E / A")
  {"path":["C","D"],"refusal":"LeftRecursion"}
  [2]

Of several cycles from that rule a shortest one is reported, and of these the one whose rules come first in the file.

  $ pegtool check <(printf "%s" "A <- B / C    B <- C    C <- A")
  {"path":["A","C"],"refusal":"LeftRecursion"}
  [2]
  $ pegtool check <(printf "%s" "A <- C / B    B <- A    C <- A")
  {"path":["A","B"],"refusal":"LeftRecursion"}
  [2]
  $ pegtool check <(printf "%s" "A <- C / B    B <- E    C <- D    D <- A    E <- A")
  {"path":["A","B","E"],"refusal":"LeftRecursion"}
  [2]
