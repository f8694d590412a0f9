The lines of JSON for refused grammars, starts, names and parses (docs/USAGE.md, Refused parses and Refused grammar
files).

A cycle is a list of names, and a missing rule has its name.

  $ printf "S <- 'a'\nT <- T\n" | pegtool check /dev/stdin
  {"path":["T"],"refusal":"LeftRecursion"}
  [2]
  $ printf "A <- B\n" | pegtool check /dev/stdin
  {"column":6,"end":6,"line":1,"name":"B","refusal":"Undefined","start":5}
  [2]

The start that no rule has is given as a string of JSON, with its escapes.

  $ printf "S <- 'a'" > g; printf a > t
  $ pegtool parse g t --start T
  {"name":"T","refusal":"NoSuchStart"}
  [3]
  $ pegtool parse g t --start $'"\n'
  {"name":"\"\n","refusal":"NoSuchStart"}
  [3]

The first unknown name of a list is named; an empty list has one name, which is empty.

  $ pegtool parse g t --show T
  {"name":"T","refusal":"NoSuchRule"}
  [3]
  $ pegtool parse g t --show ''
  {"name":"","refusal":"NoSuchRule"}
  [3]

A file of 1,048,577 bytes is one byte over its limit.

  $ printf '%1048577s' '' | pegtool check /dev/stdin
  {"refusal":"FileTooLong"}
  [2]

A count that is out of range is refused at its brace, in line 2.

  $ printf "A <- B\nB <- 'b'{0}\n" | pegtool check /dev/stdin
  {"at":15,"column":9,"line":2,"refusal":"BadCount"}
  [2]

One step isn't enough to match a byte; a tree of 61 levels isn't printed nested.

  $ pegtool parse g t --steps 1 --memo 0
  {"refusal":"StepLimit"}
  [6]
  $ printf "S <- 'a' S / 'b'" > g; (printf 'a%.0s' $(seq 60); printf b) > t; pegtool parse g t
  {"refusal":"TooDeep"}
  [6]

A text of 67,108,865 bytes is one byte over its limit, and isn't parsed.

  $ truncate -s 67108865 t; pegtool parse g t; status=$?; rm t; exit $status
  {"refusal":"TextTooLong"}
  [6]
