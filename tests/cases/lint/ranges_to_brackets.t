The habit ClassEndsInRange: `-]` where a class seems to end, so that the range goes to the bracket.

The range ends at the bracket, and the class ends only at the next one. What follows in the class is often in the range,
so it is repeated.

  $ printf 'S <- [+-]]' | pegtool lint /dev/stdin
  {"warnings":[{"column":7,"end":9,"kind":"ClassEndsInRange","line":1,"proved":false,"rule":"S","start":6}]}
  [1]
  $ printf 'S <- [A-]..]' | pegtool lint /dev/stdin
  {"warnings":[{"column":7,"end":9,"kind":"ClassEndsInRange","line":1,"proved":false,"rule":"S","start":6},{"column":11,"end":11,"kind":"RepeatedByte","line":1,"proved":false,"rule":"S","start":10}]}
  [1]
  $ printf 'S <- [+-]?[0-9]+' | pegtool lint /dev/stdin
  {"warnings":[{"column":7,"end":9,"kind":"ClassEndsInRange","line":1,"proved":false,"rule":"S","start":6},{"column":10,"end":10,"kind":"RepeatedByte","line":1,"proved":false,"rule":"S","start":9},{"column":11,"end":11,"kind":"RepeatedByte","line":1,"proved":false,"rule":"S","start":10},{"column":12,"end":14,"kind":"RepeatedByte","line":1,"proved":false,"rule":"S","start":11}]}
  [1]
  $ printf 'S <- [0-9,-]]' | pegtool lint /dev/stdin
  {"warnings":[{"column":10,"end":12,"kind":"ClassEndsInRange","line":1,"proved":false,"rule":"S","start":9},{"column":10,"end":12,"kind":"RepeatedByte","line":1,"proved":false,"rule":"S","start":9}]}
  [1]
  $ printf 'S <- [--]]' | pegtool lint /dev/stdin
  {"warnings":[{"column":7,"end":9,"kind":"ClassEndsInRange","line":1,"proved":false,"rule":"S","start":6}]}
  [1]

The letter a is greater than the bracket, so the range is reversed, too.

  $ printf 'S <- [a-]]' | pegtool lint /dev/stdin
  {"warnings":[{"column":7,"end":9,"kind":"ReversedRange","line":1,"proved":true,"rule":"S","start":6},{"column":7,"end":9,"kind":"ClassEndsInRange","line":1,"proved":false,"rule":"S","start":6}]}
  [1]

A dash at the start makes no range, and an escaped bracket shows what is meant.

  $ printf 'S <- [-a]' | pegtool lint /dev/stdin
  {"warnings":[]}
  $ printf 'S <- [A-\\]]' | pegtool lint /dev/stdin
  {"warnings":[]}
  $ printf 'S <- [+-\\x5D]' | pegtool lint /dev/stdin
  {"warnings":[]}
  $ printf 'S <- [\\]]' | pegtool lint /dev/stdin
  {"warnings":[]}

A dash and a bracket in a literal are no range, also beside a class.

  $ printf "S <- '[+-]'" | pegtool lint /dev/stdin
  {"warnings":[]}
  $ printf "S <- [a] '-]'" | pegtool lint /dev/stdin
  {"warnings":[]}
