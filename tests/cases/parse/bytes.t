How the bytes of literals and classes match those of the text.

Two hexadecimal digits are one byte, in a literal and at the ends of a range (docs/NOTATION.md).

  $ cat > byte.peg <<'END'
  > A <- '\xFF'
  > END
  $ printf '\377' | pegtool parse byte.peg /dev/stdin
  {"consumed":1,"expected":[],"far":0,"result":"matched","tree":{"children":[],"end":1,"rule":"A","start":0}}

  $ cat > range.peg <<'END'
  > A <- [\x80-\xbf]
  > END
  $ printf '\300' | pegtool parse range.peg /dev/stdin
  {"expected":[[5,16]],"far":0,"result":"failed"}
  [1]

  $ printf '\277' | pegtool parse range.peg /dev/stdin
  {"consumed":1,"expected":[],"far":0,"result":"matched","tree":{"children":[],"end":1,"rule":"A","start":0}}

An escape has exactly two hexadecimal digits, so the third digit stands for itself: the text A4.

  $ cat > three.peg <<'END'
  > A <- '\x414'
  > END
  $ printf A4 | pegtool parse three.peg /dev/stdin
  {"consumed":2,"expected":[],"far":0,"result":"matched","tree":{"children":[],"end":2,"rule":"A","start":0}}

Only the digits 0 to 2 can start three octal digits, so this is byte 31 and a 7 (Ford 2004, figure 1).

  $ cat > octal.peg <<'END'
  > A <- '\377'
  > END
  $ printf '\0377' | pegtool parse octal.peg /dev/stdin
  {"consumed":2,"expected":[],"far":0,"result":"matched","tree":{"children":[],"end":2,"rule":"A","start":0}}

A reversed range and an empty class always fail, and a raw byte in a class matches itself.

  $ printf 'A <- [z-a] / [] / [\310]\n' > raw.peg
  $ printf '\310' | pegtool parse raw.peg /dev/stdin
  {"consumed":1,"expected":[[5,10],[13,15]],"far":0,"result":"matched","tree":{"children":[],"end":1,"rule":"A","start":0}}
