A text of 67,108,864 bytes, and one that is a byte too long.

A text at the limit is parsed as others: its first byte isn't a `b`.

  $ head -c 67108864 /dev/zero | tr '\000' a | pegtool parse <(echo "S <- 'b'") /dev/stdin
  {"expected":[[5,8]],"far":0,"result":"failed"}
  [1]

One byte more is too long.

  $ head -c 67108865 /dev/zero | tr '\000' a | pegtool parse <(echo "S <- 'b'") /dev/stdin
  {"refusal":"TextTooLong"}
  [6]

So it is with rules that call themselves, and the length is checked before the step limit.

  $ head -c 67108864 /dev/zero | pegtool parse <(echo "S <- 'a' S / 'b'") /dev/stdin
  {"expected":[[5,8],[13,16]],"far":0,"result":"failed"}
  [1]
  $ head -c 67108865 /dev/zero | pegtool parse <(echo "S <- 'a' S / 'b'") /dev/stdin --steps 1
  {"refusal":"TextTooLong"}
  [6]
