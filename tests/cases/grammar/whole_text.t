A plus and the end of the text, worked out by hand.

At the end of the text both the byte and the dot fail, and the match is whole.

  $ cat > g.peg <<'END'
  > S <- 'a'+ !.
  > END
  $ printf 'aa' | pegtool parse g.peg /dev/stdin --rows
  {"consumed":2,"expected":[[5,8],[11,12]],"far":2,"result":"matched","rows":[[1,"S",0,2]]}

The `b` is after the plus, so `!.` fails without a terminal; the byte is expected.

  $ printf 'ab' | pegtool parse g.peg /dev/stdin --rows
  {"expected":[[5,8]],"far":1,"result":"failed"}
  [1]

On an empty text the plus fails at once.

  $ printf '' | pegtool parse g.peg /dev/stdin --rows
  {"expected":[[5,8]],"far":0,"result":"failed"}
  [1]
