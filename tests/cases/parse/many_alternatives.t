A parse in which very many terminals fail at one position.

Each of 300,000 empty classes fails at 0, in two calls of T, and is expected once, in the order of the file.

  $ (printf 'S<-T/T T<-[]'; printf '/[]%.0s' {2..300000}) > many.peg
  > printf b | pegtool parse many.peg /dev/stdin > line
  [1]

The first class is at 10, and each starts three bytes after the one before it.

  $ grep -o '\[[0-9]*,[0-9]*\]' line > spans; wc -l < spans
  > seq 0 299999 | awk '{print "[" 10 + 3 * $1 "," 12 + 3 * $1 "]"}' | cmp - spans
  > head -c 20 line; echo; tail -c 29 line
  300000
  {"expected":[[10,12]
  ],"far":0,"result":"failed"}
