What explain shows of a long line: at most 120 bytes, from 80 bytes before the position.

A line of 120 bytes is shown whole, and of 130 bytes the first 120.

  $ printf "S <- 'a'" > g; printf 'b%.0s' $(seq 120) > t
  $ pegtool explain g t
  t:1:1: expected 'a', found 'b'
  bbbbbbbbbbbbbbbbbbbbbbbbbbbbbbbbbbbbbbbbbbbbbbbbbbbbbbbbbbbbbbbbbbbbbbbbbbbbbbbbbbbbbbbbbbbbbbbbbbbbbbbbbbbbbbbbbbbbbbbb
  ^
  [1]
  $ printf "S <- 'a'" > g; printf 'b%.0s' $(seq 130) > t
  $ pegtool explain g t
  t:1:1: expected 'a', found 'b'
  bbbbbbbbbbbbbbbbbbbbbbbbbbbbbbbbbbbbbbbbbbbbbbbbbbbbbbbbbbbbbbbbbbbbbbbbbbbbbbbbbbbbbbbbbbbbbbbbbbbbbbbbbbbbbbbbbbbbbbbb
  ^
  [1]

Up to position 80 the line is shown from its start.

  $ printf "S <- 'b'{80} 'a'" > g; printf 'b%.0s' $(seq 130) > t
  $ pegtool explain g t
  t:1:81: expected 'a', found 'b'
  bbbbbbbbbbbbbbbbbbbbbbbbbbbbbbbbbbbbbbbbbbbbbbbbbbbbbbbbbbbbbbbbbbbbbbbbbbbbbbbbbbbbbbbbbbbbbbbbbbbbbbbbbbbbbbbbbbbbbbbb
                                                                                  ^
  [1]

At position 200 of 300 the line is shown from 120 to 240.

  $ printf "S <- 'b'{200} 'a'" > g; printf 'b%.0s' $(seq 300) > t
  $ pegtool explain g t
  t:1:201: expected 'a', found 'b'
  bbbbbbbbbbbbbbbbbbbbbbbbbbbbbbbbbbbbbbbbbbbbbbbbbbbbbbbbbbbbbbbbbbbbbbbbbbbbbbbbbbbbbbbbbbbbbbbbbbbbbbbbbbbbbbbbbbbbbbbb
                                                                                  ^
  [1]

At the end of 300 bytes the last 80 are shown, and the caret after them.

  $ printf "S <- ('b'{150}){2} 'a'" > g; printf 'b%.0s' $(seq 300) > t
  $ pegtool explain g t
  t:1:301: expected 'a', found the end
  bbbbbbbbbbbbbbbbbbbbbbbbbbbbbbbbbbbbbbbbbbbbbbbbbbbbbbbbbbbbbbbbbbbbbbbbbbbbbbbb
                                                                                  ^
  [1]

A start 80 bytes before the position would split a character of three bytes, so it is one byte earlier.

  $ printf "S <- 'a\n' '\342\202\254'{30} 'a'" > g; (echo a; printf '\342\202\254%.0s' $(seq 60)) > t
  $ pegtool explain g t | cat -A
  t:2:91: expected 'a', found 'M-bM-^BM-,'$
  M-bM-^BM-,M-bM-^BM-,M-bM-^BM-,M-bM-^BM-,M-bM-^BM-,M-bM-^BM-,M-bM-^BM-,M-bM-^BM-,M-bM-^BM-,M-bM-^BM-,M-bM-^BM-,M-bM-^BM-,M-bM-^BM-,M-bM-^BM-,M-bM-^BM-,M-bM-^BM-,M-bM-^BM-,M-bM-^BM-,M-bM-^BM-,M-bM-^BM-,M-bM-^BM-,M-bM-^BM-,M-bM-^BM-,M-bM-^BM-,M-bM-^BM-,M-bM-^BM-,M-bM-^BM-,M-bM-^BM-,M-bM-^BM-,M-bM-^BM-,M-bM-^BM-,M-bM-^BM-,M-bM-^BM-,M-bM-^BM-,M-bM-^BM-,M-bM-^BM-,M-bM-^BM-,M-bM-^BM-,M-bM-^BM-,M-bM-^BM-,$
                             ^$

After one byte 39 characters of three bytes fit in 120 bytes, and two bytes are left.

  $ printf "S <- 'x' 'a'" > g; (printf x; printf '\342\202\254%.0s' $(seq 60)) > t
  $ pegtool explain g t | cat -A
  t:1:2: expected 'a', found 'M-bM-^BM-,'$
  xM-bM-^BM-,M-bM-^BM-,M-bM-^BM-,M-bM-^BM-,M-bM-^BM-,M-bM-^BM-,M-bM-^BM-,M-bM-^BM-,M-bM-^BM-,M-bM-^BM-,M-bM-^BM-,M-bM-^BM-,M-bM-^BM-,M-bM-^BM-,M-bM-^BM-,M-bM-^BM-,M-bM-^BM-,M-bM-^BM-,M-bM-^BM-,M-bM-^BM-,M-bM-^BM-,M-bM-^BM-,M-bM-^BM-,M-bM-^BM-,M-bM-^BM-,M-bM-^BM-,M-bM-^BM-,M-bM-^BM-,M-bM-^BM-,M-bM-^BM-,M-bM-^BM-,M-bM-^BM-,M-bM-^BM-,M-bM-^BM-,M-bM-^BM-,M-bM-^BM-,M-bM-^BM-,M-bM-^BM-,M-bM-^BM-,$
   ^$
