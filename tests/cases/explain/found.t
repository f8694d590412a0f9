How explain writes what it finds in the text: bytes as they are, escapes, and characters of UTF-8. `cat -A` shows
bytes over 127 as `M-` and tabs as `^I`.

A tab before the caret is a tab in its line, too, so that the columns agree.

  $ printf "S <- '\\\\t' 'a'" > g; printf '\tb' > t
  $ pegtool explain g t | cat -A
  t:1:2: expected 'a', found 'b'$
  ^Ib$
  ^I^$

A tab that is found is written as an escape, and in the line as it is.

  $ printf "S <- 'a' 'a'" > g; printf 'a\tb' > t
  $ pegtool explain g t | cat -A
  t:1:2: expected 'a', found '\t' (tab)$
  a^Ib$
   ^$

A line end is named, and one of two bytes is one character. So are other characters that can't be seen, by the names of
the Unicode standard, and characters that look like those of ASCII. The escapes of UTF-8 are by RFC 3629.

  $ printf "S <- 'a' 'b'" > g; printf 'a\n' > t
  $ pegtool explain g t
  t:1:2: expected 'b', found '\n' (line end)
  a
   ^
  [1]
  $ printf 'a\r\n' > t
  $ pegtool explain g t
  t:1:2: expected 'b', found '\r\n' (line end)
  a
   ^
  [1]
  $ printf 'a\rb' > t
  $ pegtool explain g t
  t:1:2: expected 'b', found '\r' (carriage return)
  a
   ^
  [1]
  $ printf 'a\302\240b' > t
  $ pegtool explain g t | head -n 1
  t:1:2: expected 'b', found '\xC2\xA0' (no-break space)
  $ printf 'a\342\200\213b' > t
  $ pegtool explain g t | head -n 1
  t:1:2: expected 'b', found '\xE2\x80\x8B' (zero width space)
  $ printf '\357\273\277ab' > t
  $ pegtool explain g t | head -n 1
  t:1:1: expected 'a', found '\xEF\xBB\xBF' (byte order mark)
  $ printf 'a\342\200\234' > t
  $ pegtool explain g t | head -n 1 | cat -A
  t:1:2: expected 'b', found 'M-bM-^@M-^\' (left double quotation mark)$
  $ printf 'a\342\200\223' > t
  $ pegtool explain g t | head -n 1 | cat -A
  t:1:2: expected 'b', found 'M-bM-^@M-^S' (en dash)$

Where a literal is expected that begins with the same letter, in either case, as much of the text is shown as the
longest such literal has bytes, up to a blank.

  $ printf "S <- 'returns' / 'return' / 'value'" > g; printf 'retuns x' > t
  $ pegtool explain g t
  t:1:1: expected 'returns', 'return' or 'value', found 'retuns'
  retuns x
  ^
  [1]
  $ printf 'Returning' > t
  $ pegtool explain g t | head -n 1
  t:1:1: expected 'returns', 'return' or 'value', found 'Returni'
  $ printf 'vXlue' > t
  $ pegtool explain g t | head -n 1
  t:1:1: expected 'returns', 'return' or 'value', found 'vXlue'
  $ printf 'x' > t
  $ pegtool explain g t | head -n 1
  t:1:1: expected 'returns', 'return' or 'value', found 'x'

A character of UTF-8 is never cut: `é` has two bytes (RFC 3629), so four bytes of `abcé` are `abc`. A word of one
character is written as a character alone. A literal without a first byte in common leaves one character, and so does a
class.

  $ printf "S <- 'abcd'" > g; printf 'abc\303\251' > t
  $ pegtool explain g t | head -n 1
  t:1:1: expected 'abcd', found 'abc'
  $ printf "S <- 'a\303\251x'" > g; printf 'a\303\251y' > t
  $ pegtool explain g t | head -n 1 | cat -A
  t:1:1: expected 'aM-CM-)x', found 'aM-CM-)y'$
  $ printf "S <- 'ab'" > g; printf 'a b' > t
  $ pegtool explain g t | head -n 1
  t:1:1: expected 'ab', found 'a'
  $ printf "S <- '\"proto3\"'" > g; printf '"proto2";' > t
  $ pegtool explain g t | head -n 1
  t:1:1: expected '"proto3"', found '"proto2"'
  $ printf "S <- [a-f] / 'xyz'" > g; printf 'zabc' > t
  $ pegtool explain --terminals g t | head -n 1
  t:1:1: expected [a-f] or 'xyz', found 'z'

A quote and a backslash are escaped within the quotes, and a double quote isn't.

  $ printf "S <- 'a'" > g; printf "'" > t
  $ pegtool explain g t
  t:1:1: expected 'a', found '\''
  '
  ^
  [1]
  $ printf "S <- 'a'" > g; printf '\\x' > t
  $ pegtool explain g t
  t:1:1: expected 'a', found '\\'
  \x
  ^
  [1]
  $ printf "S <- 'a'" > g; printf '"' > t
  $ pegtool explain g t
  t:1:1: expected 'a', found '"'
  "
  ^
  [1]

A character of two, three or four bytes is found as a whole.

  $ printf "S <- 'a'" > g; printf '\303\251' > t
  $ pegtool explain g t | cat -A
  t:1:1: expected 'a', found 'M-CM-)'$
  M-CM-)$
  ^$
  $ printf "S <- 'x' 'a'" > g; printf 'x\360\237\230\200' > t
  $ pegtool explain g t | cat -A
  t:1:2: expected 'a', found 'M-pM-^_M-^XM-^@'$
  xM-pM-^_M-^XM-^@$
   ^$

Columns count bytes, but a character takes one place in the line of the caret.

  $ printf "S <- '\\\\xC3\\\\xA9' 'a'" > g; printf '\303\251b' > t
  $ pegtool explain g t | cat -A
  t:1:3: expected 'a', found 'b'$
  M-CM-)b$
   ^$
  $ printf "S <- '\\\\xE2\\\\x82\\\\xAC' 'a'" > g; printf '\342\202\254x' > t
  $ pegtool explain g t | cat -A
  t:1:4: expected 'a', found 'x'$
  M-bM-^BM-,x$
   ^$

Where the position is within a character, both its parts are written as escapes.

  $ printf "S <- '\\\\xC3' 'a'" > g; printf '\303\251\303\251' > t
  $ pegtool explain g t | cat -A
  t:1:2: expected 'a', found '\xA9'$
  \xC3\xA9M-CM-)$
      ^$

Zero bytes, byte 255, DEL and ESC are escapes of four columns in the line.

  $ printf "S <- '\\\\0' 'a'" > g; printf '\000\377\177' > t
  $ pegtool explain g t
  t:1:2: expected 'a', found '\xFF'
  \x00\xFF\x7F
      ^
  [1]
  $ printf "S <- '\\\\x1B' 'a'" > g; printf '\033x' > t
  $ pegtool explain g t
  t:1:2: expected 'a', found 'x'
  \x1Bx
      ^
  [1]

An overlong sequence is not UTF-8 (RFC 3629, section 3), so its bytes are escapes.

  $ printf "S <- 'a'" > g; printf '\300\200' > t
  $ pegtool explain g t
  t:1:1: expected 'a', found '\xC0'
  \xC0\x80
  ^
  [1]

A sequence that the end of the text cuts off is no character.

  $ printf "S <- 'a' 'a'" > g; printf 'a\342\202' > t
  $ pegtool explain g t
  t:1:2: expected 'a', found '\xE2'
  a\xE2\x82
   ^
  [1]

A surrogate is not UTF-8 (RFC 3629, section 3), so its bytes are escapes.

  $ printf "S <- 'a'" > g; printf '\355\240\200' > t
  $ pegtool explain g t
  t:1:1: expected 'a', found '\xED'
  \xED\xA0\x80
  ^
  [1]

Two bytes that begin no character take eight columns before the caret.

  $ printf "S <- '\\\\x80\\\\x80' 'a'" > g; printf '\200\200z' > t
  $ pegtool explain g t
  t:1:3: expected 'a', found 'z'
  \x80\x80z
          ^
  [1]
