Lists of names are read to their ends, however long they are.

The list has an empty line and 16,384 names with a line end each, 4,096 bytes together. So it has 67,108,865 bytes before
its last two names. One names a text that doesn't match, and the other names no file.

  $ echo "S <- 'a'" > a.peg; printf a > good.text; printf b > bad.text
  $ python3 -c "print('\n' + ('./' * 2043 + 'good.text\n') * 16384 + 'bad.text\nnowhere')" > list
  $ wc -c < list
  67108882
  $ pegtool explain a.peg --files-from list 2> /dev/null
  bad.text:1:1: expected 'a', found 'b'
  b
  ^
  [4]

  $ pegtool explain a.peg --files-from - < list > /dev/null
  pegtool: nowhere: can't be opened
  [4]

A name that begins before byte 67,108,864 and ends after it is one name: no file has a part of it as its name.

  $ python3 -c "print(('./' * 2043 + 'good.text\n') * 16383 + './' * 2042 + 'good.text\nbad.text')" > list
  $ pegtool explain a.peg --files-from list
  bad.text:1:1: expected 'a', found 'b'
  b
  ^
  [1]

A list is read in pieces of 65,536 bytes. Here a name begins six bytes before the end of the first piece.

  $ python3 -c "print(('./' * 2043 + 'good.text\n') * 15 + './' * 2040 + 'good.text\nbad.text\nnowhere')" > list
  $ head -c 65536 list | tail -c 16
  good.text
  bad.te (no-eol)
  $ pegtool explain a.peg --files-from list 2> /dev/null
  bad.text:1:1: expected 'a', found 'b'
  b
  ^
  [4]

  $ pegtool explain a.peg --files-from list > /dev/null
  pegtool: nowhere: can't be opened
  [4]

The same names end at zero bytes.

  $ tr '\n' '\0' < list > zeros
  $ pegtool explain a.peg --files-from zeros --null 2> /dev/null
  bad.text:1:1: expected 'a', found 'b'
  b
  ^
  [4]

Here the end of a name is the last byte of the first piece, and then the first byte of the second one.

  $ python3 -c "print(('./' * 2043 + 'good.text\n') * 16 + 'bad.text')" > list
  $ head -c 65536 list | tail -c 5
  text
  $ pegtool explain a.peg --files-from list
  bad.text:1:1: expected 'a', found 'b'
  b
  ^
  [1]

  $ python3 -c "print(('./' * 2043 + 'good.text\n') * 15 + './' * 2039 + 'good.text\nbad.text\nbad.text')" > list
  $ head -c 65536 list | tail -c 4
  text (no-eol)
  $ pegtool explain a.peg --files-from list
  bad.text:1:1: expected 'a', found 'b'
  b
  ^
  bad.text:1:1: expected 'a', found 'b'
  b
  ^
  [1]
