The furthest failure of each example text that doesn't match, of texts of bytes. All are worked out by hand from the
grammar and the text: the terminals that fail there, by the rules where they stand, and with a number where the rule
has the terminal more than once. A span is the place of a terminal in the grammar file.

At position 2: the text ends within a code point of three bytes.
Terminals: Tail [\x80-\xBF]

  $ pegtool parse examples/utf8.peg examples/utf8/no_match_cut.txt
  {"expected":[[465,476]],"far":2,"result":"failed"}
  [1]

At position 4: byte 233 begins a code point of three bytes, and a line end is none of its others.
Terminals: Tail [\x80-\xBF]

  $ pegtool parse examples/utf8.peg examples/utf8/no_match_latin_1.txt
  {"expected":[[465,476]],"far":4,"result":"failed"}
  [1]

At position 0: byte 192 would begin a code point that one byte is enough for.
Terminals: One [\x00-\x7F]; Two [\xC2-\xDF]; Three '\xE0' [\xE1-\xEC] '\xED' [\xEE-\xEF]; Four '\xF0' [\xF1-\xF3]
'\xF4'

  $ pegtool parse examples/utf8.peg examples/utf8/no_match_overlong.txt
  {"expected":[[197,208],[222,233],[252,258],[278,289],[302,308],[328,339],[363,369],[394,405],[423,429]],"far":0,"result":"failed"}
  [1]

At position 1: the code point is D800.
Terminals: Three [\x80-\x9F]

  $ pegtool parse examples/utf8.peg examples/utf8/no_match_surrogate.txt
  {"expected":[[309,320]],"far":1,"result":"failed"}
  [1]

At position 2: the code point is over 10FFFF.
Terminals: Four [\x80-\x8F]

  $ pegtool parse examples/utf8.peg examples/utf8/no_match_too_large.txt
  {"expected":[[430,441]],"far":2,"result":"failed"}
  [1]

At position 4: the signature's CR was lost.
Terminals: Signature '\x89PNG\r\n\x1A\n'

  $ pegtool parse examples/png.peg examples/png/no_match_line_ends.png
  {"expected":[[293,312]],"far":4,"result":"failed"}
  [1]

At position 25: no palette has 16 bits.
Terminals: Kind '\0' [\x02\x04\x06]

  $ pegtool parse examples/png.peg examples/png/no_match_kind.png
  {"expected":[[448,452],[466,480]],"far":25,"result":"failed"}
  [1]

At position 0: the width is 0, which `!'\0\0\0\0'` refuses without a terminal of its own.

  $ pegtool parse examples/png.peg examples/png/no_match_no_width.png
  {"expected":[],"far":0,"result":"failed"}
  [1]

At position 34: the file ends before its last chunk.
Terminals: Between .; Last '\0\0\0\0IEND\xAEB`\x82'

  $ pegtool parse examples/png.peg examples/png/no_match_cut.png
  {"expected":[[579,580],[596,620]],"far":34,"result":"failed"}
  [1]

At position 23: the height isn't 0; the byte after the last chunk fails `!.`, without a terminal of its own.
Terminals: Size '\0\0\0\0'

  $ pegtool parse examples/png.peg examples/png/no_match_more.png
  {"expected":[[385,395]],"far":23,"result":"failed"}
  [1]
