The furthest failure of each example text that doesn't match, of documents and data. All are worked out by hand from
the grammar and the text: the terminals that fail there, by the rules where they stand, and with a number where the
rule has the terminal more than once. A span is the place of a terminal in the grammar file.

At position 4: the text ends where a product has to begin.
Terminals: Value '('; Number [0-9]; Spacing ' '

  $ pegtool parse examples/arithmetic.peg examples/arithmetic/no_match_end.txt
  {"expected":[[199,202],[243,248],[387,390]],"far":4,"result":"failed"}
  [1]

At position 2: no sign is between the numbers.
Terminals: AddSign [-+]; MultiplySign [*/]; Spacing ' '

  $ pegtool parse examples/arithmetic.peg examples/arithmetic/no_match_two_numbers.txt
  {"expected":[[274,278],[358,362],[387,390]],"far":2,"result":"failed"}
  [1]

At position 5: the text ends within quotes.
Terminals: Field '"'#2; Quoted '""' '"' .

  $ pegtool parse examples/csv.peg examples/csv/no_match_open_quote.txt
  {"expected":[[208,211],[232,236],[240,243],[244,245]],"far":5,"result":"failed"}
  [1]

At position 1: a field without quotes holds none, and `![,"\r\n]` fails without a terminal of its own.
Terminals: Record ','; LineEnd '\r\n' '\n'

  $ pegtool parse examples/csv.peg examples/csv/no_match_quote_inside.txt
  {"expected":[[173,176],[280,286],[289,293]],"far":1,"result":"failed"}
  [1]

At position 0: nothing begins with `=`.
Terminals: Section '['; Comment [;#]; Key [a-zA-Z_]; LineEnd '\r\n' '\n' '\r'; Space [ \t]

  $ pegtool parse examples/ini.peg examples/ini/no_match_no_key.txt
  {"expected":[[201,204],[273,277],[350,359],[420,426],[429,433],[436,440],[456,461]],"far":0,"result":"failed"}
  [1]

At position 7: the line ends within brackets.
Terminals: Section ']'

  $ pegtool parse examples/ini.peg examples/ini/no_match_open_bracket.txt
  {"expected":[[217,220]],"far":7,"result":"failed"}
  [1]

At position 3: a value must follow a comma.
Terminals: Value 'true' 'false' 'null'; Object '{'; Array '['; String '"'#1; Number '-' '0' [1-9]; Spacing [ \t\r\n]

  $ pegtool parse examples/json.peg examples/json/no_match_comma.txt
  {"expected":[[151,157],[160,167],[170,176],[197,200],[300,303],[357,360],[451,454],[457,460],[463,468],[546,555]],"far":3,"result":"failed"}
  [1]

At position 1: no digit follows a zero; `!.` fails there without a terminal of its own.
Terminals: Number '.' [eE]; Spacing [ \t\r\n]

  $ pegtool parse examples/json.peg examples/json/no_match_leading_zero.txt
  {"expected":[[478,481],[492,496],[546,555]],"far":1,"result":"failed"}
  [1]

At position 2: a string holds no line end.
Terminals: String '"'#2; Char '\\'

  $ pegtool parse examples/json.peg examples/json/no_match_line_end.txt
  {"expected":[[367,370],[382,386]],"far":2,"result":"failed"}
  [1]

At position 9: the range `a-]` takes in the bracket, and the text ends within the class.
Terminals: Class ']'#1 ']'#2; Char '\\x' '\\'#1 '\\'#2 '\\'#3 '\\'#4 .

  $ pegtool parse examples/notation.peg examples/notation/no_match_open_class.txt
  {"expected":[[671,674],[683,686],[733,738],[764,768],[785,789],[808,812],[828,832],[833,834]],"far":9,"result":"failed"}
  [1]

At position 7: the text ends within parentheses.
Terminals: IdentStart [a-zA-Z_]; IdentCont [0-9]; Literal [']#1 ["]#1; Class '['; LEFTARROW '<-'; SLASH '/'; AND '&';
NOT '!'; QUESTION '?'; STAR '*'; PLUS '+'; COUNT '{'; OPEN '('; CLOSE ')'; DOT '.'; Comment '#'; Space ' ' '\t';
EndOfLine '\r\n' '\n' '\r'

  $ pegtool parse examples/notation.peg examples/notation/no_match_open_parenthesis.txt
  {"expected":[[543,552],[579,584],[596,599],[627,630],[665,668],[848,852],[870,873],[889,892],[908,911],[932,935],[952,955],[972,975],[993,996],[1055,1058],[1076,1079],[1095,1098],[1148,1151],[1187,1190],[1193,1197],[1223,1229],[1232,1236],[1239,1243]],"far":7,"result":"failed"}
  [1]

At position 6: a value must follow `=`.
Terminals: Basic '"'#1; Literal [']#1; Array '['; Inline '{'; Boolean 'true' 'false'; Number [-+]#1 '0' [1-9]; Blank [
\t]

  $ pegtool parse examples/toml.peg examples/toml/no_match_no_value.txt
  {"expected":[[622,625],[759,762],[807,810],[877,880],[932,938],[941,948],[962,966],[969,972],[975,980],[1162,1167]],"far":6,"result":"failed"}
  [1]

At position 11: the line ends within quotes.
Terminals: Basic '"'#2; Escape '\\'

  $ pegtool parse examples/toml.peg examples/toml/no_match_open_string.txt
  {"expected":[[664,667],[681,685]],"far":11,"result":"failed"}
  [1]

At position 6: the line ends after a value.
Terminals: Comment '#'; Blank [ \t]; LineEnd '\n' '\r\n'

  $ pegtool parse examples/toml.peg examples/toml/no_match_two_values.txt
  {"expected":[[1119,1122],[1162,1167],[1181,1185],[1188,1194]],"far":6,"result":"failed"}
  [1]

At position 12: the text ends within brackets.
Terminals: Array ','#1 ','#2 ']'; Comment '#'; Blank [ \t]; LineEnd '\n' '\r\n'

  $ pegtool parse examples/toml.peg examples/toml/no_match_open_array.txt
  {"expected":[[827,830],[848,851],[860,863],[1119,1122],[1162,1167],[1181,1185],[1188,1194]],"far":12,"result":"failed"}
  [1]

At position 7: the line ends within brackets.
Terminals: Table ']'; Key '.'; Bare [-a-zA-Z0-9_]; Blank [ \t]

  $ pegtool parse examples/toml.peg examples/toml/no_match_open_table.txt
  {"expected":[[382,385],[453,456],[529,542],[1162,1167]],"far":7,"result":"failed"}
  [1]

At position 11: a key must follow the comma of an inline table.
Terminals: Bare [-a-zA-Z0-9_]; Basic '"'#1; Literal [']#1; Blank [ \t]

  $ pegtool parse examples/toml.peg examples/toml/no_match_inline_line_end.txt
  {"expected":[[529,542],[622,625],[759,762],[1162,1167]],"far":11,"result":"failed"}
  [1]

At position 5: no digit follows a zero.
Terminals: Number '.' [eE]; Comment '#'; Blank [ \t]; LineEnd '\n' '\r\n'

  $ pegtool parse examples/toml.peg examples/toml/no_match_leading_zero.txt
  {"expected":[[997,1000],[1011,1015],[1119,1122],[1162,1167],[1181,1185],[1188,1194]],"far":5,"result":"failed"}
  [1]

These four files have a case for each of the 89 example texts that don't match.

  $ find examples/ -name 'no_match*' | wc -l
  89
  $ for topic in furthest furthest_in_formats furthest_in_code furthest_in_bytes; do
  > grep '^  [$] pegtool' "$TOP/tests/cases/examples/$topic.t"; done | grep -o 'examples/[^ ]*$' | sort > cases.txt
  > find examples/ -name 'no_match*' | sort | diff - cases.txt
