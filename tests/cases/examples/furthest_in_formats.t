The furthest failure of each example text that doesn't match, of short formats and lines. All are worked out by hand
from the grammar and the text: the terminals that fail there, by the rules where they stand, and with a number where
the rule has the terminal more than once. A span is the place of a terminal in the grammar file.

At position 11: the second digit of an escape is missing.
Terminals: Hex [0-9a-fA-F]

  $ pegtool parse examples/uri.peg examples/uri/no_match_half_escape.txt
  {"expected":[[789,800]],"far":11,"result":"failed"}
  [1]

At position 0: a scheme begins with a letter.
Terminals: Scheme [a-zA-Z]

  $ pegtool parse examples/uri.peg examples/uri/no_match_no_scheme.txt
  {"expected":[[189,197]],"far":0,"result":"failed"}
  [1]

At position 3: the third number is missing.
Terminals: Version '.'#2; Number [0-9]

  $ pegtool parse examples/semver.peg examples/semver/no_match_two_numbers.txt
  {"expected":[[86,89],[158,163]],"far":3,"result":"failed"}
  [1]

At position 3: no digit follows a zero: the choice has taken `'0'`.
Terminals: Version '.'#2

  $ pegtool parse examples/semver.peg examples/semver/no_match_leading_zero.txt
  {"expected":[[86,89]],"far":3,"result":"failed"}
  [1]

At position 8: with a letter after them, 01 would be a part; as a number it ends at 7.
Terminals: Part [0-9] [-a-zA-Z]

  $ pegtool parse examples/semver.peg examples/semver/no_match_zero_in_part.txt
  {"expected":[[210,215],[217,226]],"far":8,"result":"failed"}
  [1]

At position 6: the build is missing.
Terminals: Word [-a-zA-Z0-9]

  $ pegtool parse examples/semver.peg examples/semver/no_match_no_build.txt
  {"expected":[[351,363]],"far":6,"result":"failed"}
  [1]

At position 4: the third number is none.
Terminals: Number '0' [1-9]

  $ pegtool parse examples/semver.peg examples/semver/no_match_letter.txt
  {"expected":[[146,149],[152,157]],"far":4,"result":"failed"}
  [1]

At position 5: a version has no line end.
Terminals: Version '-' '+'

  $ pegtool parse examples/semver.peg examples/semver/no_match_line_end.txt
  {"expected":[[98,101],[116,119]],"far":5,"result":"failed"}
  [1]

At position 8: February has no 30th: neither 0, nor 1 or 2.
Terminals: Day29 '0' [12]

  $ pegtool parse examples/date.peg examples/date/no_match_february.txt
  {"expected":[[439,442],[451,455]],"far":8,"result":"failed"}
  [1]

At position 6: no month that begins with 1 continues with 3.
Terminals: MonthDay '11' '10' '12'

  $ pegtool parse examples/date.peg examples/date/no_match_month.txt
  {"expected":[[290,294],[354,358],[361,365]],"far":6,"result":"failed"}
  [1]

At position 12: hours go to 23.
Terminals: Hour [0-3]

  $ pegtool parse examples/date.peg examples/date/no_match_hour.txt
  {"expected":[[590,595]],"far":12,"result":"failed"}
  [1]

At position 19: the text ends where a fraction or a zone has to begin.
Terminals: Fraction '.'; Zone [Zz] [-+]

  $ pegtool parse examples/date.peg examples/date/no_match_no_zone.txt
  {"expected":[[663,666],[686,690],[693,697]],"far":19,"result":"failed"}
  [1]

At position 2: a year has four digits.
Terminals: Year [0-9]

  $ pegtool parse examples/date.peg examples/date/no_match_short_year.txt
  {"expected":[[223,228]],"far":2,"result":"failed"}
  [1]

At position 20: a digit must follow the point.
Terminals: Fraction [0-9]

  $ pegtool parse examples/date.peg examples/date/no_match_fraction.txt
  {"expected":[[667,672]],"far":20,"result":"failed"}
  [1]

At position 14: the line ends with LF alone.
Terminals: CRLF '\r\n'

  $ pegtool parse examples/http.peg examples/http/no_match_line_feed.txt
  {"expected":[[614,620]],"far":14,"result":"failed"}
  [1]

At position 4: a target begins after one blank.
Terminals: Target [!-~]

  $ pegtool parse examples/http.peg examples/http/no_match_two_blanks.txt
  {"expected":[[322,327]],"far":4,"result":"failed"}
  [1]

At position 35: the text ends where a field or the empty line has to begin.
Terminals: TokenByte [-a-zA-Z0-9!#$%&'*+.^_`|~]; CRLF '\r\n'

  $ pegtool parse examples/http.peg examples/http/no_match_no_empty_line.txt
  {"expected":[[555,581],[614,620]],"far":35,"result":"failed"}
  [1]

At position 20: no blank is before a colon.
Terminals: Field ':'; TokenByte [-a-zA-Z0-9!#$%&'*+.^_`|~]

  $ pegtool parse examples/http.peg examples/http/no_match_blank_before_colon.txt
  {"expected":[[384,387],[555,581]],"far":20,"result":"failed"}
  [1]

At position 12: a version has two numbers.
Terminals: Version '.'

  $ pegtool parse examples/http.peg examples/http/no_match_version.txt
  {"expected":[[356,359]],"far":12,"result":"failed"}
  [1]

At position 17: the empty line is no field; `!.` fails after it without a terminal of its own.
Terminals: TokenByte [-a-zA-Z0-9!#$%&'*+.^_`|~]

  $ pegtool parse examples/http.peg examples/http/no_match_body.txt
  {"expected":[[555,581]],"far":17,"result":"failed"}
  [1]

At position 20: a value holds no byte 1; `![\0-\40\177]` fails there without a terminal of its own.
Terminals: Blank [ \t]; CRLF '\r\n'

  $ pegtool parse examples/http.peg examples/http/no_match_control_byte.txt
  {"expected":[[595,600],[614,620]],"far":20,"result":"failed"}
  [1]

At position 23: of `Okt` the `O` is that of `Oct`, and the next byte differs.
Terminals: Month 'Oct'

  $ pegtool parse examples/log.peg examples/log/no_match_month.txt
  {"expected":[[584,589]],"far":23,"result":"failed"}
  [1]

At position 54: the line ends within quotes.
Terminals: Quoted '\\' ["\\] '"'#2

  $ pegtool parse examples/log.peg examples/log/no_match_open_request.txt
  {"expected":[[724,728],[740,745],[756,759]],"far":54,"result":"failed"}
  [1]

At position 52: a status begins with 1 to 5.
Terminals: Status [1-5]

  $ pegtool parse examples/log.peg examples/log/no_match_status.txt
  {"expected":[[800,805]],"far":52,"result":"failed"}
  [1]

At position 58: the last line has no end.
Terminals: Entry ' '#5; Size [0-9]; LineEnd '\r\n' '\n'

  $ pegtool parse examples/log.peg examples/log/no_match_last_line.txt
  {"expected":[[297,300],[828,833],[847,853],[856,860]],"far":58,"result":"failed"}
  [1]

At position 62: after the referrer the agent is required, too.
Terminals: Entry ' '#6

  $ pegtool parse examples/log.peg examples/log/no_match_no_agent.txt
  {"expected":[[310,313]],"far":62,"result":"failed"}
  [1]

At position 63: the second line has one word.
Terminals: Entry ' '#1; Word [!-~]

  $ pegtool parse examples/log.peg examples/log/no_match_second_line.txt
  {"expected":[[231,234],[393,398]],"far":63,"result":"failed"}
  [1]

At position 6: after five digits one more would make three pairs.
Terminals: Digit [0-9a-fA-F]

  $ pegtool parse examples/color.peg examples/color/no_match_five.txt
  {"expected":[[234,245]],"far":6,"result":"failed"}
  [1]

At position 0: a digit follows four pairs, and fails `!.` without a terminal of its own.

  $ pegtool parse examples/color.peg examples/color/no_match_nine.txt
  {"expected":[],"far":0,"result":"failed"}
  [1]

At position 4: g is no digit; three digits stand before it.
Terminals: Digit [0-9a-fA-F]

  $ pegtool parse examples/color.peg examples/color/no_match_letter.txt
  {"expected":[[234,245]],"far":4,"result":"failed"}
  [1]

At position 0: a colour begins with its sign.
Terminals: Color '#'

  $ pegtool parse examples/color.peg examples/color/no_match_no_sign.txt
  {"expected":[[174,177]],"far":0,"result":"failed"}
  [1]

At position 7: the first group has eight digits.
Terminals: Hex [0-9a-fA-F]

  $ pegtool parse examples/uuid.peg examples/uuid/no_match_short_group.txt
  {"expected":[[235,246]],"far":7,"result":"failed"}
  [1]

At position 19: c is another variant.
Terminals: Variant [89abAB]

  $ pegtool parse examples/uuid.peg examples/uuid/no_match_variant.txt
  {"expected":[[215,223]],"far":19,"result":"failed"}
  [1]

At position 0: a brace is no digit.
Terminals: Hex [0-9a-fA-F]

  $ pegtool parse examples/uuid.peg examples/uuid/no_match_braces.txt
  {"expected":[[235,246]],"far":0,"result":"failed"}
  [1]

At position 0: a digit follows the last group, and fails `!.` without a terminal of its own.

  $ pegtool parse examples/uuid.peg examples/uuid/no_match_long.txt
  {"expected":[],"far":0,"result":"failed"}
  [1]

At position 2: of 256 either 25 is the number, or its last digit is 5 at most.
Terminals: Address '.'; Octet [0-5]

  $ pegtool parse examples/ipv4.peg examples/ipv4/no_match_256.txt
  {"expected":[[134,137],[168,173]],"far":2,"result":"failed"}
  [1]

At position 1: the number ends after 0.
Terminals: Address '.'

  $ pegtool parse examples/ipv4.peg examples/ipv4/no_match_leading_zero.txt
  {"expected":[[134,137]],"far":1,"result":"failed"}
  [1]

At position 6: the text ends where the fourth number has to come.
Terminals: Address '.'

  $ pegtool parse examples/ipv4.peg examples/ipv4/no_match_three.txt
  {"expected":[[134,137]],"far":6,"result":"failed"}
  [1]

At position 7: the address ends after the fourth number, unless it has a second digit.
Terminals: Octet [0-9]#3

  $ pegtool parse examples/ipv4.peg examples/ipv4/no_match_five.txt
  {"expected":[[215,220]],"far":7,"result":"failed"}
  [1]
