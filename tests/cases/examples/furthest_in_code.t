The furthest failure of each example text that doesn't match, of languages and the cookbook. All are worked out by
hand from the grammar and the text: the terminals that fail there, by the rules where they stand, and with a number
where the rule has the terminal more than once. A span is the place of a terminal in the grammar file.

At position 7: a line of code isn't indented by a tab; without one it would be a line of blanks.
Terminals: Blank [ \t]; Comment '#'; LineEnd '\r\n' '\n'

  $ pegtool parse examples/layout.peg examples/layout/no_match_tab.txt
  {"expected":[[694,699],[712,715],[741,747],[750,754]],"far":7,"result":"failed"}
  [1]

At position 6: the line ends within quotes.
Terminals: String '"'#2

  $ pegtool parse examples/layout.peg examples/layout/no_match_open_string.txt
  {"expected":[[598,601]],"far":6,"result":"failed"}
  [1]

At position 1: neither a name nor a number: `!NameByte` fails there without a terminal of its own.
Terminals: Number [0-9]

  $ pegtool parse examples/layout.peg examples/layout/no_match_digit_first.txt
  {"expected":[[551,556]],"far":1,"result":"failed"}
  [1]

At position 3: `!` alone is no sign.
Terminals: Sign '!='

  $ pegtool parse examples/layout.peg examples/layout/no_match_half_sign.txt
  {"expected":[[621,625]],"far":3,"result":"failed"}
  [1]

At position 2: no token begins with `@`.
Terminals: Keyword 'if' 'else' 'while' 'def' 'return' 'pass'; Name [0-9]; Number [0-9]; String '"'#1; Sign '==' '!='
'<=' '>=' [-+*/%=<>(),:]; NameByte [a-zA-Z0-9_]; Blank [ \t]; Comment '#'; LineEnd '\r\n' '\n'

  $ pegtool parse examples/layout.peg examples/layout/no_match_no_token.txt
  {"expected":[[447,451],[454,460],[463,470],[473,478],[481,489],[492,498],[523,528],[551,556],[580,583],[614,618],[621,625],[628,632],[635,639],[642,656],[669,681],[694,699],[712,715],[741,747],[750,754]],"far":2,"result":"failed"}
  [1]

At position 3: a condition is in parentheses.
Terminals: If '('; _ [ \t\r\n] '/*' '//'

  $ pegtool parse examples/c.peg examples/c/no_match_no_parenthesis.txt
  {"expected":[[392,395],[2881,2890],[2893,2897],[2916,2920]],"far":3,"result":"failed"}
  [1]

At position 11: the text ends within a comment.
Terminals: _ '*/'#1 .#1 '*/'#2

  $ pegtool parse examples/c.peg examples/c/no_match_open_comment.txt
  {"expected":[[2900,2904],[2905,2906],[2909,2913]],"far":11,"result":"failed"}
  [1]

At position 6: the statement continues with an operator, or ends.
Terminals: Simple ';'; Expression ','; AssignSign '<<=' '>>=' [-+*/%&^|] '='#2; Conditional '?'; Or '||'; And '&&';
BitOr '|'; BitXor '^'; BitAnd '&'; Equality '==' '!='; Relation '<=' '>=' '<'#1 '>'#1; Shift '<<' '>>'; Sum [-+];
Product [*/%]; Postfix '++' '--'; Index '['; Call '('; Member '.' '->'; _ [ \t\r\n] '/*' '//'

  $ pegtool parse examples/c.peg examples/c/no_match_no_semicolon.txt
  {"expected":[[950,953],[1095,1098],[1187,1192],[1195,1200],[1203,1213],[1220,1223],[1251,1254],[1308,1312],[1343,1347],[1381,1384],[1425,1428],[1470,1473],[1519,1523],[1526,1530],[1568,1572],[1575,1579],[1582,1585],[1593,1596],[1634,1638],[1641,1645],[1684,1688],[1727,1732],[1957,1961],[1964,1968],[1989,1992],[2027,2030],[2089,2092],[2095,2099],[2881,2890],[2893,2897],[2916,2920]],"far":6,"result":"failed"}
  [1]

At position 10: a keyword is no name; what failed furthest is the spacing after it, within `!Keyword`.
Terminals: _ [ \t\r\n] '/*' '//'

  $ pegtool parse examples/c.peg examples/c/no_match_keyword.txt
  {"expected":[[2881,2890],[2893,2897],[2916,2920]],"far":10,"result":"failed"}
  [1]

At position 6: the call continues with an operator or a comma, or is closed.
Terminals: AssignSign '<<=' '>>=' [-+*/%&^|] '='#2; Conditional '?'; Or '||'; And '&&'; BitOr '|'; BitXor '^'; BitAnd
'&'; Equality '==' '!='; Relation '<=' '>=' '<'#1 '>'#1; Shift '<<' '>>'; Sum [-+]; Product [*/%]; Postfix '++' '--';
Index '['; Call '(' ',' ')'; Member '.' '->'; Number [0-9]#1 '.'#1 [eE] [uUlLfF]; Stop [a-zA-Z0-9_]; _ [ \t\r\n] '/*'
'//'

  $ pegtool parse examples/c.peg examples/c/no_match_open_call.txt
  {"expected":[[1187,1192],[1195,1200],[1203,1213],[1220,1223],[1251,1254],[1308,1312],[1343,1347],[1381,1384],[1425,1428],[1470,1473],[1519,1523],[1526,1530],[1568,1572],[1575,1579],[1582,1585],[1593,1596],[1634,1638],[1641,1645],[1684,1688],[1727,1732],[1957,1961],[1964,1968],[1989,1992],[2027,2030],[2046,2049],[2067,2070],[2089,2092],[2095,2099],[2587,2592],[2595,2598],[2609,2613],[2643,2651],[2850,2862],[2881,2890],[2893,2897],[2916,2920]],"far":6,"result":"failed"}
  [1]

At position 7: the text ends where a statement has to begin, or the block to end.
Terminals: Block '{' '}'; If 'if'; While 'while'; Do 'do'; For 'for'; Return 'return'; Jump 'break' 'continue'; Simple
';'; Cast '('; Unary '++' '--' [-+!~*&] 'sizeof'; Primary '('; TypeWord 'const' 'unsigned' 'signed' 'void' 'char'
'short' 'int' 'long' 'float' 'double'; Name [a-zA-Z_]; Keyword 'if' 'else' 'while' 'do' 'for' 'return' 'break'
'continue' 'sizeof'; Number '0' [0-9]#1 '.'#2; Character [']#1; String '"'#1; _ [ \t\r\n] '/*' '//'

  $ pegtool parse examples/c.peg examples/c/no_match_open_block.txt
  {"expected":[[344,347],[361,364],[382,386],[465,472],[526,530],[603,608],[704,712],[752,759],[762,772],[950,953],[1762,1765],[1812,1816],[1819,1823],[1835,1843],[1853,1861],[2160,2163],[2276,2283],[2286,2296],[2299,2307],[2310,2316],[2319,2325],[2328,2335],[2338,2343],[2346,2352],[2355,2362],[2365,2373],[2404,2413],[2446,2450],[2453,2459],[2462,2469],[2472,2476],[2479,2484],[2487,2495],[2498,2505],[2508,2518],[2521,2529],[2563,2566],[2587,2592],[2631,2634],[2673,2676],[2721,2724],[2881,2890],[2893,2897],[2916,2920]],"far":7,"result":"failed"}
  [1]

At position 2: a keyword is no name; `WordByte` failed after it, within `!Keyword`.
Terminals: WordByte [a-zA-Z0-9_]

  $ pegtool parse examples/cookbook/keywords.peg examples/cookbook/keywords/no_match_keyword.txt
  {"expected":[[392,404]],"far":2,"result":"failed"}
  [1]

At position 7: a name must follow `return`.
Terminals: Identifier [a-zA-Z_]; Keyword 'return' 'if' 'else'; Spacing [ \t\r\n]

  $ pegtool parse examples/cookbook/keywords.peg examples/cookbook/keywords/no_match_no_name.txt
  {"expected":[[267,276],[310,318],[321,325],[328,334],[419,428]],"far":7,"result":"failed"}
  [1]

At position 22: the text ends within the outer comment.
Terminals: BlockComment '/*' '*/'#1 . '*/'#2

  $ pegtool parse examples/cookbook/spacing.peg examples/cookbook/spacing/no_match_open_comment.txt
  {"expected":[[309,313],[331,335],[336,337],[340,344]],"far":22,"result":"failed"}
  [1]

At position 4: a product must follow a sign.
Terminals: Atom '('; Number [0-9]; Minus '-'; Spacing [ \t\r\n]

  $ pegtool parse examples/cookbook/ladder.peg examples/cookbook/ladder/no_match_two_signs.txt
  {"expected":[[387,390],[431,436],[512,515],[568,577]],"far":4,"result":"failed"}
  [1]

At position 4: an item must follow the comma.
Terminals: Item [a-z]; Spacing [ \t\r\n]

  $ pegtool parse examples/cookbook/lists.peg examples/cookbook/lists/no_match_comma_last.txt
  {"expected":[[459,464],[512,521]],"far":4,"result":"failed"}
  [1]

At position 3: an item follows a comma, or the array is closed.
Terminals: Array ']'; Item [a-z]; Spacing [ \t\r\n]

  $ pegtool parse examples/cookbook/lists.peg examples/cookbook/lists/no_match_two_commas.txt
  {"expected":[[285,288],[459,464],[512,521]],"far":3,"result":"failed"}
  [1]

At position 5: the last item has no semicolon.
Terminals: Block ';'; Item [a-z]; Spacing [ \t\r\n]

  $ pegtool parse examples/cookbook/lists.peg examples/cookbook/lists/no_match_no_semicolon.txt
  {"expected":[[376,379],[459,464],[512,521]],"far":5,"result":"failed"}
  [1]

At position 3: there is no such escape.
Terminals: Escape ["\\nt] 'x'

  $ pegtool parse examples/cookbook/strings.peg examples/cookbook/strings/no_match_bad_escape.txt
  {"expected":[[309,316],[319,322]],"far":3,"result":"failed"}
  [1]

At position 2: the text ends within quotes.
Terminals: Escaped '"'#2; Escape '\\'; Plain ["\\\n] .

  $ pegtool parse examples/cookbook/strings.peg examples/cookbook/strings/no_match_open_string.txt
  {"expected":[[288,291],[303,307],[345,352],[353,354]],"far":2,"result":"failed"}
  [1]

At position 8: the text ends within a block.
Terminals: Finish 'end'; Line .; LineEnd '\n'

  $ pegtool parse examples/cookbook/lookahead.peg examples/cookbook/lookahead/no_match_open_block.txt
  {"expected":[[331,336],[366,367],[389,393]],"far":8,"result":"failed"}
  [1]

At position 3: neither x nor y follows the parenthesis.
Terminals: A 'x' 'y'

  $ pegtool parse examples/cookbook/memo.peg examples/cookbook/memo/no_match_other_end.txt
  {"expected":[[150,153],[166,169]],"far":3,"result":"failed"}
  [1]
