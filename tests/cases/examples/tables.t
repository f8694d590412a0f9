The tables of the example grammars: what each rule can do (Ford 2004, section 3.5). They are worked out by hand.

The script prints the outcomes of each rule: 0 for nothing, 1 for something, f for failure.

  $ cat > outcomes <<'END'
  > pegtool table examples/$1.peg | grep -o '{"fails"[^}]*}' | tr -d '{}"' | sed 's/[a-z]*://g' | tr , ' ' |
  >   while read -r fails nothing rule something; do
  >     outcomes=
  >     [ $nothing = true ] && outcomes=0
  >     [ $something = true ] && outcomes=${outcomes}1
  >     [ $fails = true ] && outcomes=${outcomes}f
  >     echo "$rule $outcomes"
  >   done
  > END

A calculation can fail or consume, and only its spacing never fails.

  $ bash outcomes arithmetic
  Calculation 1f
  Sum 1f
  Product 1f
  Value 1f
  Number 1f
  AddSign 1f
  MultiplySign 1f
  Spacing 01

A file may be empty, a record and a field never fail, and other rules consume a byte.

  $ bash outcomes csv
  File 01f
  Record 01
  Field 01
  Quoted 1f
  Plain 1f
  LineEnd 1f

A line may be empty and a value too, and a file fails where something else is left.

  $ bash outcomes ini
  File 01f
  Line 01
  Section 1f
  SectionName 1f
  Comment 1f
  Property 1f
  Key 1f
  Value 01
  LineEnd 1f
  Space 1f

Every rule but the spacing consumes a byte or fails.

  $ bash outcomes json
  JSON 1f
  Value 1f
  Object 1f
  Member 1f
  Array 1f
  String 1f
  Char 1f
  Number 1f
  Hex 1f
  Spacing 01

The parts after the scheme may be empty, and they never fail.

  $ bash outcomes uri
  URI 1f
  Scheme 1f
  Hierarchy 01
  Authority 01
  UserInfo 01
  Host 01
  Port 01
  Segment 01
  Query 01
  Fragment 01
  Character 1f
  Unreserved 1f
  Escape 1f
  Hex 1f
  Delimiter 1f

Each of these grammars is accepted, with this number of rules.

  $ pegtool check examples/arithmetic.peg
  {"result":"accepted","rules":8}

  $ pegtool check examples/csv.peg
  {"result":"accepted","rules":6}

  $ pegtool check examples/ini.peg
  {"result":"accepted","rules":10}

  $ pegtool check examples/json.peg
  {"result":"accepted","rules":10}

  $ pegtool check examples/notation.peg
  {"result":"accepted","rules":31}

  $ pegtool check examples/uri.peg
  {"result":"accepted","rules":15}

The metagrammar has a table, too.

  $ pegtool table examples/notation.peg > /dev/null

Without the two lines of its comment the metagrammar has 1086 bytes, and it matches itself to the end.

  $ tail -n +3 examples/notation.peg > figure.peg; wc -c < figure.peg
  1086

  $ pegtool check figure.peg
  {"result":"accepted","rules":31}

  $ pegtool parse figure.peg figure.peg --all --rows > line
  $ grep -o '^{"consumed":1086,"expected":\[\[' line
  {"consumed":1086,"expected":[[

  $ grep -o '\]\],"far":1086,"result":"matched","rows":\[\[1,"Grammar",0,1086\],' line
  ]],"far":1086,"result":"matched","rows":[[1,"Grammar",0,1086],
