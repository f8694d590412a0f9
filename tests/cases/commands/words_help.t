The help of the program and of each command, printed with exit status 0. These parts are in it.

The short option prints the same form of a command line as the long one.

  $ pegtool -h | grep -o 'Usage: pegtool <COMMAND>'
  Usage: pegtool <COMMAND>

The help of the program names the commands, and the extensions of Ford's notation.

  $ pegtool --help > h
  $ grep -o -e 'Usage: pegtool <COMMAND>' -e "explain  Prints where texts don't match a grammar" h
  Usage: pegtool <COMMAND>
  explain  Prints where texts don't match a grammar
  $ grep -o -e '`explain`, `test` and' -e '`lint --human` print' -e 'Example: pegtool parse grammar\.peg text' h
  `explain`, `test` and
  `lint --human` print
  Example: pegtool parse grammar.peg text
  $ grep -o -e 'may be written as `\\xHH`' -e '`e{2,4}` two to four' h
  may be written as `\xHH`
  `e{2,4}` two to four

The commands with one file have a form and an example.

  $ pegtool check --help > h
  $ grep -o -e 'Usage: pegtool check <G>' -e 'Example: pegtool check grammar\.peg' h
  Usage: pegtool check <G>
  Example: pegtool check grammar.peg
  $ pegtool table --help > h
  $ grep -o -e 'Usage: pegtool table <G>' -e 'Example: pegtool table grammar\.peg' h
  Usage: pegtool table <G>
  Example: pegtool table grammar.peg
  $ pegtool code --help > h
  $ grep -o -e 'Usage: pegtool code <G>' -e 'Example: pegtool code grammar\.peg' h
  Usage: pegtool code <G>
  Example: pegtool code grammar.peg

The help of lint has its options and an example with a start.

  $ pegtool lint --help > h
  $ grep -o -e 'Usage: pegtool lint \[OPTIONS] <G>' -e '  --proved' -e '  --human' h
  Usage: pegtool lint [OPTIONS] <G>
    --proved
    --human
  $ grep -o -e 'Example: pegtool lint grammar\.peg --start Value' h
  Example: pegtool lint grammar.peg --start Value

The help of profile has several texts, the option for coverage and the defaults: that of the memo depends on it.

  $ pegtool profile --help > h
  $ grep -o -e 'Usage: pegtool profile \[OPTIONS] <G> \[T]\.\.\.' -e '  --coverage' -e '  --prefix' -e '\[default: 0, with --coverage 4096]' h
  Usage: pegtool profile [OPTIONS] <G> [T]...
    --coverage
    --prefix
  [default: 0, with --coverage 4096]
  $ grep -o -e '\[default: 1000000000]' -e 'Example: pegtool profile grammar\.peg text' h
  [default: 1000000000]
  Example: pegtool profile grammar.peg text

The help of parse has its options, the default of the memo and the refusals. With --lines there may be no text.

  $ pegtool parse --help > h
  $ grep -o -e 'Usage: pegtool parse \[OPTIONS] <G> \[T]\.\.\.' -e '\[default: 4096]' -e '--steps <N>' h
  Usage: pegtool parse [OPTIONS] <G> [T]...
  [default: 4096]
  --steps <N>
  $ grep -o -e '  --no-tree' -e '--show <LIST>' -e '--hide <LIST>' -e 'NoSuchRule, status 3' h
    --no-tree
  --show <LIST>
  --hide <LIST>
  NoSuchRule, status 3
  $ grep -o -e '--memo 0 never uses it' -e 'StepLimit, which needs a greater --steps or --memo' h
  --memo 0 never uses it
  StepLimit, which needs a greater --steps or --memo
  $ grep -o -e 'Example: pegtool parse grammar\.peg text --start Value --all --rows' h
  Example: pegtool parse grammar.peg text --start Value --all --rows

The help of explain has its options, their defaults and the form of a message. Two limits have none by default: that of
steps, and that of messages.

  $ pegtool explain --help > h
  $ grep -o -e 'Usage: pegtool explain \[OPTIONS] <G> \[T]\.\.\.' -e '--files-from <FILE>' -e '  --null' h
  Usage: pegtool explain [OPTIONS] <G> [T]...
  --files-from <FILE>
    --null
  $ grep -o -e '--start <NAME>' -e '\[default: 4096]' -e '\[default: no limit]' -e '  --rules' h
  --start <NAME>
  [default: 4096]
  [default: no limit]
    --rules
  [default: no limit]
  $ grep -o -e '  --terminals' -e '  --quiet' -e "FILE:LINE:COLUMN: expected A, B or C, found 'x'" h
    --terminals
    --quiet
  FILE:LINE:COLUMN: expected A, B or C, found 'x'
  $ grep -o -e 'Example: pegtool explain grammar\.peg \*\.txt' h
  Example: pegtool explain grammar.peg *.txt
