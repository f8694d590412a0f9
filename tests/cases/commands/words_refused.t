Command lines that are refused: exit status 3 and nothing on standard output; standard error has the fault and points
at the help of the command that was meant.

The first word is the command; another word there gets the form of parse.

  $ pegtool tables 2> e
  [3]
  $ grep -o -e "unrecognized subcommand 'tables'" -e "'--help'" -e 'pegtool parse G T' e
  unrecognized subcommand 'tables'
  '--help'
  pegtool parse G T
  $ pegtool help 2> e
  [3]
  $ grep -o -e "unrecognized subcommand 'help'" -e "'--help'" -e 'pegtool parse G T' e
  unrecognized subcommand 'help'
  '--help'
  pegtool parse G T
  $ pegtool --start 2> e
  [3]
  $ grep -o -e "unexpected argument '--start'" -e "'--help'" -e 'pegtool parse G T' e
  unexpected argument '--start'
  '--help'
  pegtool parse G T
  $ pegtool g.peg text 2> e
  [3]
  $ grep -o -e "unrecognized subcommand 'g\.peg'" -e "'--help'" -e 'pegtool parse G T' e
  unrecognized subcommand 'g.peg'
  '--help'
  pegtool parse G T
  $ pegtool --rows g t 2> e
  [3]
  $ grep -o -e "unexpected argument '--rows'" -e "'--help'" -e 'pegtool parse G T' e
  unexpected argument '--rows'
  '--help'
  pegtool parse G T

These commands need a grammar file, which is G in the message.

  $ pegtool check 2> e
  [3]
  $ grep -o -e '  <G>' -e 'pegtool [a-z]* --help' e
    <G>
  pegtool check --help
  $ pegtool table 2> e
  [3]
  $ grep -o -e '  <G>' -e 'pegtool [a-z]* --help' e
    <G>
  pegtool table --help
  $ pegtool code 2> e
  [3]
  $ grep -o -e '  <G>' -e 'pegtool [a-z]* --help' e
    <G>
  pegtool code --help
  $ pegtool lint 2> e
  [3]
  $ grep -o -e '  <G>' -e 'pegtool [a-z]* --help' e
    <G>
  pegtool lint --help

These commands read one grammar file, and a second file is one too many.

  $ pegtool table x y 2> e
  [3]
  $ grep -o -e "unexpected argument 'y'" -e 'pegtool [a-z]* --help' e
  unexpected argument 'y'
  pegtool table --help
  $ pegtool lint x y 2> e
  [3]
  $ grep -o -e "unexpected argument 'y'" -e 'pegtool [a-z]* --help' e
  unexpected argument 'y'
  pegtool lint --help

An option that only another command has is unexpected, before or after the file.

  $ pegtool table --all x 2> e
  [3]
  $ grep -o -e "unexpected argument '--all'" -e 'pegtool [a-z]* --help' e
  unexpected argument '--all'
  pegtool table --help
  $ pegtool code --all x 2> e
  [3]
  $ grep -o -e "unexpected argument '--all'" -e 'pegtool [a-z]* --help' e
  unexpected argument '--all'
  pegtool code --help
  $ pegtool lint x --all 2> e
  [3]
  $ grep -o -e "unexpected argument '--all'" -e 'pegtool [a-z]* --help' e
  unexpected argument '--all'
  pegtool lint --help
  $ pegtool lint g --show A 2> e
  [3]
  $ grep -o -e "unexpected argument '--show'" -e 'pegtool [a-z]* --help' e
  unexpected argument '--show'
  pegtool lint --help

The option for the start of lint needs a name after it.

  $ pegtool lint x --start 2> e
  [3]
  $ grep -o -e "a value is required for '--start <NAME>'" -e 'pegtool [a-z]* --help' e
  a value is required for '--start <NAME>'
  pegtool lint --help

A parse needs a grammar and a text, and takes no second text.

  $ pegtool parse g 2> e
  [3]
  $ grep -o -e '  <T>' -e 'pegtool [a-z]* --help' e
    <T>
  pegtool parse --help
  $ pegtool parse g t u 2> e
  [3]
  $ grep -o -e "^error: .*" -e 'pegtool [a-z]* --help' e
  error: without '--lines', parse reads one text
  pegtool parse --help

The options for records need --lines; the line and the list after it are clap's text for MissingRequiredArgument.

  $ pegtool parse g t --failed > o 2> e
  [3]
  $ cat o; grep -o -e '^error: .*' -e '^  --lines' e
  error: the following required arguments were not provided:
    --lines
  $ pegtool parse g t --matched 2> e
  [3]
  $ grep -o -e '^  --lines' e
    --lines
  $ pegtool parse g t --null 2> e
  [3]
  $ grep -o -e '^  --lines' e
    --lines
  $ pegtool parse g t --crlf 2> e
  [3]
  $ grep -o -e '^  --lines' e
    --lines

A record ends at a line end or at a zero byte, and is asked for because it matches or because it doesn't.

  $ pegtool parse g t --lines --null --crlf 2> e
  [3]
  $ grep -o -e 'cannot be used with' -e 'pegtool [a-z]* --help' e
  cannot be used with
  pegtool parse --help
  $ pegtool parse g t --lines --matched --failed 2> e
  [3]
  $ grep -o -e 'cannot be used with' -e 'pegtool [a-z]* --help' e
  cannot be used with
  pegtool parse --help

The capacity of the memo is a number from 0 to 1,000,000, given once.

  $ pegtool parse g t --memo 2> e
  [3]
  $ grep -o -e "a value is required for '--memo <N>'" -e 'pegtool [a-z]* --help' e
  a value is required for '--memo <N>'
  pegtool parse --help
  $ pegtool parse g t --memo 1000001 2> e
  [3]
  $ grep -o -e '1000001 is not in 0\.\.=1000000' -e 'pegtool [a-z]* --help' e
  1000001 is not in 0..=1000000
  pegtool parse --help
  $ pegtool parse g t --memo -1 2> e
  [3]
  $ grep -o -e '-1 is not in 0\.\.=1000000' -e 'pegtool [a-z]* --help' e
  -1 is not in 0..=1000000
  pegtool parse --help
  $ pegtool parse g t --memo x 2> e
  [3]
  $ grep -o -e "invalid value 'x' for '--memo <N>'" -e 'pegtool [a-z]* --help' e
  invalid value 'x' for '--memo <N>'
  pegtool parse --help
  $ pegtool parse g t --memo 1 --memo 2 2> e
  [3]
  $ grep -o -e "'--memo <N>' cannot be used multiple times" -e 'pegtool [a-z]* --help' e
  '--memo <N>' cannot be used multiple times
  pegtool parse --help

The step limit is a number from 1 to 1,000,000,000,000, given once.

  $ pegtool parse g t --steps 2> e
  [3]
  $ grep -o -e "a value is required for '--steps <N>'" -e 'pegtool [a-z]* --help' e
  a value is required for '--steps <N>'
  pegtool parse --help
  $ pegtool parse g t --steps 0 2> e
  [3]
  $ grep -o -e '0 is not in 1\.\.=1000000000000' -e 'pegtool [a-z]* --help' e
  0 is not in 1..=1000000000000
  pegtool parse --help
  $ pegtool parse g t --steps 1000000000001 2> e
  [3]
  $ grep -o -e '1000000000001 is not in 1\.\.=1000000000000' -e 'pegtool [a-z]* --help' e
  1000000000001 is not in 1..=1000000000000
  pegtool parse --help
  $ pegtool parse g t --steps -1 2> e
  [3]
  $ grep -o -e "invalid value '-1' for '--steps <N>'" -e 'pegtool [a-z]* --help' e
  invalid value '-1' for '--steps <N>'
  pegtool parse --help
  $ pegtool parse g t --steps x 2> e
  [3]
  $ grep -o -e "invalid value 'x' for '--steps <N>'" -e 'pegtool [a-z]* --help' e
  invalid value 'x' for '--steps <N>'
  pegtool parse --help
  $ pegtool parse g t --steps 1 --steps 2 2> e
  [3]
  $ grep -o -e "'--steps <N>' cannot be used multiple times" -e 'pegtool [a-z]* --help' e
  '--steps <N>' cannot be used multiple times
  pegtool parse --help

Two options that say opposite things about the printed nodes aren't allowed together.

  $ pegtool parse g t --rows --no-tree 2> e
  [3]
  $ grep -o -e 'cannot be used with' -e 'pegtool [a-z]* --help' e
  cannot be used with
  pegtool parse --help
  $ pegtool parse g t --show A --hide B 2> e
  [3]
  $ grep -o -e 'cannot be used with' -e 'pegtool [a-z]* --help' e
  cannot be used with
  pegtool parse --help
  $ pegtool parse g t --hide B --show A 2> e
  [3]
  $ grep -o -e 'cannot be used with' -e 'pegtool [a-z]* --help' e
  cannot be used with
  pegtool parse --help

A list of rules needs its names, and is given once.

  $ pegtool parse g t --show 2> e
  [3]
  $ grep -o -e "a value is required for '--show <LIST>'" -e 'pegtool [a-z]* --help' e
  a value is required for '--show <LIST>'
  pegtool parse --help
  $ pegtool parse g t --hide A --hide B 2> e
  [3]
  $ grep -o -e "'--hide <LIST>' cannot be used multiple times" -e 'pegtool [a-z]* --help' e
  '--hide <LIST>' cannot be used multiple times
  pegtool parse --help

A profile needs a text after the grammar, also for the coverage.

  $ pegtool profile g 2> e
  [3]
  $ grep -o -e '  <T>\.\.\.' -e 'pegtool [a-z]* --help' e
    <T>...
  pegtool profile --help
  $ pegtool profile g --coverage 2> e
  [3]
  $ grep -o -e '  <T>\.\.\.' -e 'pegtool [a-z]* --help' e
    <T>...
  pegtool profile --help

Several texts need the option for coverage; the whole message says so.

  $ pegtool profile g t u 2> e
  [3]
  $ cat -A e
  error: without '--coverage', profile reads one text$
  $
  For more information, try '--help'.$
  For this command: pegtool profile --help$
  $ pegtool profile g t --memo 9 t 2> e
  [3]
  $ cat -A e
  error: without '--coverage', profile reads one text$
  $
  For more information, try '--help'.$
  For this command: pegtool profile --help$

The option for coverage is given once, and only to profile.

  $ pegtool profile g t --coverage --coverage 2> e
  [3]
  $ grep -o -e "'--coverage' cannot be used multiple times" -e 'pegtool [a-z]* --help' e
  '--coverage' cannot be used multiple times
  pegtool profile --help
  $ pegtool parse g t --coverage 2> e
  [3]
  $ grep -o -e "unexpected argument '--coverage'" -e 'pegtool [a-z]* --help' e
  unexpected argument '--coverage'
  pegtool parse --help

A prefix counts for the coverage alone. The line and the list after it are clap's text for MissingRequiredArgument.

  $ pegtool profile g t --prefix > o 2> e
  [3]
  $ cat o; grep -o -e '^error: .*' -e '^  --coverage' e
  error: the following required arguments were not provided:
    --coverage

Records count for the coverage alone, and how they end for records alone.

  $ pegtool profile g t --lines > o 2> e
  [3]
  $ cat o; grep -o -e '^error: .*' -e '^  --coverage' e
  error: the following required arguments were not provided:
    --coverage
  $ pegtool profile g t --coverage --null 2> e
  [3]
  $ grep -o -e '^  --lines' e
    --lines
  $ pegtool profile g t --coverage --crlf 2> e
  [3]
  $ grep -o -e '^  --lines' e
    --lines
  $ pegtool profile g t --coverage --lines --null --crlf 2> e
  [3]
  $ grep -o -e 'cannot be used with' -e 'pegtool [a-z]* --help' e
  cannot be used with
  pegtool profile --help

An explanation needs a grammar file, with any of the other options, too.

  $ pegtool explain 2> e
  [3]
  $ grep -o -e '  <G>' -e 'pegtool [a-z]* --help' e
    <G>
  pegtool explain --help
  $ pegtool explain --quiet 2> e
  [3]
  $ grep -o -e '  <G>' -e 'pegtool [a-z]* --help' e
    <G>
  pegtool explain --help
  $ pegtool explain --files-from list 2> e
  [3]
  $ grep -o -e '  <G>' -e 'pegtool [a-z]* --help' e
    <G>
  pegtool explain --help

The option --null is about the names of a list, so it needs one.

  $ pegtool explain g --null 2> e
  [3]
  $ grep -o -e '  --files-from <FILE>' -e 'pegtool [a-z]* --help' e
    --files-from <FILE>
  pegtool explain --help
  $ pegtool explain g t u --null 2> e
  [3]
  $ grep -o -e '  --files-from <FILE>' -e 'pegtool [a-z]* --help' e
    --files-from <FILE>
  pegtool explain --help

An option of parse and a word with one dash are unexpected.

  $ pegtool explain g --rows 2> e
  [3]
  $ grep -o -e "unexpected argument '--rows'" -e 'pegtool [a-z]* --help' e
  unexpected argument '--rows'
  pegtool explain --help
  $ pegtool explain g -t 2> e
  [3]
  $ grep -o -e "unexpected argument '-t'" -e 'pegtool [a-z]* --help' e
  unexpected argument '-t'
  pegtool explain --help

A list needs its name, and only one list and one --quiet may be given.

  $ pegtool explain g --files-from 2> e
  [3]
  $ grep -o -e "a value is required for '--files-from <FILE>'" -e 'pegtool [a-z]* --help' e
  a value is required for '--files-from <FILE>'
  pegtool explain --help
  $ pegtool explain g --files-from a --files-from b 2> e
  [3]
  $ grep -o -e "'--files-from <FILE>' cannot be used multiple times" -e 'pegtool [a-z]* --help' e
  '--files-from <FILE>' cannot be used multiple times
  pegtool explain --help
  $ pegtool explain g --quiet --quiet 2> e
  [3]
  $ grep -o -e "'--quiet' cannot be used multiple times" -e 'pegtool [a-z]* --help' e
  '--quiet' cannot be used multiple times
  pegtool explain --help

The ranges of the memo and of the steps are those of parse.

  $ pegtool explain g --memo 1000001 2> e
  [3]
  $ grep -o -e '1000001 is not in 0\.\.=1000000' -e 'pegtool [a-z]* --help' e
  1000001 is not in 0..=1000000
  pegtool explain --help
  $ pegtool explain g --memo -1 2> e
  [3]
  $ grep -o -e '-1 is not in 0\.\.=1000000' -e 'pegtool [a-z]* --help' e
  -1 is not in 0..=1000000
  pegtool explain --help
  $ pegtool explain g t --steps 0 2> e
  [3]
  $ grep -o -e '0 is not in 1\.\.=1000000000000' -e 'pegtool [a-z]* --help' e
  0 is not in 1..=1000000000000
  pegtool explain --help
  $ pegtool explain g t --steps 1000000000001 2> e
  [3]
  $ grep -o -e '1000000000001 is not in 1\.\.=1000000000000' -e 'pegtool [a-z]* --help' e
  1000000000001 is not in 1..=1000000000000
  pegtool explain --help

The option for the start of explain needs a name after it.

  $ pegtool explain g --start 2> e
  [3]
  $ grep -o -e "a value is required for '--start <NAME>'" -e 'pegtool [a-z]* --help' e
  a value is required for '--start <NAME>'
  pegtool explain --help
