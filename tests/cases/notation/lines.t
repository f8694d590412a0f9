Lines and columns of places in grammar files; lines end with CR LF, LF or CR.

CR LF is one line end, LF CR are two, and CR CR LF are two (worked out by hand).

  $ printf '#\r\n=' | pegtool check /dev/stdin
  {"at":3,"column":1,"line":2,"refusal":"Syntax"}
  [2]
  $ printf '#\r\n =' | pegtool check /dev/stdin
  {"at":4,"column":2,"line":2,"refusal":"Syntax"}
  [2]
  $ printf '#\r\n#\n=' | pegtool check /dev/stdin
  {"at":5,"column":1,"line":3,"refusal":"Syntax"}
  [2]
  $ printf '#\r\n#\n\r=' | pegtool check /dev/stdin
  {"at":6,"column":1,"line":4,"refusal":"Syntax"}
  [2]
  $ printf '#\r\n#\n\r #\r=' | pegtool check /dev/stdin
  {"at":9,"column":1,"line":5,"refusal":"Syntax"}
  [2]
  $ printf '#\r\n#\n\r#\r=' | pegtool check /dev/stdin
  {"at":8,"column":1,"line":5,"refusal":"Syntax"}
  [2]
  $ printf '#\r\n#\n\r#\r\r\n=' | pegtool check /dev/stdin
  {"at":10,"column":1,"line":6,"refusal":"Syntax"}
  [2]
  $ printf '#\r\n#\n\r#\r\r\n =' | pegtool check /dev/stdin
  {"at":11,"column":2,"line":6,"refusal":"Syntax"}
  [2]

An empty file has one place.

  $ printf '' | pegtool check /dev/stdin
  {"at":0,"column":1,"line":1,"refusal":"Syntax"}
  [2]

After a line end the end of the file is the start of a line.

  $ printf 'A <- (\n' | pegtool check /dev/stdin
  {"at":7,"column":1,"line":2,"refusal":"Syntax"}
  [2]
  $ printf '\r\n' | pegtool check /dev/stdin
  {"at":2,"column":1,"line":2,"refusal":"Syntax"}
  [2]
  $ printf '\n\r' | pegtool check /dev/stdin
  {"at":2,"column":1,"line":3,"refusal":"Syntax"}
  [2]

Spacing counts for the column.

  $ printf 'A <-\r\n  ?' | pegtool check /dev/stdin
  {"at":8,"column":3,"line":2,"refusal":"Syntax"}
  [2]
