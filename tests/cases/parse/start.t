The rule that a parse starts from: the option --start.

From the rule B the text bc matches with a B inside, for each capacity of the memo.

  $ printf "D <- &(A !'b') 'a'* B !.\nA <- 'a' A 'b' / ''\nB <- 'b' B 'c' / ''\n" > abc.peg
  $ for memo in 0 1 4096; do printf bc | pegtool parse abc.peg /dev/stdin --start B --memo $memo; done
  {"consumed":2,"expected":[[50,53]],"far":1,"result":"matched","tree":{"children":[{"children":[],"end":1,"rule":"B","start":1}],"end":2,"rule":"B","start":0}}
  {"consumed":2,"expected":[[50,53]],"far":1,"result":"matched","tree":{"children":[{"children":[],"end":1,"rule":"B","start":1}],"end":2,"rule":"B","start":0}}
  {"consumed":2,"expected":[[50,53]],"far":1,"result":"matched","tree":{"children":[{"children":[],"end":1,"rule":"B","start":1}],"end":2,"rule":"B","start":0}}

An array is no object, and the grammar of JSON has no rule for tables.

  $ printf '["a"]' > array.txt
  $ pegtool parse examples/json.peg array.txt --start Array > /dev/null
  $ pegtool parse examples/json.peg array.txt --start Object > /dev/null
  [1]

  $ pegtool parse examples/json.peg array.txt --start Table
  {"name":"Table","refusal":"NoSuchStart"}
  [3]

A name that no rule has is reported as it was given, for each capacity of the memo.

  $ echo "S <- 'a'" > one.peg; printf a > a.txt
  $ cat > each_memo <<'END'
  > for memo in 0 1 4096; do pegtool parse one.peg a.txt --start "$1" --memo $memo; echo $?; done | sort | uniq -c |
  >   sed 's/^ *//'
  > END
  $ bash each_memo T
  3 3
  3 {"name":"T","refusal":"NoSuchStart"}

Case matters in names, and neither a space nor the empty name is a name of a rule.

  $ bash each_memo s
  3 3
  3 {"name":"s","refusal":"NoSuchStart"}

  $ bash each_memo 'S '
  3 3
  3 {"name":"S ","refusal":"NoSuchStart"}

  $ bash each_memo ''
  3 3
  3 {"name":"","refusal":"NoSuchStart"}

Quotes, backslashes and control characters are escaped in a string of JSON (RFC 8259, section 7).

  $ bash each_memo '"S"'
  3 3
  3 {"name":"\"S\"","refusal":"NoSuchStart"}

  $ bash each_memo 'a\b'
  3 3
  3 {"name":"a\\b","refusal":"NoSuchStart"}

  $ bash each_memo $'\x01\x1f'
  3 3
  3 {"name":"\u0001\u001f","refusal":"NoSuchStart"}

  $ bash each_memo $'\b\t\n\f\r'
  3 3
  3 {"name":"\b\t\n\f\r","refusal":"NoSuchStart"}

A slash, the byte 127 and a letter beyond ASCII stand for themselves (RFC 8259, section 7).

  $ bash each_memo $'/\x7f\xc3\xa9' | tail -n 1 | od -An -c
     3       {   "   n   a   m   e   "   :   "   / 177 303 251   "
     ,   "   r   e   f   u   s   a   l   "   :   "   N   o   S   u
     c   h   S   t   a   r   t   "   }  \n

An unknown start is reported before a limit of steps that no parse could keep.

  $ echo "A <- '(' A ')' 'x' / '(' A ')' 'y' / 'a'" > twice.peg
  $ printf '(a)y' | pegtool parse twice.peg /dev/stdin --start T --memo 0 --steps 1
  {"name":"T","refusal":"NoSuchStart"}
  [3]
