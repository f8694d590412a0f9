Trees whose nodes are one in the other, and trees with many nodes.

The script writes the expected line of a chain: each node starts a byte later, and all end at the end of the text.

  $ cat > chain.py <<'END'
  > import sys
  > levels, form, text = int(sys.argv[1]), sys.argv[2], sys.argv[3] == "text"
  > x = '"x"' if text else ""
  > head = f'{{"consumed":{levels},"expected":[[8,9],[17,18],[20,21]],"far":{levels},"result":"matched",'
  > if form == "rows":
  >     rows = [f'[{n + 1},"word",{n},{levels}' for n in range(levels)]
  >     print(head + '"rows":[' + "],".join(rows) + (f',{x}]' if text else "]") + "]}")
  > else:
  >     inner = f'{{"children":[],"end":{levels},"rule":"word","start":{levels - 1}' + (f',"text":{x}}}' if text else "}")
  >     ends = "".join(f'],"end":{levels},"rule":"word","start":{n}}}' for n in range(levels - 2, -1, -1))
  >     print(head + '"tree":' + '{"children":[' * (levels - 1) + inner + ends + "}")
  > END
  > echo 'word <- . word / . !.' > chain.peg; xs() { head -c "$1" /dev/zero | tr '\000' x; }; declare -f xs > xs.sh

A chain of 100 levels is 100 rows.

  $ . ./xs.sh; xs 100 | pegtool parse chain.peg /dev/stdin --rows | cmp - <(python3 chain.py 100 rows plain)

Only its last node has text, since all others have children.

  $ . ./xs.sh; xs 100 | pegtool parse chain.peg /dev/stdin --rows --text | cmp - <(python3 chain.py 100 rows text)

A chain of 60 levels is printed as nested objects, with and without text.

  $ . ./xs.sh; xs 60 | pegtool parse chain.peg /dev/stdin | cmp - <(python3 chain.py 60 nested plain)
  $ . ./xs.sh; xs 60 | pegtool parse chain.peg /dev/stdin --text | cmp - <(python3 chain.py 60 nested text)

A chain of 61 levels is too deep for nested objects, and has 61 rows.

  $ . ./xs.sh; xs 61 | pegtool parse chain.peg /dev/stdin
  {"refusal":"TooDeep"}
  [6]
  $ . ./xs.sh; xs 61 | pegtool parse chain.peg /dev/stdin --rows | cmp - <(python3 chain.py 61 rows plain)

A chain of 10,000 levels takes several pieces of output, and no row is lost between them.

  $ . ./xs.sh; xs 10000 | pegtool parse chain.peg /dev/stdin --rows | cmp - <(python3 chain.py 10000 rows plain)

Of a chain of a million nodes only the root is printed, as a row and as an object.

  $ printf 'word <- . other\nother <- . other / . !.' > million.peg
  > . ./xs.sh; xs 1000000 | pegtool parse million.peg /dev/stdin --rows --show word
  {"consumed":1000000,"expected":[[25,26],[35,36],[38,39]],"far":1000000,"result":"matched","rows":[[1,"word",0,1000000]]}
  $ . ./xs.sh; xs 1000000 | pegtool parse million.peg /dev/stdin --show word
  {"consumed":1000000,"expected":[[25,26],[35,36],[38,39]],"far":1000000,"result":"matched","tree":{"children":[],"end":1000000,"rule":"word","start":0}}

Below a root are 10,000 pairs of a hidden node and its child; each child is at level 2, and no row is lost.

  $ printf 'list <- pair*\npair <- word\nword <- .' > pairs.peg
  > . ./xs.sh; xs 10000 | pegtool parse pairs.peg /dev/stdin --rows --hide pair > line;
  >   grep -o '\[[0-9]*,"[a-z]*",[0-9]*,[0-9]*\]' line > rows
  > (echo '[1,"list",0,10000]'; seq 0 9999 | awk '{print "[2,\"word\"," $1 "," $1 + 1 "]"}') | cmp - rows

A root with 99,999 children has 100,000 rows, and the depth of 2 allows nested objects.

  $ . ./xs.sh; xs 99999 > wide.txt;
  >   pegtool parse <(printf 'list <- word*\nword <- .') wide.txt --rows | grep -o '\[[12],' | sort | uniq -c |
  >   tr -s ' '
   1 [1,
   99999 [2,
  $ pegtool parse <(printf 'list <- word*\nword <- .') wide.txt | grep -o '"rule":"[a-z]*"' | sort | uniq -c | tr -s ' '
   1 "rule":"list"
   99999 "rule":"word"

Offsets of all lengths have all their digits: after 9, 10, 99, 100, and so on up to 10,000,000.

  $ printf 'list <- (&(!.) word / . word?)*\nword <- ' > /dev/null
  > for n in 9 10 99 100 999 1000 9999 10000 99999 100000 9999999 10000000; do
  >   head -c $n /dev/zero | pegtool parse <(echo 'list <- .*') /dev/stdin --rows | grep -o '"list".*'
  > done
  "list",0,9]]}
  "list",0,10]]}
  "list",0,99]]}
  "list",0,100]]}
  "list",0,999]]}
  "list",0,1000]]}
  "list",0,9999]]}
  "list",0,10000]]}
  "list",0,99999]]}
  "list",0,100000]]}
  "list",0,9999999]]}
  "list",0,10000000]]}
