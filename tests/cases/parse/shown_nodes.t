Which nodes of a tree are printed: the options --show and --hide.

The tree of the text acbdd is S(A(C) B(D D)), and no terminal fails (worked out by hand).

  $ printf "S <- A B\nA <- 'a' C\nC <- 'c'\nB <- 'b' D D\nD <- 'd'\n" > letters.peg; printf acbdd > letters.txt
  $ pegtool parse letters.peg letters.txt --rows
  {"consumed":5,"expected":[],"far":0,"result":"matched","rows":[[1,"S",0,5],[2,"A",0,2],[3,"C",1,2],[2,"B",2,5],[3,"D",3,4],[3,"D",4,5]]}

The children of a hidden node take its place in the order of the text (docs/USAGE.md).

  $ pegtool parse letters.peg letters.txt --rows --hide B
  {"consumed":5,"expected":[],"far":0,"result":"matched","rows":[[1,"S",0,5],[2,"A",0,2],[3,"C",1,2],[2,"D",3,4],[2,"D",4,5]]}

  $ pegtool parse letters.peg letters.txt --rows --hide A,B
  {"consumed":5,"expected":[],"far":0,"result":"matched","rows":[[1,"S",0,5],[2,"C",1,2],[2,"D",3,4],[2,"D",4,5]]}

  $ pegtool parse letters.peg letters.txt --rows --hide C
  {"consumed":5,"expected":[],"far":0,"result":"matched","rows":[[1,"S",0,5],[2,"A",0,2],[2,"B",2,5],[3,"D",3,4],[3,"D",4,5]]}

  $ pegtool parse letters.peg letters.txt --hide B
  {"consumed":5,"expected":[],"far":0,"result":"matched","tree":{"children":[{"children":[{"children":[],"end":2,"rule":"C","start":1}],"end":2,"rule":"A","start":0},{"children":[],"end":4,"rule":"D","start":3},{"children":[],"end":5,"rule":"D","start":4}],"end":5,"rule":"S","start":0}}

The order of a list doesn't matter, and neither does a name that it has twice.

  $ pegtool parse letters.peg letters.txt --rows --hide B,A,B
  {"consumed":5,"expected":[],"far":0,"result":"matched","rows":[[1,"S",0,5],[2,"C",1,2],[2,"D",3,4],[2,"D",4,5]]}

Of the other option only the root and the nodes of the listed rules are printed.

  $ pegtool parse letters.peg letters.txt --rows --show A,D
  {"consumed":5,"expected":[],"far":0,"result":"matched","rows":[[1,"S",0,5],[2,"A",0,2],[2,"D",3,4],[2,"D",4,5]]}

  $ pegtool parse letters.peg letters.txt --rows --show D,A
  {"consumed":5,"expected":[],"far":0,"result":"matched","rows":[[1,"S",0,5],[2,"A",0,2],[2,"D",3,4],[2,"D",4,5]]}

  $ pegtool parse letters.peg letters.txt --show C
  {"consumed":5,"expected":[],"far":0,"result":"matched","tree":{"children":[{"children":[],"end":2,"rule":"C","start":1}],"end":5,"rule":"S","start":0}}

The root is printed whether its rule is listed or not, and it is the only node here.

  $ pegtool parse letters.peg letters.txt --rows --show S
  {"consumed":5,"expected":[],"far":0,"result":"matched","rows":[[1,"S",0,5]]}

  $ pegtool parse letters.peg letters.txt --rows --hide D,C,B,A
  {"consumed":5,"expected":[],"far":0,"result":"matched","rows":[[1,"S",0,5]]}

  $ pegtool parse letters.peg letters.txt --rows --hide D,C,B,A,S
  {"consumed":5,"expected":[],"far":0,"result":"matched","rows":[[1,"S",0,5]]}

A root whose rule is hidden is printed all the same, with all its nodes.

  $ pegtool parse letters.peg letters.txt --rows --hide S
  {"consumed":5,"expected":[],"far":0,"result":"matched","rows":[[1,"S",0,5],[2,"A",0,2],[3,"C",1,2],[2,"B",2,5],[3,"D",3,4],[3,"D",4,5]]}

The first name of a list that no rule has is refused, whatever form the tree has.

  $ cat > each_form <<'END'
  > for list in --show --hide; do
  >   for form in "" --rows --no-tree; do pegtool parse letters.peg letters.txt $form $list "$1"; echo $?; done
  > done | sort | uniq -c | sed 's/^ *//'
  > END
  $ bash each_form X
  6 3
  6 {"name":"X","refusal":"NoSuchRule"}

  $ bash each_form A,X,Y
  6 3
  6 {"name":"X","refusal":"NoSuchRule"}

  $ bash each_form Y,X
  6 3
  6 {"name":"Y","refusal":"NoSuchRule"}

Case matters, and a space belongs to the name, so these aren't the names of rules.

  $ bash each_form a
  6 3
  6 {"name":"a","refusal":"NoSuchRule"}

  $ bash each_form 'A, B'
  6 3
  6 {"name":" B","refusal":"NoSuchRule"}

No rule has the empty name, which an empty list has, or one with a comma too many.

  $ bash each_form ''
  6 3
  6 {"name":"","refusal":"NoSuchRule"}

  $ bash each_form A,
  6 3
  6 {"name":"","refusal":"NoSuchRule"}

  $ bash each_form ,A
  6 3
  6 {"name":"","refusal":"NoSuchRule"}

  $ bash each_form A,,X
  6 3
  6 {"name":"","refusal":"NoSuchRule"}

An unknown name of a list is reported before an unknown start and before the text is read.

  $ pegtool parse letters.peg /dev/null --start T --hide U
  {"name":"U","refusal":"NoSuchRule"}
  [3]

  $ head -c 67108865 /dev/zero | pegtool parse letters.peg /dev/stdin --start T --hide U
  {"name":"U","refusal":"NoSuchRule"}
  [3]

If all names of the list are known, the unknown start is reported.

  $ pegtool parse letters.peg /dev/null --start T --hide A
  {"name":"T","refusal":"NoSuchStart"}
  [3]

The refusal of a grammar is reported before an unknown name of a list.

  $ echo "A <- B" | pegtool parse /dev/stdin /dev/null --start T --hide U
  {"column":6,"end":6,"line":1,"name":"B","refusal":"Undefined","start":5}
  [2]

A list changes neither a failure nor the line of a match without its tree.

  $ printf x | pegtool parse letters.peg /dev/stdin --rows --show A
  {"expected":[[14,17]],"far":0,"result":"failed"}
  [1]

  $ printf x | pegtool parse letters.peg /dev/stdin --rows --hide A
  {"expected":[[14,17]],"far":0,"result":"failed"}
  [1]

  $ printf x | pegtool parse letters.peg /dev/stdin --rows
  {"expected":[[14,17]],"far":0,"result":"failed"}
  [1]

  $ pegtool parse letters.peg letters.txt --no-tree --show A
  {"consumed":5,"expected":[],"far":0,"result":"matched"}

  $ pegtool parse letters.peg letters.txt --no-tree --hide A
  {"consumed":5,"expected":[],"far":0,"result":"matched"}

  $ pegtool parse letters.peg letters.txt --no-tree
  {"consumed":5,"expected":[],"far":0,"result":"matched"}

In the grammar of a language a name of the list that no rule has is refused, too.

  $ printf 'x;' | pegtool parse examples/c.peg /dev/stdin --hide Name,Nothing
  {"name":"Nothing","refusal":"NoSuchRule"}
  [3]

Both options together are no command line (docs/USAGE.md), which is status 3.

  $ pegtool parse letters.peg letters.txt --show A --hide B 2>&1 | head -n 1
  error: the argument '--show <LIST>' cannot be used with '--hide <LIST>'

  $ pegtool parse letters.peg letters.txt --show A --hide B 2> /dev/null
  [3]
