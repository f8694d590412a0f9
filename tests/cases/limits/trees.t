Trees that fit in no memory.

Each of 60 rules calls the next one twice, and the last one matches the empty string. So the tree has 2^61 - 1 nodes, for
an empty text. The memo finds each call but the first at once, so the parse takes few steps. The number of nodes is known
before they are made, so nothing is allocated that the system could grant.

  $ python3 -c "print(*(f'R{n} <- R{n + 1} R{n + 1}' for n in range(60)), \"R60 <- ''\", sep='\n')" > twice.peg
  $ printf '' > empty.txt
  $ pegtool parse twice.peg empty.txt
  pegtool: out of memory
  [5]

Without a tree there are no nodes to make, and a message needs none.

  $ pegtool parse twice.peg empty.txt --no-tree --steps 100000
  {"consumed":0,"expected":[],"far":0,"result":"matched"}
  $ pegtool explain twice.peg empty.txt

If only one rule is shown, only its nodes are made: R3 is called 8 times, at level 2 below the root.

  $ pegtool parse twice.peg empty.txt --show R3 --rows
  {"consumed":0,"expected":[],"far":0,"result":"matched","rows":[[1,"R0",0,0],[2,"R3",0,0],[2,"R3",0,0],[2,"R3",0,0],[2,"R3",0,0],[2,"R3",0,0],[2,"R3",0,0],[2,"R3",0,0],[2,"R3",0,0]]}
