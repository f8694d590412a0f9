The levels of a tree: 60 can be printed as nested objects, and any number as rows.

A parse of 60 letters and a b has a tree of 61 levels, one too many for nested objects.

  $ echo "S <- 'a' S / 'b'" > chain.peg
  $ { printf 'a%.0s' {1..60}; printf b; } > deep.txt
  $ pegtool parse chain.peg deep.txt
  {"refusal":"TooDeep"}
  [6]

Rows have no greatest level: the node of level n starts at n minus 1 and ends at 61.

  $ pegtool parse chain.peg deep.txt --rows | sed 's/],/],\n/g'
  {"consumed":61,"expected":[[5,8]],
  "far":60,"result":"matched","rows":[[1,"S",0,61],
  [2,"S",1,61],
  [3,"S",2,61],
  [4,"S",3,61],
  [5,"S",4,61],
  [6,"S",5,61],
  [7,"S",6,61],
  [8,"S",7,61],
  [9,"S",8,61],
  [10,"S",9,61],
  [11,"S",10,61],
  [12,"S",11,61],
  [13,"S",12,61],
  [14,"S",13,61],
  [15,"S",14,61],
  [16,"S",15,61],
  [17,"S",16,61],
  [18,"S",17,61],
  [19,"S",18,61],
  [20,"S",19,61],
  [21,"S",20,61],
  [22,"S",21,61],
  [23,"S",22,61],
  [24,"S",23,61],
  [25,"S",24,61],
  [26,"S",25,61],
  [27,"S",26,61],
  [28,"S",27,61],
  [29,"S",28,61],
  [30,"S",29,61],
  [31,"S",30,61],
  [32,"S",31,61],
  [33,"S",32,61],
  [34,"S",33,61],
  [35,"S",34,61],
  [36,"S",35,61],
  [37,"S",36,61],
  [38,"S",37,61],
  [39,"S",38,61],
  [40,"S",39,61],
  [41,"S",40,61],
  [42,"S",41,61],
  [43,"S",42,61],
  [44,"S",43,61],
  [45,"S",44,61],
  [46,"S",45,61],
  [47,"S",46,61],
  [48,"S",47,61],
  [49,"S",48,61],
  [50,"S",49,61],
  [51,"S",50,61],
  [52,"S",51,61],
  [53,"S",52,61],
  [54,"S",53,61],
  [55,"S",54,61],
  [56,"S",55,61],
  [57,"S",56,61],
  [58,"S",57,61],
  [59,"S",58,61],
  [60,"S",59,61],
  [61,"S",60,61]]}

Without the tree there are no levels, so the same parse has a line.

  $ pegtool parse chain.peg deep.txt --no-tree
  {"consumed":61,"expected":[[5,8]],"far":60,"result":"matched"}

A parse of 59 letters and a b has a tree of 60 levels, which is printed as nested objects.

  $ { printf 'a%.0s' {1..59}; printf b; } > nested.txt
  $ pegtool parse chain.peg nested.txt
  {"consumed":60,"expected":[[5,8]],"far":59,"result":"matched","tree":{"children":[{"children":[{"children":[{"children":[{"children":[{"children":[{"children":[{"children":[{"children":[{"children":[{"children":[{"children":[{"children":[{"children":[{"children":[{"children":[{"children":[{"children":[{"children":[{"children":[{"children":[{"children":[{"children":[{"children":[{"children":[{"children":[{"children":[{"children":[{"children":[{"children":[{"children":[{"children":[{"children":[{"children":[{"children":[{"children":[{"children":[{"children":[{"children":[{"children":[{"children":[{"children":[{"children":[{"children":[{"children":[{"children":[{"children":[{"children":[{"children":[{"children":[{"children":[{"children":[{"children":[{"children":[{"children":[{"children":[{"children":[{"children":[{"children":[{"children":[],"end":60,"rule":"S","start":59}],"end":60,"rule":"S","start":58}],"end":60,"rule":"S","start":57}],"end":60,"rule":"S","start":56}],"end":60,"rule":"S","start":55}],"end":60,"rule":"S","start":54}],"end":60,"rule":"S","start":53}],"end":60,"rule":"S","start":52}],"end":60,"rule":"S","start":51}],"end":60,"rule":"S","start":50}],"end":60,"rule":"S","start":49}],"end":60,"rule":"S","start":48}],"end":60,"rule":"S","start":47}],"end":60,"rule":"S","start":46}],"end":60,"rule":"S","start":45}],"end":60,"rule":"S","start":44}],"end":60,"rule":"S","start":43}],"end":60,"rule":"S","start":42}],"end":60,"rule":"S","start":41}],"end":60,"rule":"S","start":40}],"end":60,"rule":"S","start":39}],"end":60,"rule":"S","start":38}],"end":60,"rule":"S","start":37}],"end":60,"rule":"S","start":36}],"end":60,"rule":"S","start":35}],"end":60,"rule":"S","start":34}],"end":60,"rule":"S","start":33}],"end":60,"rule":"S","start":32}],"end":60,"rule":"S","start":31}],"end":60,"rule":"S","start":30}],"end":60,"rule":"S","start":29}],"end":60,"rule":"S","start":28}],"end":60,"rule":"S","start":27}],"end":60,"rule":"S","start":26}],"end":60,"rule":"S","start":25}],"end":60,"rule":"S","start":24}],"end":60,"rule":"S","start":23}],"end":60,"rule":"S","start":22}],"end":60,"rule":"S","start":21}],"end":60,"rule":"S","start":20}],"end":60,"rule":"S","start":19}],"end":60,"rule":"S","start":18}],"end":60,"rule":"S","start":17}],"end":60,"rule":"S","start":16}],"end":60,"rule":"S","start":15}],"end":60,"rule":"S","start":14}],"end":60,"rule":"S","start":13}],"end":60,"rule":"S","start":12}],"end":60,"rule":"S","start":11}],"end":60,"rule":"S","start":10}],"end":60,"rule":"S","start":9}],"end":60,"rule":"S","start":8}],"end":60,"rule":"S","start":7}],"end":60,"rule":"S","start":6}],"end":60,"rule":"S","start":5}],"end":60,"rule":"S","start":4}],"end":60,"rule":"S","start":3}],"end":60,"rule":"S","start":2}],"end":60,"rule":"S","start":1}],"end":60,"rule":"S","start":0}}

Levels are those of the printed tree, so 61 nodes of S and B are too many.

  $ printf "S <- 'a' S / B\nB <- 'b'\n" > inner.peg
  $ pegtool parse inner.peg deep.txt
  {"refusal":"TooDeep"}
  [6]

  $ pegtool parse inner.peg deep.txt --show B,S
  {"refusal":"TooDeep"}
  [6]

Without the inner nodes of both rules the printed tree has one level, and with B two.

  $ pegtool parse inner.peg deep.txt --hide S,B
  {"consumed":61,"expected":[[5,8]],"far":60,"result":"matched","tree":{"children":[],"end":61,"rule":"S","start":0}}

  $ pegtool parse inner.peg deep.txt --show B
  {"consumed":61,"expected":[[5,8]],"far":60,"result":"matched","tree":{"children":[{"children":[],"end":61,"rule":"B","start":60}],"end":61,"rule":"S","start":0}}

A grammar with a rule for each precedence has 17 levels for each parenthesis: two can be nested, three not.

  $ printf '((x));' > two.txt
  $ pegtool parse examples/c.peg two.txt > /dev/null
  $ printf '(((x)));' > three.txt
  $ pegtool parse examples/c.peg three.txt
  {"refusal":"TooDeep"}
  [6]

The same text can be printed as rows, without its tree, or with the nodes of two rules.

  $ pegtool parse examples/c.peg three.txt --rows > /dev/null
  $ pegtool parse examples/c.peg three.txt --no-tree > /dev/null
  $ pegtool parse examples/c.peg three.txt --show Name,Number > /dev/null
