The line of JSON that parse prints: the tree as nested objects, or as a list of nodes with --rows. The output is one
line, with the keys in byte order (docs/USAGE.md, Output of a parse).

The rule calls itself twice, so the tree has three nodes, each inside the one before.

  $ printf "S <- 'a' S / 'b'\n" > g; printf aab > t
  $ pegtool parse g t
  {"consumed":3,"expected":[[5,8]],"far":2,"result":"matched","tree":{"children":[{"children":[{"children":[],"end":3,"rule":"S","start":2}],"end":3,"rule":"S","start":1}],"end":3,"rule":"S","start":0}}
  $ pegtool parse g t --all
  {"consumed":3,"expected":[[5,8]],"far":2,"result":"matched","tree":{"children":[{"children":[{"children":[],"end":3,"rule":"S","start":2}],"end":3,"rule":"S","start":1}],"end":3,"rule":"S","start":0}}

With --rows the same nodes are a list in preorder, each with its level.

  $ pegtool parse g t --rows
  {"consumed":3,"expected":[[5,8]],"far":2,"result":"matched","rows":[[1,"S",0,3],[2,"S",1,3],[3,"S",2,3]]}
  $ pegtool parse g t --all --rows
  {"consumed":3,"expected":[[5,8]],"far":2,"result":"matched","rows":[[1,"S",0,3],[2,"S",1,3],[3,"S",2,3]]}

On an empty text both terminals fail at position 0, and there is no tree.

  $ printf '' > t
  $ pegtool parse g t
  {"expected":[[5,8],[13,16]],"far":0,"result":"failed"}
  [1]
  $ pegtool parse g t --all --rows
  {"expected":[[5,8],[13,16]],"far":0,"result":"failed"}
  [1]

The first alternative matches one byte of two, which is partial only with --all.

  $ printf "S <- 'a' / 'ab'\n" > g; printf ab > t
  $ pegtool parse g t
  {"consumed":1,"expected":[],"far":0,"result":"matched","tree":{"children":[],"end":1,"rule":"S","start":0}}
  $ pegtool parse g t --all
  {"consumed":1,"expected":[],"far":0,"result":"partial","tree":{"children":[],"end":1,"rule":"S","start":0}}
  [1]

A partial match has its rows, and a failure has none; both have exit status 1.

  $ pegtool parse g t --all --rows
  {"consumed":1,"expected":[],"far":0,"result":"partial","rows":[[1,"S",0,1]]}
  [1]
  $ printf "S <- 'a'\n" > g; printf b > t
  $ pegtool parse g t --all --rows
  {"expected":[[5,8]],"far":0,"result":"failed"}
  [1]

A tree of 60 levels is printed nested, and one of 61 levels isn't (docs/USAGE.md, Limits).

  $ printf "S <- 'a' S / 'b'\n" > g
  $ (printf 'a%.0s' $(seq 59); printf b) > t60; (printf 'a%.0s' $(seq 60); printf b) > t61
  $ pegtool parse g t60 --all | grep -o '"rule":"S"' | wc -l
  60
  $ pegtool parse g t61 --all
  {"refusal":"TooDeep"}
  [6]
  $ pegtool parse g t61 --all --rows > /dev/null

Each of the 61 nodes is one level below and one byte after the one before.

  $ pegtool parse g t61 --all --rows
  {"consumed":61,"expected":[[5,8]],"far":60,"result":"matched","rows":[[1,"S",0,61],[2,"S",1,61],[3,"S",2,61],[4,"S",3,61],[5,"S",4,61],[6,"S",5,61],[7,"S",6,61],[8,"S",7,61],[9,"S",8,61],[10,"S",9,61],[11,"S",10,61],[12,"S",11,61],[13,"S",12,61],[14,"S",13,61],[15,"S",14,61],[16,"S",15,61],[17,"S",16,61],[18,"S",17,61],[19,"S",18,61],[20,"S",19,61],[21,"S",20,61],[22,"S",21,61],[23,"S",22,61],[24,"S",23,61],[25,"S",24,61],[26,"S",25,61],[27,"S",26,61],[28,"S",27,61],[29,"S",28,61],[30,"S",29,61],[31,"S",30,61],[32,"S",31,61],[33,"S",32,61],[34,"S",33,61],[35,"S",34,61],[36,"S",35,61],[37,"S",36,61],[38,"S",37,61],[39,"S",38,61],[40,"S",39,61],[41,"S",40,61],[42,"S",41,61],[43,"S",42,61],[44,"S",43,61],[45,"S",44,61],[46,"S",45,61],[47,"S",46,61],[48,"S",47,61],[49,"S",48,61],[50,"S",49,61],[51,"S",50,61],[52,"S",51,61],[53,"S",52,61],[54,"S",53,61],[55,"S",54,61],[56,"S",55,61],[57,"S",56,61],[58,"S",57,61],[59,"S",58,61],[60,"S",59,61],[61,"S",60,61]]}
