The options of parse, before, between or after the two files. The default capacity of the memo is 4096.

Without options the tree is nested, and with --rows it is a list.

  $ printf "S <- 'x' A\nA <- 'a'\n" > g; printf xa > t; printf a > a; printf xab > b
  $ pegtool parse g t
  {"consumed":2,"expected":[],"far":0,"result":"matched","tree":{"children":[{"children":[],"end":2,"rule":"A","start":1}],"end":2,"rule":"S","start":0}}
  $ pegtool parse g t --rows
  {"consumed":2,"expected":[],"far":0,"result":"matched","rows":[[1,"S",0,2],[2,"A",1,2]]}

With --all the whole text must match, and xab has one byte more.

  $ pegtool parse g --all t
  {"consumed":2,"expected":[],"far":0,"result":"matched","tree":{"children":[{"children":[],"end":2,"rule":"A","start":1}],"end":2,"rule":"S","start":0}}
  $ pegtool parse g --all b
  {"consumed":2,"expected":[],"far":0,"result":"partial","tree":{"children":[{"children":[],"end":2,"rule":"A","start":1}],"end":2,"rule":"S","start":0}}
  [1]

The least and the greatest capacity of the memo are allowed, also after an equals sign.

  $ pegtool parse g t --memo 0
  {"consumed":2,"expected":[],"far":0,"result":"matched","tree":{"children":[{"children":[],"end":2,"rule":"A","start":1}],"end":2,"rule":"S","start":0}}
  $ pegtool parse --memo=1000000 g t
  {"consumed":2,"expected":[],"far":0,"result":"matched","tree":{"children":[{"children":[],"end":2,"rule":"A","start":1}],"end":2,"rule":"S","start":0}}

The least step limit is too small for this text, and the greatest one isn't.

  $ pegtool parse g t --steps 1
  {"refusal":"StepLimit"}
  [6]
  $ pegtool parse --steps=1000000000000 g t
  {"consumed":2,"expected":[],"far":0,"result":"matched","tree":{"children":[{"children":[],"end":2,"rule":"A","start":1}],"end":2,"rule":"S","start":0}}

The start is the named rule; a name may begin with a dash, but no rule has it.

  $ pegtool parse g a --start A
  {"consumed":1,"expected":[],"far":0,"result":"matched","tree":{"children":[],"end":1,"rule":"A","start":0}}
  $ pegtool parse g t --start Value
  {"name":"Value","refusal":"NoSuchStart"}
  [3]
  $ pegtool parse g t --start -a
  {"name":"-a","refusal":"NoSuchStart"}
  [3]

All options together: the rule A takes one test and one return, within eight steps.

  $ pegtool parse g a --start A --memo 7 --steps 8 --all --rows
  {"consumed":1,"expected":[],"far":0,"result":"matched","rows":[[1,"A",0,1]]}

With --no-tree the line has neither a tree nor a list of nodes.

  $ pegtool parse g t --all --no-tree
  {"consumed":2,"expected":[],"far":0,"result":"matched"}
  $ pegtool parse g b --all --no-tree
  {"consumed":2,"expected":[],"far":0,"result":"partial"}
  [1]

The lists of --show and --hide have commas between the names of rules.

  $ printf "S <- A C\nA <- B\nB <- 'b'\nC <- 'c'\n" > g; printf bc > t
  $ pegtool parse g t --show A,B
  {"consumed":2,"expected":[],"far":0,"result":"matched","tree":{"children":[{"children":[{"children":[],"end":1,"rule":"B","start":0}],"end":1,"rule":"A","start":0}],"end":2,"rule":"S","start":0}}
  $ pegtool parse --show=A g t --rows
  {"consumed":2,"expected":[],"far":0,"result":"matched","rows":[[1,"S",0,2],[2,"A",0,1]]}
  $ pegtool parse g t --hide C
  {"consumed":2,"expected":[],"far":0,"result":"matched","tree":{"children":[{"children":[{"children":[],"end":1,"rule":"B","start":0}],"end":1,"rule":"A","start":0}],"end":2,"rule":"S","start":0}}

A list may begin with a dash, and its first name that no rule has is named.

  $ pegtool parse g --hide -a,,b t
  {"name":"-a","refusal":"NoSuchRule"}
  [3]

By default there is a memo: without one the 20 levels take over a million steps.

  $ printf "A <- '(' A ')' 'x' / '(' A ')' 'y' / 'a'" > g
  $ (printf '(%.0s' $(seq 20); printf a; printf ')y%.0s' $(seq 20)) > t
  $ pegtool parse g t --no-tree --steps 100000 --memo 0
  {"refusal":"StepLimit"}
  [6]
  $ pegtool parse g t --no-tree --steps 100000 > /dev/null
  $ pegtool parse g t --no-tree --steps 100000 --memo 4096 > /dev/null

The options for records, before, between or after any number of files. With all options together the rule A takes one
test and one return for each record, within eight steps. The record b fails, and with --matched it isn't printed.

  $ printf "S <- 'x' A\nA <- 'a'\n" > g; printf 'a\0b' > null; printf 'a\r\n' > crlf
  $ pegtool parse --lines g crlf --crlf crlf --start A --memo 7 --steps 8 --all --rows --show A --text --matched
  {"record":1,"consumed":1,"expected":[],"far":0,"result":"matched","rows":[[1,"A",0,1,"a"]]}
  {"record":2,"consumed":1,"expected":[],"far":0,"result":"matched","rows":[[1,"A",0,1,"a"]]}
  $ pegtool parse g null --lines --null --start=A --no-tree --matched
  {"record":1,"consumed":1,"expected":[],"far":0,"result":"matched"}
  [1]
