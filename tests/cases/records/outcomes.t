Which records are printed, and the exit status: that of the worst record. A refused record is worse than one that
doesn't match.

All records match: status 0. With --failed nothing is printed then.

  $ printf "S <- 'a'+\n" > g; printf 'a\naa\n' > all; printf 'a\nb\nab\n' > some
  $ pegtool parse g all --lines --no-tree
  {"record":1,"consumed":1,"expected":[[5,8]],"far":1,"result":"matched"}
  {"record":2,"consumed":2,"expected":[[5,8]],"far":2,"result":"matched"}
  $ pegtool parse g all --lines --failed

The options --failed and --matched choose records, and change neither numbers nor the status. A prefix of ab matches.

  $ pegtool parse g some --lines --failed
  {"record":2,"expected":[[5,8]],"far":0,"result":"failed"}
  [1]
  $ pegtool parse g some --lines --matched --no-tree
  {"record":1,"consumed":1,"expected":[[5,8]],"far":1,"result":"matched"}
  {"record":3,"consumed":1,"expected":[[5,8]],"far":1,"result":"matched"}
  [1]

With --all a record has to match as a whole.

  $ pegtool parse g some --lines --failed --all --no-tree
  {"record":2,"expected":[[5,8]],"far":0,"result":"failed"}
  {"record":3,"consumed":1,"expected":[[5,8]],"far":1,"result":"partial"}
  [1]
  $ pegtool parse g some --lines --matched --all --no-tree
  {"record":1,"consumed":1,"expected":[[5,8]],"far":1,"result":"matched"}
  [1]

A record that takes too many steps is refused, and the next ones are parsed: ten letters take at least a step each, and
one letter takes at most eight steps. The status is that of the refusal, also if a later record doesn't match.

  $ printf 'aaaaaaaaaa\na\nb\n' > long
  $ pegtool parse g long --lines --steps 8 --no-tree
  {"record":1,"refusal":"StepLimit"}
  {"record":2,"consumed":1,"expected":[[5,8]],"far":1,"result":"matched"}
  {"record":3,"expected":[[5,8]],"far":0,"result":"failed"}
  [6]

A refused record is one of those that don't match.

  $ pegtool parse g long --lines --steps 8 --failed
  {"record":1,"refusal":"StepLimit"}
  {"record":3,"expected":[[5,8]],"far":0,"result":"failed"}
  [6]
  $ pegtool parse g long --lines --steps 8 --matched --no-tree
  {"record":2,"consumed":1,"expected":[[5,8]],"far":1,"result":"matched"}
  [6]

So is a record whose tree has more than 60 levels, here 71, and one of more than 64 MiB.

  $ printf "S <- 'a' S / 'b'\n" > chain
  $ (printf 'a%.0s' $(seq 70); printf 'b\nb\n') | pegtool parse chain --lines --rows --failed
  $ (printf 'a%.0s' $(seq 70); printf 'b\n') | pegtool parse chain --lines
  {"record":1,"refusal":"TooDeep"}
  [6]
  $ (head -c 67108865 /dev/zero | tr '\0' a; printf '\na\n') | pegtool parse g --lines --no-tree
  {"record":1,"refusal":"TextTooLong"}
  {"record":2,"consumed":1,"expected":[[5,8]],"far":1,"result":"matched"}
  [6]

What is wrong with the grammar file or a name is a line without a number, before a record is read: status 2 or 3. Even
records that can't be read don't matter then.

  $ printf "S <- S\n" > cycle
  $ pegtool parse cycle nowhere --lines
  {"path":["S"],"refusal":"LeftRecursion"}
  [2]
  $ pegtool parse g all --lines --start T
  {"name":"T","refusal":"NoSuchStart"}
  [3]
  $ pegtool parse g nowhere --lines --show S,T
  {"name":"T","refusal":"NoSuchRule"}
  [3]
  $ pegtool parse g --lines --hide T < /dev/null
  {"name":"T","refusal":"NoSuchRule"}
  [3]

A text that can't be opened ends the run: the records before it are printed, those after it aren't.

  $ pegtool parse g all nowhere all --lines --no-tree
  {"record":1,"consumed":1,"expected":[[5,8]],"far":1,"result":"matched"}
  {"record":2,"consumed":2,"expected":[[5,8]],"far":2,"result":"matched"}
  pegtool: file fault
  nowhere: No such file or directory
  [4]

So does a text or standard input that can't be read, such as a folder, and a grammar file that can't be opened.

  $ mkdir folder; pegtool parse g folder --lines
  pegtool: file fault
  folder: Is a directory
  [4]
  $ pegtool parse g --lines < folder
  pegtool: file fault
  standard input: Is a directory
  [4]
  $ pegtool parse nowhere all --lines
  pegtool: file fault
  nowhere: No such file or directory
  [4]

An output that can't be written is a fault. If its reader is gone, the status alone says so.

  $ pegtool parse g all --lines > /dev/full
  pegtool: file fault
  standard output: No space left on device
  [4]
  $ (yes a | head -n 200000 | pegtool parse g --lines --no-tree; echo $? > status) | head -n 1; cat status
  {"record":1,"consumed":1,"expected":[[5,8]],"far":1,"result":"matched"}
  4

Wherever a write fails, the file has the first part of the lines, and the status is 4. The two lines of 72 bytes each
have 144 bytes, and each number below that is tried as the most that a file may hold.

  $ pegtool parse g all --lines --no-tree | tee whole | wc -c
  144
  $ trap '' XFSZ; for most in $(seq 0 143); do
  >   prlimit --fsize=$most pegtool parse g all --lines --no-tree > part 2> /dev/null; echo "status $?"
  >   head -c $most whole | cmp - part
  > done | sort | uniq -c
      144 status 4
