Steps of parses without a memo, worked out by hand from the code, and limits of steps.

The script tries each limit from 1 to one that should be enough, and counts the results: StepLimit, matched or failed.

  $ cat > limits.sh <<'END'
  > echo "$1" > g.peg; printf '%s' "$2" > t.txt
  > for limit in $(seq 1 $3); do
  >   pegtool parse g.peg t.txt --memo 0 --no-tree --steps $limit | grep -o 'StepLimit\|matched\|failed'
  > done | sort | uniq -c | tr -s ' '
  > END

In `'a'*` each `a` takes 3 steps and the end of the star 2; the return and the end of the run follow.

  $ bash limits.sh "S <- 'a'*" "" 4
   3 StepLimit
   1 matched
  $ bash limits.sh "S <- 'a'*" "aaaa" 16
   15 StepLimit
   1 matched
  $ bash limits.sh "S <- 'a'*" "aaab" 13
   12 StepLimit
   1 matched

Six bytes take 3 steps each, the end of the star 2, and the `x`, the return and the end one each.

  $ bash limits.sh "S <- [a-c]* 'x'" "abcabcx" 23
   22 StepLimit
   1 matched

In `(!'b' .)*` each byte takes 5 steps, and a `b` or the end of the text 4.

  $ bash limits.sh "S <- (!'b' .)*" "aaac" 26
   25 StepLimit
   1 matched
  $ bash limits.sh "S <- (!'b' .)*" "aab" 16
   15 StepLimit
   1 matched

Each `a` takes 3 steps, the `b` takes 3, and a return for each level and a commit for the outer ones follow.

  $ bash limits.sh "S <- 'a' S / 'b'" "aab" 15
   14 StepLimit
   1 matched

A call and a return are a step each; a failure outside all choice points ends the run.

  $ bash limits.sh "S <- A 'b' A <- 'a'" "ab" 6
   5 StepLimit
   1 matched
  $ bash limits.sh "S <- A 'b' A <- 'a'" "ac" 4
   3 StepLimit
   1 failed

In `(A / B)*` an `a` takes 7 steps, `bc` takes 9 and the end 6.

  $ bash limits.sh "S <- (A / B)* A <- 'a' B <- 'b' 'c'" "abca" 31
   30 StepLimit
   1 matched

In `!A . S / ''` a byte that is consumed takes 8 steps, and the `x` 6.

  $ bash limits.sh "S <- !A . S / '' A <- 'x'" "abx" 24
   23 StepLimit
   1 matched

Without a memo the inner call runs twice, in both alternatives.

  $ bash limits.sh "A <- '(' A ')' 'x' / '(' A ')' 'y' / 'a'" "(a)y" 25
   24 StepLimit
   1 matched

The answer with enough steps is the one without a limit.

  $ echo "S <- 'a' S / 'b'" > g.peg; printf 'aab' > t.txt
  > for limit in 15 16 1000000000000; do pegtool parse g.peg t.txt --memo 0 --rows --steps $limit; done;
  >   pegtool parse g.peg t.txt --memo 0 --rows
  {"consumed":3,"expected":[[5,8]],"far":2,"result":"matched","rows":[[1,"S",0,3],[2,"S",1,3],[3,"S",2,3]]}
  {"consumed":3,"expected":[[5,8]],"far":2,"result":"matched","rows":[[1,"S",0,3],[2,"S",1,3],[3,"S",2,3]]}
  {"consumed":3,"expected":[[5,8]],"far":2,"result":"matched","rows":[[1,"S",0,3],[2,"S",1,3],[3,"S",2,3]]}
  {"consumed":3,"expected":[[5,8]],"far":2,"result":"matched","rows":[[1,"S",0,3],[2,"S",1,3],[3,"S",2,3]]}

With fewer steps there is no answer.

  $ for limit in 1 14; do pegtool parse g.peg t.txt --memo 0 --rows --steps $limit; done
  {"refusal":"StepLimit"}
  {"refusal":"StepLimit"}
  [6]

It is so too where a call is given up and made again.

  $ echo "A <- '(' A ')' 'x' / '(' A ')' 'y' / 'a'" > g.peg; printf '(a)y' > t.txt
  > for limit in 25 26 1000000000000; do pegtool parse g.peg t.txt --memo 0 --rows --steps $limit; done;
  >   pegtool parse g.peg t.txt --memo 0 --rows
  {"consumed":4,"expected":[[15,18]],"far":3,"result":"matched","rows":[[1,"A",0,4],[2,"A",1,2]]}
  {"consumed":4,"expected":[[15,18]],"far":3,"result":"matched","rows":[[1,"A",0,4],[2,"A",1,2]]}
  {"consumed":4,"expected":[[15,18]],"far":3,"result":"matched","rows":[[1,"A",0,4],[2,"A",1,2]]}
  {"consumed":4,"expected":[[15,18]],"far":3,"result":"matched","rows":[[1,"A",0,4],[2,"A",1,2]]}

With fewer steps there is no answer.

  $ for limit in 1 24; do pegtool parse g.peg t.txt --memo 0 --rows --steps $limit; done
  {"refusal":"StepLimit"}
  {"refusal":"StepLimit"}
  [6]
