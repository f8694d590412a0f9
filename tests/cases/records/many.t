What is computed for one record serves the later ones. The lines stay those of each record alone.

The even numbers match. The dot in End is tried after the last digit of each number, and fails there: it is the furthest
failure. Worked out by hand: the dot is at 72..73 of the grammar file.

  $ printf 'Number <- (Digit !End)* Even End\nDigit <- [0-9]\nEven <- [02468]\nEnd <- !.\n' > g
  $ cat > line.awk << 'END'
  > { n = length($0); e = "\"expected\":[[72,73]],\"far\":" n ",\"result\":" }
  > $0 % 2 == 0 { print "{\"record\":" NR ",\"consumed\":" n "," e "\"matched\"}" }
  > $0 % 2 == 1 { print "{\"record\":" NR "," e "\"failed\"}" }
  > END
  $ seq 30000 > numbers; awk -f line.awk numbers > wanted
  $ pegtool parse g numbers --lines --no-tree | cmp - wanted
  $ pegtool parse g numbers --lines --no-tree --matched | wc -l
  15000

A record in the middle may need the memo: each parenthesis doubles the steps without it. The furthest failures of that
record are the dot and 'x', both at its end.

  $ printf "S <- P !.\nP <- '(' P ')' 'x' / '(' P ')' / 'a'\n" > nest
  $ (yes a | head -n 20000; echo '((((((((((((((a))))))))))))))'; yes a | head -n 20000) > records
  $ pegtool parse nest records --lines --no-tree | sed 's/"record":[0-9]*,//' | sort | uniq -c
    40000 {"consumed":1,"expected":[[8,9]],"far":1,"result":"matched"}
        1 {"consumed":29,"expected":[[8,9],[25,28]],"far":29,"result":"matched"}

Each record has the memo. Of 30 parentheses each level takes twelve steps with a memo, and the innermost call seven: 367
steps. Without one it would take over 2^30.

  $ echo "A <- '(' A ')' 'x' / '(' A ')' 'y' / 'a'" > twice
  $ (printf '(%.0s' $(seq 30); printf a; printf ')y%.0s' $(seq 30); echo) > deep
  $ pegtool parse twice deep --lines --no-tree --steps 367
  {"record":1,"consumed":91,"expected":[[15,18]],"far":90,"result":"matched"}
  $ pegtool parse twice deep --lines --no-tree --steps 366
  {"record":1,"refusal":"StepLimit"}
  [6]
