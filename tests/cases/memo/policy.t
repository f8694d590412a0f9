Which results a memo stores, worked out by hand: what isn't stored runs again at the second call.

The script prints the calls of rule N, and how many of them repeat an earlier one, with a memo of 4,096 entries.

  $ cat > calls.sh <<'END'
  > echo "$1" > g.peg; printf "$2%.0s" $(seq $3) > t.txt
  > pegtool profile g.peg t.txt --memo 4096 | grep -o '"again":[0-9]*,"calls":[0-9]*,"places":[0-9]*,"rule":"N"'
  > END

A rule without a star that calls no rule costs less than a lookup, so nothing of it is stored.

  $ bash calls.sh "S <- (!N !N .)*  N <- [0-9] 'y'" z 20
  "again":21,"calls":42,"places":21,"rule":"N"

With a star its failures are stored, and each is found by the second call.

  $ bash calls.sh "S <- (!N !N .)*  N <- [0-9]+ 'y'" z 20
  "again":0,"calls":21,"places":21,"rule":"N"

A memo holds results of several rules. If it held one entry, the failure of M would take the place of that of N, and the
second call of N would run again.

  $ bash calls.sh "S <- (!N !M !N !M .)*  N <- [0-9]+ 'y'  M <- [0-9]+ 'x'" z 20
  "again":0,"calls":21,"places":21,"rule":"N"

A stored failure costs a rule 8 of its balance of 4,352, and a hit gains 4. So the balance is 252 after 1,025 positions,
and below 256 the rule is in debt. From there, one failure in 128 is stored. It is the second of its position, so it is
never found. N runs twice at each of the other 976 positions.

  $ bash calls.sh "S <- (!N !N .)*  N <- [0-9]+ 'y'" z 2000
  "again":976,"calls":2977,"places":2001,"rule":"N"

Two hits for each stored failure keep the balance, so all are stored.

  $ bash calls.sh "S <- (!N !N !N .)*  N <- [0-9]+ 'y'" z 2000
  "again":0,"calls":2001,"places":2001,"rule":"N"

Over digits the rule fails after it has read them all. Such a failure is stored in debt, too. The failure at the end of
the text takes no work, and isn't stored.

  $ bash calls.sh "S <- (!N !N .)*  N <- [0-9]+ 'y'" 7 2000
  "again":1,"calls":2002,"places":2001,"rule":"N"
