Long texts, which the machine parses by shortcuts.

The 3,001 calls meet each of twenty letters six times, which makes more shortcuts than the 60,000 that are stored.

  $ (printf 'S <- ('; printf 'G %.0s' {1..3001}; printf ")*\nG <- 'a'"; printf " / '%s'" {b..t}; echo) > calls.peg
  > yes abcdefghijklmnopqrst | head -18006 | tr -d '\n' > letters.txt; wc -c < letters.txt
  > pegtool parse calls.peg letters.txt --no-tree | sed 's/\[\[.*\]\]/[..]/'
  360120
  {"consumed":360120,"expected":[..],"far":360120,"result":"matched"}

All twenty letters are expected at the end of the text.

  $ pegtool parse calls.peg letters.txt --no-tree | grep -o '\[[0-9]*,[0-9]*\]' | wc -l
  20

With a byte that isn't one of the letters in the last iteration, only the iterations before it match.

  $ (head -c 360110 letters.txt;
  >   printf -- '-') | pegtool parse calls.peg /dev/stdin --rows | grep -o '^{"consumed":[0-9]*\|"far":[0-9]*'
  {"consumed":357119
  "far":360110
