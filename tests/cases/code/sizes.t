The number of instructions of a grammar, and the limit of 1,000,000.

The script prints the number of instructions of a grammar file, or why it has none.

  $ cat > size.sh <<'END'
  > line=$(pegtool code /dev/stdin)
  > case $line in
  >   *code*) echo "${line%,\"entries*}" | grep -o '\["[a-z]*"' | wc -l ;;
  >   *) echo "$line" ;;
  > esac
  > END

A plus over one byte has four instructions, and two more are the end and the return.

  $ echo "A <- 'a'+" | bash size.sh
  6

Each plus around it doubles all but the end and the return, and adds two: 3 * 2^(n+2) for n pluses around it.

  $ echo "A <- ('a'+)+" | bash size.sh
  12

With 18 pluses around it the code would have 1,572,864 instructions, and with more still more.

  $ echo "A <- $(printf '(%.0s' {1..18})'a'+$(printf ')+%.0s' {1..18})" | bash size.sh
  {"refusal":"CodeTooLarge"}
  $ echo "A <- $(printf '(%.0s' {1..24})'a'+$(printf ')+%.0s' {1..24})" | bash size.sh
  {"refusal":"CodeTooLarge"}
  $ echo "A <- $(printf '(%.0s' {1..199})'a'+$(printf ')+%.0s' {1..199})" | bash size.sh
  {"refusal":"CodeTooLarge"}

The limit is exact: 786,432 instructions of 17 pluses around a plus, and a literal of 213,568 bytes make 1,000,000.

  $ (printf 'A <- '; printf '(%.0s' {1..17}; printf "'a'+"; printf ')+%.0s' {1..17};
  >   printf " '%0213568d'\n" 0) | pegtool check /dev/stdin
  {"result":"accepted","rules":1}

One byte more is over the limit.

  $ (printf 'A <- '; printf '(%.0s' {1..17}; printf "'a'+"; printf ')+%.0s' {1..17};
  >   printf " '%0213569d'\n" 0) | pegtool check /dev/stdin
  {"refusal":"CodeTooLarge"}
  [2]

A hundred thousand empty literals have no code and cost no time for each of their 2^18 copies, before or after 'a'.

  $ (printf 'A <- '; printf '(%.0s' {1..18}; printf "'a'"; printf " ''%.0s" {1..100000}; printf ')+%.0s' {1..18};
  >   printf " '%0213568d'\n" 0) | pegtool check /dev/stdin
  {"result":"accepted","rules":1}
  $ (printf 'A <- '; printf '(%.0s' {1..18}; printf "'' %.0s" {1..100000}; printf "'a'"; printf ')+%.0s' {1..18};
  >   printf " '%0213568d'\n" 0) | pegtool check /dev/stdin
  {"result":"accepted","rules":1}

With a literal of one byte more they are over the limit, so they have 786,432 instructions.

  $ (printf 'A <- '; printf '(%.0s' {1..18}; printf "'a'"; printf " ''%.0s" {1..100000}; printf ')+%.0s' {1..18};
  >   printf " '%0213569d'\n" 0) | pegtool check /dev/stdin
  {"refusal":"CodeTooLarge"}
  [2]
  $ (printf 'A <- '; printf '(%.0s' {1..18}; printf "'' %.0s" {1..100000}; printf "'a'"; printf ')+%.0s' {1..18};
  >   printf " '%0213569d'\n" 0) | pegtool check /dev/stdin
  {"refusal":"CodeTooLarge"}
  [2]

The end and each rule's return are an instruction each; an iteration has its part, and an optional one two more.

  $ echo "S <- 'a' S / 'b'" | bash size.sh
  7
  $ echo "S <- .{2,5}" | bash size.sh
  13
  $ echo "S <- 'a'+ / &T  T <- ''{255}" | bash size.sh
  14
  $ echo "S <- (''{255}){255}" | bash size.sh
  2
  $ echo "S <- ''{254,255}" | bash size.sh
  4
  $ echo "S <- (''{2} 'a'){2}" | bash size.sh
  4
  $ echo "S <- ((.{10}){10}){10}" | bash size.sh
  1002
  $ printf '%s' "S <- ('ab' [c]?){0,3} !." | bash size.sh
  26

Sixteen million dots are over the limit, which is found before the counts are unfolded.

  $ echo "S <- ((.{255}){255}){255}" | bash size.sh
  {"refusal":"CodeTooLarge"}

An optional iteration of nothing has a choice and a commit: 255 of them, the end and the return.

  $ echo "A <- ''{0,255}" | bash size.sh
  512

Counts of nothing have no code, however they nest.

  $ echo "A <- (((''{255}){255}){255}){255}" | bash size.sh
  2

The core forms of counts in counts, and of 25 pluses, are few, but their code is over the limit.

  $ echo "A <- (('a'{0,255}){255}){255}" | bash size.sh
  {"refusal":"CodeTooLarge"}
  $ echo "A <- $(printf '(%.0s' {1..24})'a'+$(printf ')+%.0s' {1..24})" | bash size.sh
  {"refusal":"CodeTooLarge"}

A literal of 100,000 bytes has as many tests, the end and the return.

  $ printf "A <- '%0100000d'\n" 0 | bash size.sh
  100002

The optional in a star isn't dropped, so the star loops on the empty string.

  $ pegtool check <(echo "A <- (('')?)*")
  {"column":6,"end":13,"line":1,"refusal":"EmptyLoop","rule":"A","start":5}
  [2]
