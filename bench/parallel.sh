#!/usr/bin/env bash
# Runs `pegtool parse --lines` on 3,000,000 generated records of 100 bytes: as one process, and by GNU parallel as one
# process for each core, in the order of the records. Prints the seconds on the clock, the best of three runs, and
# compares the lines but for their numbers. The argument is the program.
set -eu
program=$(realpath -- "${1:-$(dirname "$0")/../crates/pegtool/out/pegtool}")
folder=$(mktemp -d)
trap 'rm -rf "$folder"' EXIT
cd "$folder"
printf '%s\n' "Line <- Field (',' Field)* !." "Field <- Word" "Word <- [a-z0-9]+" > grammar
python3 -c 'import sys
for _ in range(30_000): sys.stdout.write(("ab," * 20 + "cde," * 9 + "fgh\n") * 100)' > log
one() { "$program" parse grammar --lines --no-tree log > one; }
all() { parallel -k --pipepart -a log --block -1 "$program" parse grammar --lines --no-tree > all; }
best() { # a function: its seconds
  for _ in 1 2 3; do
    local start=$EPOCHREALTIME
    "$1"
    echo "$start $EPOCHREALTIME" | awk '{ printf "%.2f\n", $2 - $1 }'
  done | sort -n | head -n 1
}
echo "| Processes | Seconds |"
echo "|---|---|"
echo "| 1 | $(best one) |"
echo "| $(nproc) | $(best all) |"
cmp <(sed 's/"record":[0-9]*,//' one) <(sed 's/"record":[0-9]*,//' all)
