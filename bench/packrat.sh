#!/usr/bin/env bash
# Runs `pegtool parse --no-tree` on texts that are nested ever deeper, and that need the memo: parentheses in C, and a
# grammar whose steps double with each level without a memo. Prints the CPU seconds and the peak memory of the whole
# process, the fastest of some runs, and the microseconds a level. Linear time is the same number for each depth. The
# argument is the program.
set -eu
program=$(realpath -- "${1:-$(dirname "$0")/../crates/pegtool/out/pegtool}")
cd "$(dirname "$0")"
folder=$(mktemp -d)
trap 'rm -rf "$folder"' EXIT
python3 -B - "$program" "$folder" << 'PYTHON'
import os
import sys

from runs import used, written
from texts import EXAMPLES

PROGRAM, FOLDER = sys.argv[1:]
RUNS = 3
DEPTHS = [1_000 << exponent for exponent in range(7)]

with open(f"{FOLDER}/twice.peg", "w") as file:
    file.write("A <- '(' A ')' 'x' / '(' A ')' 'y' / 'a'\n")


def in_c(levels):
    return b"(" * levels + b"x" + b")" * levels + b";"


def twice(levels):
    return b"(" * levels + b"a" + b")y" * levels


# For each case the grammar, its texts, and their depths.
CASES = {
    "parentheses in C": (f"{EXAMPLES}/c.peg", in_c, DEPTHS),
    "alternatives with a common prefix": (f"{FOLDER}/twice.peg", twice, [*DEPTHS, 128_000]),
}

print("| Text | Levels | Bytes | Seconds | Microseconds a level | MiB |")
print("|---|---|---|---|---|---|")
for name, (grammar, make, depths) in CASES.items():
    for levels in depths:
        text = f"{FOLDER}/text"
        written(text, lambda: make(levels))
        words = [PROGRAM, "parse", grammar, text, "--no-tree"]
        seconds, peak = min(used(words, f"{FOLDER}/line") for _ in range(RUNS))
        cells = f"{os.path.getsize(text):,} | {seconds:.3f} | {seconds * 1e6 / levels:.2f} | {peak / 2**20:.0f}"
        print(f"| {name} | {levels:,} | {cells} |", flush=True)
PYTHON
