#!/usr/bin/env bash
# Runs `pegtool parse` on generated JSON with different trees: all nodes, without those of leaf rules, with their bytes,
# and none. Prints the CPU seconds and the peak memory of the whole processes, and the length of the line. The argument
# is the program, and a second one the millions of bytes of JSON (60 if there is none).
set -eu
program=$(realpath -- "${1:-$(dirname "$0")/../crates/pegtool/out/pegtool}")
millions=${2:-60}
cd "$(dirname "$0")"
folder=$(mktemp -d)
trap 'rm -rf "$folder"' EXIT
python3 -B - "$program" "$folder" "$millions" << 'PYTHON'
import os
import sys

from runs import used, written
from texts import EXAMPLES, json_text

PROGRAM, FOLDER, MILLIONS = sys.argv[1:]
RUNS = 3

# The rules of examples/json.peg whose nodes have no children, and Char, which has one only for \u.
LEAVES = "Char,Hex,Number,Spacing"
OPTIONS = {
    "`--rows`": ["--rows"],
    f"`--rows --hide {LEAVES}`": ["--rows", "--hide", LEAVES],
    "`--rows --show Object,Array,String,Number`": ["--rows", "--show", "Object,Array,String,Number"],
    "the same with `--text`": ["--rows", "--show", "Object,Array,String,Number", "--text"],
    "`--no-tree`": ["--no-tree"],
}

written(f"{FOLDER}/text", lambda: json_text(int(MILLIONS) * 10**6))
print("| Options | Seconds | MiB | MB printed |")
print("|---|---|---|---|")
for name, options in OPTIONS.items():
    words = [PROGRAM, "parse", f"{EXAMPLES}/json.peg", f"{FOLDER}/text", *options]
    seconds, peak = min(used(words, f"{FOLDER}/line") for _ in range(RUNS))
    print(f"| {name} | {seconds:.2f} | {peak / 2**20:.0f} | {os.path.getsize(f'{FOLDER}/line') / 10**6:.1f} |", flush=True)
PYTHON
