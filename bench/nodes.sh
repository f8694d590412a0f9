#!/usr/bin/env bash
# Runs `pegtool parse` on generated texts of JSON, CSV and a log: with all nodes as rows, with rules hidden, and without a
# tree; and `pegtool profile --coverage`, which makes no nodes. Prints the CPU seconds and the peak memory of the whole
# process, the fastest of some runs. The last column is the memory beside the text, in KiB. The argument is the program,
# and a second one the millions of bytes of the large texts (60 if there is none).
set -eu
program=$(realpath -- "${1:-$(dirname "$0")/../crates/pegtool/out/pegtool}")
millions=${2:-60}
cd "$(dirname "$0")"
folder=$(mktemp -d)
trap 'rm -rf "$folder"' EXIT
python3 -B - "$program" "$folder" "$millions" << 'PYTHON'
import os
import sys

from runs import used, written
from texts import EXAMPLES, csv_text, json_text, log_text

PROGRAM, FOLDER, MILLIONS = sys.argv[1:]
RUNS = 3
LARGE = int(MILLIONS) * 10**6

# For each text: its grammar, its bytes, and the rules that are hidden in one of the runs.
TEXTS = {
    "JSON, 8 MB": ("json", lambda: json_text(8 * 10**6), "Char,Hex,Spacing"),
    f"JSON, {MILLIONS} MB": ("json", lambda: json_text(LARGE), "Char,Hex,Spacing"),
    f"CSV, {MILLIONS} MB": ("csv", lambda: csv_text(LARGE), None),
    f"log, {MILLIONS} MB": ("log", lambda: log_text(LARGE), None),
}


def commands(grammar, text, hidden):
    """The words of each run, with the status that it must end with. None of the texts uses all of its grammar."""
    parse = ["parse", grammar, text]
    yield [*parse, "--rows"], 0
    if hidden:
        yield [*parse, "--rows", "--hide", hidden], 0
    yield [*parse, "--no-tree"], 0
    yield ["profile", grammar, "--coverage", text], 1


print("| Text | Command | Seconds | To `--rows` | MiB | KiB beside the text |")
print("|---|---|---|---|---|---|")
for name, (grammar, make, hidden) in TEXTS.items():
    text = f"{FOLDER}/text"
    written(text, make)
    size, base = os.path.getsize(text), None
    for words, status in commands(f"{EXAMPLES}/{grammar}.peg", text, hidden):
        seconds, peak = min(used([PROGRAM, *words], f"{FOLDER}/line", status) for _ in range(RUNS))
        base = base or seconds
        cells = f"{seconds:.3f} | {seconds / base:.2f} | {peak / 2**20:.0f} | {(peak - size) // 1024:,}"
        shown = " ".join(word for word in words if "/" not in word)
        print(f"| {name} | `{shown}` | {cells} |", flush=True)
PYTHON
