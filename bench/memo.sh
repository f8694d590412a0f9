#!/usr/bin/env bash
# Runs `pegtool parse --rows` with `--memo 0` and `--memo 4096` on generated texts. Prints the CPU seconds and the peak
# memory of the whole processes, and the ratio of the times. The output must be the same. Then, if crates/peg_bench is
# built, the parse alone, also of texts that need the memo: without a memo, in one run with it, and as `Parser::parse`
# does. The argument is the program.
set -eu
program=$(realpath -- "${1:-$(dirname "$0")/../crates/pegtool/out/pegtool}")
cd "$(dirname "$0")"
folder=$(mktemp -d)
trap 'rm -rf "$folder"' EXIT
python3 -B - "$program" "$folder" << 'PYTHON'
import filecmp
import os
import re
import subprocess
import sys

from runs import used, written
from texts import EXAMPLES, csv_text, grammars, json_text, sums

PROGRAM, FOLDER = sys.argv[1:]
BENCH = "../crates/peg_bench/out/peg_bench"
RUNS = 5

GRAMMARS = {
    "right": "S <- 'a' S / 'b'\n",
    "twice": "A <- '(' A ')' 'x' / '(' A ')' 'y' / 'a'\n",
    "ladder": "A <- B '<' A / B\nB <- C '+' B / C\nC <- D '*' C / D\nD <- E '^' D / E\nE <- '(' A ')' / [0-9]\n",
}
for name, rules in GRAMMARS.items():
    with open(f"{FOLDER}/{name}.peg", "w") as file:
        file.write(rules)


def right(count):
    return (f"{FOLDER}/right.peg", lambda: b"a" * count + b"b")


def twice(count):
    return (f"{FOLDER}/twice.peg", lambda: b"(" * count + b"a" + b")y" * count)


def ladder(count):
    return (f"{FOLDER}/ladder.peg", lambda: b"(" * count + b"1" + b")" * count)


# Texts on which the plain run ends soon, and texts that need the memo.
BOTH = {
    "JSON, 1 MB": (f"{EXAMPLES}/json.peg", lambda: json_text(10**6)),
    "JSON, 8 MB": (f"{EXAMPLES}/json.peg", lambda: json_text(8 * 10**6)),
    "JSON, 60 MB": (f"{EXAMPLES}/json.peg", lambda: json_text(6 * 10**7)),
    "CSV, 8 MB": (f"{EXAMPLES}/csv.peg", lambda: csv_text(8 * 10**6)),
    "sums and products, 1 MB": (f"{EXAMPLES}/arithmetic.peg", lambda: sums(10**6)),
    "grammar files, 1 MB": (f"{EXAMPLES}/notation.peg", lambda: grammars(10**6)),
    "right recursion, 10,000 levels": right(10**4),
    "right recursion, 100,000 levels": right(10**5),
    "right recursion, 1,000,000 levels": right(10**6),
}
WITH_MEMO = {
    "alternatives with a common prefix, 10 levels": twice(10),
    "alternatives with a common prefix, 100 levels": twice(100),
    "alternatives with a common prefix, 1,000 levels": twice(1000),
    "alternatives with a common prefix, 10,000 levels": twice(10**4),
    "five levels of operators, 10 parentheses": ladder(10),
    "five levels of operators, 100 parentheses": ladder(100),
    "five levels of operators, 1,000 parentheses": ladder(1000),
}


def best_of(grammar, text, memos):
    """The least seconds and bytes of some runs with each of these memos, which take turns."""
    found = [
        [used([PROGRAM, "parse", grammar, text, "--rows", "--memo", str(memo)], f"{FOLDER}/line{memo}") for memo in memos]
        for _ in range(RUNS)
    ]
    return [min(runs) for runs in zip(*found)]


print("| Text | `--memo 0`, seconds | MiB | `--memo 4096`, seconds | MiB | Ratio |")
print("|---|---|---|---|---|---|")
for name, (grammar, make) in BOTH.items():
    text = f"{FOLDER}/text"
    written(text, make)
    (plain, plain_peak), (memo, peak) = best_of(grammar, text, [0, 4096])
    if not filecmp.cmp(f"{FOLDER}/line0", f"{FOLDER}/line4096", shallow=False):
        sys.exit(f"not the same line: {name}")
    print(f"| {name} | {plain:.3f} | {plain_peak / 2**20:.0f} | {memo:.3f} | {peak / 2**20:.0f} | {memo / plain:.2f} |")


def milliseconds(mode, grammar, text):
    """The time of one parse, without the time of reading the files."""
    printed = subprocess.run([BENCH, "parse", mode, grammar, text], capture_output=True, check=True).stdout
    return int(re.fullmatch(rb"\d+ steps, (\d+) us\n", printed)[1]) / 1000


def in_turn(modes, grammar, text):
    """The least times of these modes of parsing, which take turns."""
    found = [[milliseconds(mode, grammar, text) for mode in modes] for _ in range(RUNS)]
    return [max(min(times), 0.001) for times in zip(*found)]


if os.path.exists(BENCH):
    print("\n| Text | Without a memo, ms | One run with the memo, ms | `Parser::parse`, ms | To the first | To the second |")
    print("|---|---|---|---|---|---|")
    for name, (grammar, make) in (BOTH | WITH_MEMO).items():
        text = f"{FOLDER}/text"
        written(text, make)
        if name in BOTH:
            plain, memo, both = in_turn(["plain", "memo", "default"], grammar, text)
            cells = f"{plain:.1f} | {memo:.1f} | {both:.1f} | {both / plain:.2f} | {both / memo:.2f}"
        else:
            memo, both = in_turn(["memo", "default"], grammar, text)
            cells = f" | {memo:.1f} | {both:.1f} | | {both / memo:.2f}"
        print(f"| {name} | {cells} |")
PYTHON
