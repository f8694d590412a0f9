#!/usr/bin/env bash
# Runs `pegtool parse --lines` on generated records from a pipe: lines of 30 bytes without a tree, and lines of 100
# bytes with their nodes, beside a parse of the same bytes as one text. Prints the CPU seconds, the microseconds of a
# record and the peak memory. The argument is the program, and a second one the millions of bytes of a long stream (2000
# if there is none), which is in no file.
set -eu
program=$(realpath -- "${1:-$(dirname "$0")/../crates/pegtool/out/pegtool}")
millions=${2:-2000}
cd "$(dirname "$0")"
folder=$(mktemp -d)
trap 'rm -rf "$folder"' EXIT
python3 -B - "$program" "$folder" "$millions" << 'PYTHON'
import sys

from runs import piped, used, written

PROGRAM, FOLDER, MILLIONS = sys.argv[1:]
RUNS = 3
GRAMMARS = {
    "record": "Line <- Field (',' Field)* !.\nField <- Word\nWord <- [a-z0-9]+\n",
    "text": "Text <- (Line '\\n')* !.\nLine <- Field (',' Field)*\nField <- Word\nWord <- [a-z0-9]+\n",
}
SHORT = b"first,22,third,4444,fifth,667\n"  # 30 bytes
LONG = b"ab," * 20 + b"cde," * 9 + b"fgh\n"  # 100 bytes, 61 nodes

for name, grammar in GRAMMARS.items():
    written(f"{FOLDER}/{name}", grammar.encode)


def row(name, line, count, runs, options):
    """A row of the table: the best of some runs over a line that is repeated."""
    words = [PROGRAM, "parse", f"{FOLDER}/record", "--lines", *options]
    seconds, peak = min(piped(words, line, count) for _ in range(runs))
    print(f"| {name} | {seconds:.2f} | {seconds / count * 10**6:.2f} | {peak / 2**20:.0f} |", flush=True)


def whole(name, line, count, options):
    """The same bytes parsed as one text."""
    written(f"{FOLDER}/lines", lambda: line * count)
    words = [PROGRAM, "parse", f"{FOLDER}/text", f"{FOLDER}/lines", *options]
    seconds, peak = min(used(words, "/dev/null") for _ in range(RUNS))
    print(f"| {name} | {seconds:.2f} | {seconds / count * 10**6:.2f} | {peak / 2**20:.0f} |", flush=True)


print("| Records | Seconds | µs each | MiB |")
print("|---|---|---|---|")
row("1,000,000 of 30 bytes, `--no-tree`", SHORT, 10**6, RUNS, ["--no-tree"])
whole("the same as one text", SHORT, 10**6, ["--no-tree"])
row("500,000 of 100 bytes, `--rows`", LONG, 500_000, RUNS, ["--rows"])
whole("the same as one text", LONG, 500_000, ["--rows"])
row(f"{MILLIONS} MB of 100 bytes, `--no-tree`", LONG, int(MILLIONS) * 10**4, 1, ["--no-tree"])
PYTHON
