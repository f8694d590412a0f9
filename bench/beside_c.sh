#!/usr/bin/env bash
# Runs `pegtool parse --rows --memo 0` and the same machine in C (plain.c) on generated texts. Prints the CPU seconds and
# the peak memory of the whole processes, and the ratio of the times. Then, if crates/peg_bench is built, the run alone
# (`run` of peg_machine beside the run of plain.c, with entries of 16 and of 24 bytes), with a new table of shortcuts and
# with one from an earlier run. The argument is the program.
set -eu
program=$(realpath -- "${1:-$(dirname "$0")/../crates/pegtool/out/pegtool}")
cd "$(dirname "$0")"
folder=$(mktemp -d)
trap 'rm -rf "$folder"' EXIT
cc -O2 -o "$folder/plain" plain.c
cc -O2 -DWIDE -o "$folder/wide" plain.c
python3 -B - "$program" "$folder" << 'PYTHON'
import json
import os
import re
import subprocess
import sys

from runs import used, written
from texts import EXAMPLES, csv_text, grammars, json_text, sums

PROGRAM, FOLDER = sys.argv[1:]
BENCH = "../crates/peg_bench/out/peg_bench"
RUNS = 5

RIGHT = f"{FOLDER}/right.peg"
with open(RIGHT, "w") as file:
    file.write("S <- 'a' S / 'b'\n")

CASES = [
    ("JSON, 1 MB", f"{EXAMPLES}/json.peg", lambda: json_text(10**6)),
    ("JSON, 8 MB", f"{EXAMPLES}/json.peg", lambda: json_text(8 * 10**6)),
    ("JSON, 60 MB", f"{EXAMPLES}/json.peg", lambda: json_text(6 * 10**7)),
    ("CSV, 8 MB", f"{EXAMPLES}/csv.peg", lambda: csv_text(8 * 10**6)),
    ("sums and products, 1 MB", f"{EXAMPLES}/arithmetic.peg", lambda: sums(10**6)),
    ("grammar files, 1 MB", f"{EXAMPLES}/notation.peg", lambda: grammars(10**6)),
    ("right recursion, 10,000 levels", RIGHT, lambda: b"a" * 10**4 + b"b"),
    ("right recursion, 1,000,000 levels", RIGHT, lambda: b"a" * 10**6 + b"b"),
]


def output_of(*words):
    return json.loads(subprocess.run([PROGRAM, *words], capture_output=True, check=True).stdout)


def listing(grammar, path):
    """The code of a grammar, as plain.c reads it."""
    code = output_of("code", grammar)
    names = [entry["rule"] for entry in output_of("table", grammar)["table"]]
    terminals = 1 + max((one[1] for one in code["code"] if one[0] == "test"), default=-1)
    letters = {"test": "T", "call": "C", "ret": "R", "choice": "H", "commit": "M", "failtwice": "F", "end": "E"}
    with open(path, "w") as file:
        print(len(names), terminals, len(code["code"]), file=file)
        for name, entry in zip(names, code["entries"]):
            print(name, entry, file=file)
        for kind, *more in code["code"]:
            held = bytearray(32)
            for low, high in more[1] if kind == "test" else []:
                for byte in range(low, high + 1):
                    held[byte >> 3] |= 1 << (byte & 7)
            print(letters[kind], more[0] if more else 0, held.hex() if kind == "test" else "", file=file)


def rows_in(path):
    with open(path, "rb") as file:
        line = file.read()
    return line[line.index(b'"rows":') :]


def microseconds(*words):
    """The numbers that a program prints of its runs."""
    return [int(number) for number in re.findall(rb"\d+", subprocess.run(words, capture_output=True, check=True).stdout)]


print("| Text | C, seconds | MiB | pegtool, seconds | MiB | Ratio |")
print("|---|---|---|---|---|---|")
for name, grammar, make in CASES:
    text, code = f"{FOLDER}/text", f"{FOLDER}/code"
    written(text, make)
    listing(grammar, code)
    commands = [[f"{FOLDER}/plain", code, text], [PROGRAM, "parse", grammar, text, "--rows", "--memo", "0"]]
    best = [(1e9, 0), (1e9, 0)]
    for _ in range(RUNS):
        for k, words in enumerate(commands):
            best[k] = min(best[k], used(words, f"{FOLDER}/line{k}"))
    child = os.fork()
    if child == 0:
        os._exit(rows_in(f"{FOLDER}/line0") != rows_in(f"{FOLDER}/line1"))
    if os.waitpid(child, 0)[1]:
        sys.exit(f"not the same rows: {name}")
    (floor, floor_peak), (ours, peak) = best
    print(f"| {name} | {floor:.3f} | {floor_peak / 2**20:.0f} | {ours:.3f} | {peak / 2**20:.0f} | {ours / floor:.2f} |")
if os.path.exists(BENCH):
    print("\n| Text | C, the run alone, ms | C, 24 bytes, ms | `run`, ms | Ratio | A new table, ms | The table kept, ms |")
    print("|---|---|---|---|---|---|---|")
    for name, grammar, make in CASES:
        text, code = f"{FOLDER}/text", f"{FOLDER}/code"
        written(text, make)
        listing(grammar, code)
        best = [1e9] * 5
        for _ in range(RUNS):
            floor = microseconds(f"{FOLDER}/plain", code, text, "run")[-1:]
            wide = microseconds(f"{FOLDER}/wide", code, text, "run")[-1:]
            ours = microseconds(BENCH, "run", grammar, text)[-1:]
            best = list(map(min, best, floor + wide + ours + microseconds(BENCH, "again", grammar, text)))
        times = [f"{time / 1000:.1f}" for time in best]
        times.insert(3, f"{best[2] / max(best[0], 1):.2f}")
        print(f"| {name} | {' | '.join(times)} |")
PYTHON
