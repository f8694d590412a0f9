#!/usr/bin/env bash
# Runs `pegtool explain` on generated JSON: a thousand texts of about 1 kB in one run, half of them with a mistake, and in
# a run for each; and large texts, with a mistake near the end and without one, beside `parse --no-tree`. Prints the CPU
# seconds and the peak memory. The argument is the program, and a second one the millions of bytes of a large text (60 if
# there is none).
set -eu
program=$(realpath -- "${1:-$(dirname "$0")/../crates/pegtool/out/pegtool}")
millions=${2:-60}
cd "$(dirname "$0")"
folder=$(mktemp -d)
trap 'rm -rf "$folder"' EXIT
python3 -B - "$program" "$folder" "$millions" << 'PYTHON'
import sys

from runs import used, written
from texts import EXAMPLES, json_text

PROGRAM, FOLDER, MILLIONS = sys.argv[1:]
RUNS = 3
SMALL = 1000
GRAMMAR = f"{EXAMPLES}/json.peg"


def small(number):
    """A text of about 1 kB. In every second one a colon is missing."""
    text = json_text(900 + number % 200)
    return text.replace(b'": true', b'" true', 1) if number % 2 else text


def broken():
    text = json_text(int(MILLIONS) * 10**6)
    at = text.rindex(b":")
    return text[:at] + b";" + text[at + 1:]


names = [f"{FOLDER}/{number}" for number in range(SMALL)]
for number, name in enumerate(names):
    with open(name, "wb") as file:
        file.write(small(number))
with open(f"{FOLDER}/names", "w", encoding="utf-8") as file:
    file.write("".join(f"{name}\n" for name in names))
written(f"{FOLDER}/whole", lambda: json_text(int(MILLIONS) * 10**6))
written(f"{FOLDER}/broken", broken)


def best(words, ends):
    seconds, peak = min(used([PROGRAM, *words], f"{FOLDER}/line", ends) for _ in range(RUNS))
    return seconds, peak / 2**20


def each():
    """One run for each small text."""
    found = [used([PROGRAM, "explain", GRAMMAR, name], f"{FOLDER}/line", number % 2) for number, name in enumerate(names)]
    return sum(seconds for seconds, _ in found), max(peak for _, peak in found) / 2**20


rows = {
    f"{SMALL} texts of 1 kB in one run": best(["explain", GRAMMAR, "--files-from", f"{FOLDER}/names"], 1),
    f"{SMALL} texts of 1 kB, a run for each": each(),
    f"{MILLIONS} MB that match": best(["explain", GRAMMAR, f"{FOLDER}/whole"], 0),
    f"the same by `parse --no-tree`": best(["parse", GRAMMAR, f"{FOLDER}/whole", "--no-tree"], 0),
    f"{MILLIONS} MB with a mistake near the end": best(["explain", GRAMMAR, f"{FOLDER}/broken"], 1),
    "the same with `--terminals`": best(["explain", GRAMMAR, f"{FOLDER}/broken", "--terminals"], 1),
}
print("| Texts | Seconds | MiB |")
print("|---|---|---|")
for name, (seconds, peak) in rows.items():
    print(f"| {name} | {seconds:.2f} | {peak:.0f} |")
PYTHON
