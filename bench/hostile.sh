#!/usr/bin/env bash
# Runs each command of `pegtool` on hostile grammar files of just under 1 MiB (hostile.py). `parse` gets an empty text and
# 1 MB of the letter a. Prints what `check` reports, its CPU seconds, those of the slowest command and its name, and the
# greatest peak memory of all commands. Over 1 s or 400 MB is in bold. The argument is the program.
set -eu
program=$(realpath -- "${1:-$(dirname "$0")/../crates/pegtool/out/pegtool}")
cd "$(dirname "$0")"
folder=$(mktemp -d)
trap 'rm -rf "$folder"' EXIT
python3 -B - "$program" "$folder" << 'PYTHON'
import json
import os
import subprocess
import sys

from hostile import KINDS
from runs import written

PROGRAM, FOLDER = sys.argv[1:]
LIMIT = 1_048_576
MAX_SECONDS, MAX_BYTES = 1, 400 * 10**6
SAFE = 600
RUNS = 3

with open(f"{FOLDER}/empty", "wb"), open(f"{FOLDER}/long", "wb") as file:
    file.write(b"a" * 10**6)
COMMANDS = [
    ["check"],
    ["table"],
    ["code"],
    ["lint"],
    ["parse", f"{FOLDER}/empty", "--rows"],
    ["parse", f"{FOLDER}/long", "--rows"],
]


def run(words):
    """CPU seconds, peak memory in bytes, and the first bytes of the output, of the fastest of some runs."""
    return min(run_once(words) for _ in range(RUNS))


def run_once(words):
    line = f"{FOLDER}/line"
    with open(line, "wb") as file:
        process = subprocess.Popen(["timeout", str(SAFE), PROGRAM, *words], stdout=file, stderr=subprocess.STDOUT)
        _, _, took = os.wait4(process.pid, 0)
    with open(line, "rb") as file:
        said = file.read(200)
    return took.ru_utime + took.ru_stime, took.ru_maxrss * 1024, said


def verdict(said):
    """The result or the refusal in a line of `check`."""
    for key in ("refusal", "result"):
        at = said.find(f'"{key}":"'.encode())
        if at >= 0:
            return said[at:].split(b'"')[3].decode()
    return "LeftRecursion" if said.startswith(b'{"path"') else said[:40].decode(errors="replace")


def bold(text, over):
    return f"**{text}**" if over else text


def row(kind, whole):
    """A line of the table: all commands on a file."""
    runs = [(command, *run([command, whole, *more])) for command, *more in COMMANDS]
    _, seconds, _, said = runs[0]
    slowest = max(runs, key=lambda one: one[1])
    most = max(peak for _, _, peak, _ in runs)
    cells = [
        kind,
        verdict(said),
        bold(f"{seconds:.2f}", seconds > MAX_SECONDS),
        bold(f"{slowest[1]:.2f}", slowest[1] > MAX_SECONDS),
        f"`{slowest[0]}`",
        bold(f"{most / 2**20:.0f}", most > MAX_BYTES),
    ]
    print("| " + " | ".join(cells) + " |", flush=True)


HEADS = ["Grammar file", "Result", "`check`, seconds", "Slowest, seconds", "Which", "MiB"]
print("| " + " | ".join(HEADS) + " |")
print("|---" * len(HEADS) + "|")
for kind, make in KINDS.items():
    whole = f"{FOLDER}/whole"
    written(whole, lambda: make(LIMIT))
    row(kind, whole)
PYTHON
