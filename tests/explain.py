#!/usr/bin/env python3
"""Explains the faulty texts of tests/explain with the built program, whose path is the argument. Each grammar there is
accepted without warnings, and each text is refused by it. A mark in each text is where a person would point to. At
least nine messages of ten must be within two bytes of the marks. Prints how many are, and how many furthest failures of
`pegtool parse` are."""
import json
import os
import re
import subprocess
import sys
import tempfile

FOLDER = os.path.join(os.path.dirname(os.path.abspath(__file__)), "explain")
MARK = "\u00a6".encode()
NEAR = 2


def run(*words):
    """The exit status of a command, and what it prints."""
    done = subprocess.run(words, stdout=subprocess.PIPE, check=False)
    return done.returncode, done.stdout


def texts(name):
    """The faulty texts of a grammar, each with the offset of its mark."""
    with open(f"{FOLDER}/{name}.txt", "rb") as file:
        lines = file.read().split(b"\n")[1:-1]
    for line in lines:
        line = line.replace(b"\\\\", b"\0").replace(b"\\n", b"\n").replace(b"\0", b"\\")
        before, after = line.split(MARK)
        yield before + after, len(before)


def offset(text, line, column):
    """The offset of a line and a column, both from 1. LF, CR LF and CR end lines."""
    ends = [match.end() for match in re.finditer(b"\r\n|\r|\n", text)]
    return ([0] + ends)[line - 1] + column - 1


def places(program, grammar, folder, count):
    """The line and the column of each message, by the number of its text; and the exit status."""
    names = [f"{folder}/{number}" for number in range(count)]
    with open(f"{folder}/names", "w", encoding="utf-8") as file:
        file.write("\n".join(names) + "\n")
    status, printed = run(program, "explain", grammar, "--files-from", f"{folder}/names")
    found = re.findall(rb"(?m)^%s/(\d+):(\d+):(\d+): expected " % re.escape(folder.encode()), printed)
    return {int(number): (int(line), int(column)) for number, line, column in found}, status


def check(program, name, folder):
    """The number of texts of a grammar, of messages and of furthest failures near the marks, and of faults."""
    grammar = f"{FOLDER}/{name}.peg"
    near = near_parse = faults = 0
    if run(program, "lint", grammar) != (0, b'{"warnings":[]}\n'):
        faults += 1
        print(f"{name}: not accepted, or warnings")
    marked = list(texts(name))
    for number, (text, _) in enumerate(marked):
        with open(f"{folder}/{number}", "wb") as file:
            file.write(text)
    found, status = places(program, grammar, folder, len(marked))
    if status != 1 or len(found) != len(marked):
        faults += 1
        print(f"{name}: status {status}, {len(found)} messages for {len(marked)} texts")
    for number, (text, mark) in enumerate(marked):
        if number in found:
            near += abs(offset(text, *found[number]) - mark) <= NEAR
        ended, line = run(program, "parse", grammar, f"{folder}/{number}", "--all", "--no-tree")
        line = json.loads(line)
        near_parse += abs(max(line["far"], line.get("consumed", 0)) - mark) <= NEAR
        if ended != 1:
            faults += 1
            print(f"{name}: status {ended}: {text}")
    return len(marked), near, near_parse, faults


def main():
    program = os.path.realpath(sys.argv[1])
    counts = []
    for name in sorted(name[:-4] for name in os.listdir(FOLDER) if name.endswith(".peg")):
        with tempfile.TemporaryDirectory() as folder:
            counts.append(check(program, name, folder))
    total, near, near_parse, faults = map(sum, zip(*counts))
    print(f"explain: {total} faulty texts, {near} messages near the mark, {near_parse} furthest failures, {faults} faults")
    return 1 if faults or near * 10 < total * 9 else 0


sys.exit(main())
