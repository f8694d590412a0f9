#!/usr/bin/env python3
"""A linter for settings (ini.peg): `lint.py FILE..` reports each key that is set twice in a section. What doesn't match
goes to `pegtool explain`. The program is pegtool, or what PEGTOOL names. The exit status is 1 if something is reported."""
import json
import os
import subprocess
import sys

EXAMPLES = os.path.dirname(os.path.dirname(os.path.abspath(__file__)))
GRAMMAR = os.path.join(EXAMPLES, "ini.peg")
PROGRAM = os.environ.get("PEGTOOL", "pegtool")


def keys_set_twice(rows, data):
    """The line of each key that is set again in its section, with the key and the line where it was set before."""
    lines = {}
    for _, rule, start, end in rows:
        if rule == "Section":
            lines = {}
        elif rule == "Key":
            key, line = data[start:end].decode(), data.count(b"\n", 0, start) + 1
            if key in lines:
                yield line, key, lines[key]
            lines.setdefault(key, line)


def lint(name):
    """Reports what is wrong in a file. Returns whether something is."""
    done = subprocess.run([PROGRAM, "parse", GRAMMAR, name, "--rows"], stdout=subprocess.PIPE)
    if done.returncode:
        return subprocess.run([PROGRAM, "explain", GRAMMAR, name]).returncode != 0
    with open(name, "rb") as file:
        found = list(keys_set_twice(json.loads(done.stdout)["rows"], file.read()))
    for line, key, before in found:
        print(f"{name}:{line}: {key} is already set in line {before}")
    return bool(found)


sys.exit(max([lint(name) for name in sys.argv[1:]], default=False))
