#!/usr/bin/env python3
"""Runs the built program over texts that nest a million levels deep, fail through a million calls, or have the maximum
length, and compares the lines. The argument is the program, by default the one that `make run` builds."""
import json
import os
import subprocess
import sys
import tempfile

HERE = os.path.dirname(os.path.abspath(__file__))
PROGRAM = sys.argv[1] if len(sys.argv) > 1 else os.path.join(HERE, "../crates/pegtool/out/pegtool")
LONGEST = 67_108_864
MILLION = 1_000_000

RIGHT = b"S <- 'a' S / 'b'\n"
NESTED = b"S <- '(' S ')' / 'x'\n"
COUNTS = b"D <- &(A !'b') 'a'* B !.\nA <- 'a' A 'b' / ''\nB <- 'b' B 'c' / ''\n"
WHOLE = b"S <- .* !.\n"

faults = 0


def printed(command, grammar, text, *words):
    """The status and the line of a command."""
    with tempfile.TemporaryDirectory() as folder:
        files = [os.path.join(folder, name) for name in ("grammar", "text")]
        for path, content in zip(files, (grammar, text)):
            with open(path, "wb") as file:
                file.write(content)
        done = subprocess.run([PROGRAM, command, *files, *words], capture_output=True)
    return done.returncode, json.loads(done.stdout)


def parsed(grammar, text, *words):
    return printed("parse", grammar, text, *words)


def explained(grammar, text):
    """The status of an explanation, and what it prints after the name of the text."""
    with tempfile.TemporaryDirectory() as folder:
        files = [os.path.join(folder, name) for name in ("grammar", "text")]
        for path, content in zip(files, (grammar, text)):
            with open(path, "wb") as file:
                file.write(content)
        done = subprocess.run([PROGRAM, "explain", *files], capture_output=True)
        return done.returncode, done.stdout.decode().replace(f"{files[1]}:", "")


def wanted(what, answer, status, line):
    """Compares a status and a line with those that are wanted."""
    global faults
    if answer != (status, line):
        print(f"not the line that is wanted: {what}", file=sys.stderr)
        faults += 1


def matched(end, far, expected, rows):
    return {"consumed": end, "expected": expected, "far": far, "result": "matched", "rows": rows}


wanted(
    "a million levels of right recursion",
    parsed(RIGHT, b"a" * MILLION + b"b", "--rows"),
    0,
    matched(MILLION + 1, MILLION, [[5, 8]], [[n + 1, "S", n, MILLION + 1] for n in range(MILLION + 1)]),
)
wanted(
    "a million parentheses in one another",
    parsed(NESTED, b"(" * MILLION + b"x" + b")" * MILLION, "--rows"),
    0,
    matched(2 * MILLION + 1, MILLION, [[5, 8]], [[n + 1, "S", n, 2 * MILLION + 1 - n] for n in range(MILLION + 1)]),
)
for form, tree in (
    ("--rows", {"rows": [[1, "S", 0, 2 * MILLION + 1]]}),
    ("--all", {"tree": {"children": [], "end": 2 * MILLION + 1, "rule": "S", "start": 0}}),
):
    wanted(
        f"a million levels, hidden but the root, with {form}",
        parsed(NESTED, b"(" * MILLION + b"x" + b")" * MILLION, form, "--hide", "S"),
        0,
        {"consumed": 2 * MILLION + 1, "expected": [[5, 8]], "far": MILLION, "result": "matched", **tree},
    )
wanted("an explanation of a million parentheses", explained(NESTED, b"(" * MILLION + b"x" + b")" * MILLION), 0, "")
wanted(
    "an explanation of a million parentheses, of which one isn't closed",
    explained(NESTED, b"(" * MILLION + b"x" + b")" * (MILLION - 1)),
    1,
    f"1:{2 * MILLION + 1}: expected ')', found the end\n{')' * 80}\n{' ' * 80}^\n",
)
wanted(
    "a failure through a million uses",
    parsed(RIGHT, b"a" * MILLION),
    1,
    {"expected": [[5, 8], [13, 16]], "far": MILLION, "result": "failed"},
)
wanted(
    "the profile of a million levels",
    printed("profile", RIGHT, b"a" * MILLION + b"b"),
    0,
    {
        "consumed": MILLION + 1,
        "result": "matched",
        "rules": [{"again": 0, "calls": MILLION + 1, "places": MILLION + 1, "rule": "S"}],
        "steps": 5 * MILLION + 5,
    },
)
wanted(
    "what a million parentheses use",
    printed("profile", NESTED, b"(" * MILLION + b"x" + b")" * MILLION, "--coverage"),
    0,
    {"matched": 1, "texts": 1, "unused_alternatives": [], "unused_rules": []},
)
wanted(
    "the coverage of a failure through a million uses",
    printed("profile", RIGHT, b"a" * MILLION, "--coverage"),
    1,
    {
        "matched": 0,
        "texts": 1,
        "unused_alternatives": [
            {"column": 6, "end": 10, "line": 1, "start": 5, "tried": True},
            {"column": 14, "end": 16, "line": 1, "start": 13, "tried": True},
        ],
        "unused_rules": [{"column": 1, "end": 1, "line": 1, "rule": "S", "start": 0, "tried": True}],
    },
)
wanted(
    "as many of each of three letters",
    parsed(COUNTS, b"a" * 10_000 + b"b" * 10_000 + b"c" * 10_000, "--memo", "0", "--rows"),
    0,
    matched(
        30_000,
        30_000,
        [[23, 24]],
        [[1, "D", 0, 30_000]] + [[n + 2, "B", 10_000 + n, 30_000 - n] for n in range(10_001)],
    ),
)
wanted("the longest text", parsed(WHOLE, b"z" * LONGEST, "--rows"), 0,
       matched(LONGEST, LONGEST, [[5, 6], [9, 10]], [[1, "S", 0, LONGEST]]))
wanted("what the longest text uses", printed("profile", WHOLE, b"z" * LONGEST, "--coverage"), 0,
       {"matched": 1, "texts": 1, "unused_alternatives": [], "unused_rules": []})
wanted("a text that is too long", parsed(WHOLE, b"z" * (LONGEST + 1)), 6, {"refusal": "TextTooLong"})
wanted("what a text that is too long uses", printed("profile", WHOLE, b"z" * (LONGEST + 1), "--coverage"), 6,
       {"refusal": "TextTooLong"})

print(f"{faults} faults")
sys.exit(faults != 0)
