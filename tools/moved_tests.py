#!/usr/bin/env python3
"""Checks where the tests of earlier crates have gone. Each file of tests/moved is named for a crate or a script, and has
a line `TEST: SUCCESSOR` for each of its tests, or several. A successor is

    cases/FOLDER/FILE.t: BEGINNING        a case in tests/, by the first words of the sentence above it
    cases/FOLDER/FILE.t: $ PART           a case in tests/, by a part of its command
    cases/FOLDER/FILE.t: all cases        each case of a file in tests/
    CRATE::MODULE::TEST                   a test in Rattle
    PATH: WHAT                            another script or file of the repository, with what in it shows the same

Prints a line for each successor that isn't there, and counts. With `--list` each test is printed with its successor, and
a case with its line."""
import collections
import pathlib
import re
import sys

TOP = pathlib.Path(__file__).resolve().parent.parent
RATTLE_TEST = re.compile(r"(peg_\w+)::(\w+)::(\w+)")


def sentences(path: pathlib.Path) -> list[tuple[int, str]]:
    """The sentences of a case file, each with the line where it begins."""
    found: list[tuple[int, str]] = []
    is_open = False
    for number, line in enumerate(path.read_text(encoding="utf-8").split("\n"), 1):
        is_text = bool(line.strip()) and not line.startswith(" ")
        if is_text and is_open:
            found[-1] = (found[-1][0], f"{found[-1][1]} {line}")
        elif is_text:
            found.append((number, line))
        is_open = is_text
    return found


def successor(text: str) -> str | None:
    """A successor with its place, or None if it isn't there."""
    if found := RATTLE_TEST.fullmatch(text):
        crate, module, name = found.groups()
        path = TOP / "crates" / crate / "src" / f"{module}.rt"
        is_there = path.is_file() and re.search(rf"#\[test\]\s+fn {name}\b", path.read_text(encoding="utf-8"))
        return text if is_there else None
    name, _, beginning = text.partition(": ")
    path = TOP / "tests" / name if name.startswith("cases/") else TOP / name
    if not path.is_file() or not beginning:
        return None
    if path.suffix != ".t" or beginning == "all cases":
        return text
    if beginning.startswith("$ "):
        lines = [number for number, line in enumerate(path.read_text(encoding="utf-8").split("\n"), 1)
                 if line.startswith("  $ ") and beginning[2:] in line]
    else:
        lines = [line for line, sentence in sentences(path) if sentence.startswith(beginning)]
    return f"tests/{name}:{lines[0]}: {beginning}" if lines else None


def main() -> int:
    tests: dict[str, set[str]] = collections.defaultdict(set)
    count = faults = 0
    for file in sorted((TOP / "tests/moved").glob("*.txt")):
        for line in filter(str.strip, file.read_text(encoding="utf-8").split("\n")):
            test, _, wanted = line.partition(": ")
            place = successor(wanted.strip())
            count += 1
            tests[file.stem].add(test)
            if not place:
                faults += 1
                print(f"tests/moved/{file.name}: {test}: no such successor: {wanted}")
            elif "--list" in sys.argv:
                print(f"{file.stem}::{test}: {place}")
    print(f"moved tests: {sum(map(len, tests.values()))} of {len(tests)} crates and scripts, {count} successors, "
          f"{faults} faults")
    return 1 if faults or not count else 0


sys.exit(main())
