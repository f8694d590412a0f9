#!/usr/bin/env python3
"""Checks the table of frames in docs/ARCHITECTURE.md against the code.

A row has a number, a function and its file below crates/. Each function has to be in its file, and its body has to call
the function of the next row. The rows are numbered from 1, and the text of the section states how many there are. Prints
each fault, and exits with 1 if there is one.
"""

import re
import sys
from pathlib import Path

TOP = Path(__file__).resolve().parent.parent
SECTION = re.compile(r"^## Frames$.*?(?=^## |\Z)", re.M | re.S)
ROW = re.compile(r"^\| (\d+) \| `([\w:]+)` \| `([\w/.]+)` \| [^|]+ \|$", re.M)
STATED = re.compile(r"\b(\d+) frames\b")


def rows_of(text):
    """The rows of the table: the number, the function and the file of each."""
    return [(int(number), function, file) for number, function, file in ROW.findall(text)]


def body_of(code, function):
    """The body of a function without its comments, or None. `Type::name` is a method of that type."""
    owner, _, name = function.rpartition("::")
    blocks = [code]
    if owner:
        blocks = re.findall(rf"^impl\b[^\n]*\b{owner}\b[^\n]*\{{$.*?^\}}$", code, re.M | re.S)
    for block in blocks:
        found = re.search(rf"^( *)(?:pub(?:\(\w+\))? )?fn {name}\b.*?^\1(?:\}}|\S.*\{{)$", block, re.M | re.S)
        if found:
            opening = re.compile(rf"^{found.group(1)}(?:\{{|\S.*\{{)$", re.M).search(block, found.start())
            closing = re.compile(rf"^{found.group(1)}\}}$", re.M).search(block, opening.end())
            return re.sub(r"//[^\n]*", "", block[opening.end() : closing.start()])
    return None


def calls(body, function):
    """Whether a body calls a function, with or without type arguments."""
    name = function.rpartition("::")[2]
    return bool(re.search(rf"\b{name}(?:::<[^()]*>)?\(", body))


def faults(section, read):
    """The faults of a section, where `read` returns the code of a file or None."""
    rows = rows_of(section)
    if not rows:
        yield "the table has no rows"
    if [number for number, _, _ in rows] != list(range(1, len(rows) + 1)):
        yield "the rows aren't numbered from 1"
    for stated in STATED.findall(section):
        if int(stated) != len(rows):
            yield f"the text says {stated} frames, and the table has {len(rows)}"
    for index, (number, function, file) in enumerate(rows):
        code = read(file)
        body = None if code is None else body_of(code, function)
        if body is None:
            yield f"{number}: {file} has no function {function}"
        elif index + 1 < len(rows) and not calls(body, rows[index + 1][1]):
            yield f"{number}: {function} doesn't call {rows[index + 1][1]}"


def code_of(file):
    """The code of a file below crates/, or None if there is no such file."""
    path = TOP / "crates" / file
    return path.read_text(encoding="utf-8") if path.is_file() else None


def main():
    section = SECTION.search((TOP / "docs" / "ARCHITECTURE.md").read_text(encoding="utf-8"))
    found = list(faults(section.group(0), code_of)) if section else ["docs/ARCHITECTURE.md has no section Frames"]
    for fault in found:
        print(fault)
    print(f"{len(found)} faults")
    return bool(found)


if __name__ == "__main__":
    sys.exit(main())
