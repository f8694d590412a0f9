#!/usr/bin/env python3
"""Checks the recipe for an escape in CONTRIBUTING.md: each file that holds the list of escape letters is named there.

The list may be written as the class in rule Char, in any quoting, or byte by byte. A file is named by its path, or by its
path in a crate if the recipe has the crate's name. Prints each file that isn't named, and exits with 1 if there is one.
"""

import re
import subprocess
import sys
from pathlib import Path

TOP = Path(__file__).resolve().parent.parent
# The letters n, r and t and the two quotes, then the brackets, each with any number of backslashes before it.
AS_CLASS = re.compile(r"nrt'\\*\"(?:\\*[\[\]\\])+")
# Byte by byte: n, r and t each on a line, as characters or as pairs with the bytes that they denote.
AS_BYTES = re.compile(r"b'n',\s*byte: .{1,120}?b'r',\s*byte: .{1,120}?b't',|\b110 10\b.{1,80}?\b114 13\b", re.S)


def holds_list(text):
    """Whether a text has the list of escape letters."""
    return bool(AS_CLASS.search(text) or AS_BYTES.search(text))


def recipe_of(text):
    """The recipe for an escape: from its title to the next one."""
    return re.search(r"^\*\*Add an escape.*?(?=^\*\*)", text, re.M | re.S).group(0)


def is_named(path, recipe):
    """Whether a recipe names a file."""
    parts = path.split("/")
    if parts[0] == "crates":
        return f"`{parts[1]}" in recipe and f"{'/'.join(parts[2:])}`" in recipe
    return f"`{path}`" in recipe


def missing(files, recipe):
    """The files, given as pairs of path and text, that hold the list and aren't named."""
    return [path for path, text in files if holds_list(text) and not is_named(path, recipe)]


def tracked():
    """The files of the repository that are UTF-8, but for this script, its test and the recipe."""
    listed = subprocess.run(["git", "ls-files", "-z"], cwd=TOP, capture_output=True, check=True).stdout.decode()
    for path in filter(None, listed.split("\0")):
        if Path(path).name in ("recipes.py", "test_recipes.py", "CONTRIBUTING.md") or not (TOP / path).is_file():
            continue
        try:
            yield path, (TOP / path).read_text(encoding="utf-8")
        except UnicodeDecodeError:
            pass


def main():
    found = missing(tracked(), recipe_of((TOP / "CONTRIBUTING.md").read_text(encoding="utf-8")))
    for path in found:
        print(f"{path} holds the list of escape letters, and the recipe in CONTRIBUTING.md doesn't name it")
    print(f"{len(found)} faults")
    return bool(found)


if __name__ == "__main__":
    sys.exit(main())
