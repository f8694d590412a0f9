#!/usr/bin/env python3
"""Checks the documents: each link leads to a file and a heading, each limit is stated in docs/USAGE.md alone, and
README.md has the number of wrong edits.

The limits are the numbers of at least four digits in the table "Limits" of docs/USAGE.md, and the defaults of at least
four digits in its tables of options. With --sentences the average and the greatest number of words in a sentence of each
document are printed; that is no check. Prints each fault, and exits with 1 if there is one.
"""

import re
import sys
from pathlib import Path

TOP = Path(__file__).resolve().parent.parent
USAGE = TOP / "docs" / "USAGE.md"
LINK = re.compile(r"\[[^\]]*\]\(([^)\s]+)\)")
FENCED = re.compile(r"^```.*?^```$", re.M | re.S)
BLOCK = re.compile(r"^ {4}.*$", re.M)
CODE = re.compile(r"`[^`]*`")


def documents():
    """The documents of the repository."""
    return sorted(path for path in TOP.rglob("*.md") if "out" not in path.parts)


def anchors_of(text):
    """The anchors of a document's headings, as they are shown on the web."""
    headings = re.findall(r"^#+ (.*)$", text, re.M)
    return {re.sub(r"[^\w\- ]", "", heading.lower()).replace(" ", "-") for heading in headings}


def dead_links(path, text):
    """The links of a document that lead to no file or no heading."""
    for link in LINK.findall(text):
        if link.startswith(("http:", "https:")):
            continue
        name, _, anchor = link.partition("#")
        target = (path.parent / name).resolve() if name else path
        if not target.exists():
            yield f"{link}: no such file"
        elif anchor and anchor not in anchors_of(target.read_text(encoding="utf-8")):
            yield f"{link}: no such heading"


def limits():
    """The numbers of the table of limits, and the defaults."""
    text = USAGE.read_text(encoding="utf-8")
    section = text.split("\n## Limits\n")[1].split("\n## ")[0]
    rows = [line.split("|")[2] for line in section.splitlines() if line.startswith("|")]
    numbers = {number for row in rows for number in re.findall(r"\d{1,3}(?:,\d{3})+", row)}
    return numbers | {f"default: {number}" for number in re.findall(r"default: (\d{4,})", text)}


def stated_again(path, text, numbers):
    """The limits that another document states."""
    if path == USAGE or path.name == "CHANGELOG.md" or path.parent.name == "bench":
        return
    for number in sorted(numbers):
        if number in text:
            yield f"{number}: this limit is stated in docs/USAGE.md"


def wrong_count(text, count):
    """What is wrong with the number of wrong edits that README.md states."""
    for stated in re.findall(r"(\d+) wrong edits", text):
        if int(stated) != count:
            yield f"{stated} wrong edits: there are {count}"


def sentence_lengths(text):
    """The numbers of words of a document's sentences. Code and tables are left out."""
    text = CODE.sub("x", BLOCK.sub("", FENCED.sub("", text)))
    prose = "\n".join(line for line in text.splitlines() if not line.startswith(("|", "#", "<!--")))
    sentences = re.split(r"(?<=[.:;?!])\s+|\n\s*\n|\n- ", prose)
    return [len(sentence.split()) for sentence in sentences if len(sentence.split()) > 1]


def main():
    faults = []
    edits = len(list((TOP / "crates").glob("*/must-fail/*.edit")))
    for path in documents():
        text = path.read_text(encoding="utf-8")
        name = path.relative_to(TOP)
        if "--sentences" in sys.argv:
            lengths = sentence_lengths(text)
            print(f"{name}: {sum(lengths) / len(lengths):.1f} words on average, {max(lengths)} at most")
        wrong = wrong_count(text, edits) if name == Path("README.md") else []
        for fault in [*dead_links(path, text), *stated_again(path, text, limits()), *wrong]:
            faults.append(f"{name}: {fault}")
    for fault in faults:
        print(fault)
    print(f"documents: {len(documents())} documents, {len(faults)} faults")
    return 1 if faults else 0


if __name__ == "__main__":
    sys.exit(main())
