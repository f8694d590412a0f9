#!/usr/bin/env python3
"""Lists the definition files of the product crates with their header comments, for docs/DEFINITIONS.md.

With --write the list replaces the part of docs/DEFINITIONS.md between its two markers; with --check the exit status is
1 if that part differs from the sources. Files whose header begins with "Describes code" are left out, and so are the
files named in the document's first table. The product crates are those above the heading `tests` in crates.txt.
"""

import sys

from generated import TOP, product_crates, run

DOCUMENT = TOP / "docs" / "DEFINITIONS.md"


def header_of(path):
    """The comment at the start of a file, as one line."""
    lines = []
    for line in path.read_text(encoding="utf-8").splitlines():
        if not line.startswith("--"):
            break
        lines.append(line[2:].strip())
    return " ".join(lines)


def listing(head):
    """The table, as Markdown, without the files that the head of the document names."""
    lines = ["| File below `crates/` | Contents |", "|---|---|"]
    for crate in product_crates():
        for path in sorted((TOP / "crates" / crate / "specs").glob("*.antt")):
            name = f"{crate}/specs/{path.name}"
            header = header_of(path)
            if path.name == "Lib.antt" or header.startswith("Describes code") or name in head:
                continue
            lines.append(f"| `{name}` | {header} |")
    return "\n".join([*lines, ""])


if __name__ == "__main__":
    sys.exit(run(DOCUMENT, "definitions", "definitions.py", listing))
