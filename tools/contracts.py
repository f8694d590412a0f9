#!/usr/bin/env python3
"""Lists the public functions of the product crates with the names of their contracts' clauses, for docs/CONTRACTS.md.

With --write the list replaces the part of docs/CONTRACTS.md between its two markers; with --check the exit status is 1 if
that part differs from the sources. A clause without a name is counted as `ensures`. Functions of public traits are
listed as well, and those of a trait's implementation that have clauses of their own. The product crates are those above
the heading `tests` in crates.txt.

The records in a file of definitions whose name ends with `Contract` are what several contracts cite. They are listed
first, with their fields. A clause that cites one has its name in parentheses.
"""

import re
import sys

from generated import TOP, product_crates, run

DOCUMENT = TOP / "docs" / "CONTRACTS.md"

FUNCTION = re.compile(r'^(\s*)(pub )?(?:const )?(?:extern "C" )?fn (\w+)')
CLAUSE = re.compile(r"^\s*ensures(?: (\w+))?(?: \*)? ?(?:\{|$)")
RECORD = re.compile(r"^pub record (\w+)\b.*?\bwhere\n(.*?)(?=^\S|\Z)", re.M | re.S)
FIELD = re.compile(r"^  pub (\w+) :", re.M)


def records():
    """The records that contracts cite: the name of each with its file below crates/ and its fields."""
    found = {}
    for crate in product_crates():
        for path in sorted((TOP / "crates" / crate / "specs").glob("*Contract.antt")):
            for name, fields in RECORD.findall(path.read_text(encoding="utf-8")):
                found[name] = (f"{crate}/specs/{path.name}", FIELD.findall(fields))
    return found


def owner_of(line):
    """The type or trait that a line opens a block of, and whether it is a public trait; None for other lines."""
    found = re.match(r"^(pub )?(impl|trait)\b(?:<[^>]*>)?\s+([\w:]+)(?:<[^{]*?>)?(?:\s+for\s+([\w:]+))?", line)
    if not found:
        return None
    return (found[4] or found[3], bool(found[1]) and found[2] == "trait", bool(found[4]))


def clauses_after(lines, start, cited):
    """The clauses of the function whose head starts at a line, as Markdown, with the records that they cite."""
    names = []
    depth = 0  # the braces that are open; a record in a clause may take several lines
    for line in map(str.strip, lines[start:]):
        found = CLAUSE.match(line)
        if found:
            names.append(f"`{found[1] or 'ensures'}`")
        record = next((word for word in re.findall(r"\w+", line) if word in cited), None) if names else None
        if record:
            names[-1] += f" (`{record}`)"
        if line in ("{", "{}"):
            break
        depth += line.count("{") - line.count("}")
        if line.endswith(";") and depth == 0:
            break
        if line.endswith(("{", "}")) and re.match(r"(pub |fn |const |\) ->)", line):
            break
    return names


def functions_of(crate, cited):
    """The public functions of a crate, as pairs of a name and its clauses."""
    found = []
    for path in sorted((TOP / "crates" / crate / "src").glob("*.rt")):
        lines = path.read_text(encoding="utf-8").splitlines()
        owner, is_trait, of_trait = None, False, False
        for number, line in enumerate(lines):
            block = owner_of(line)
            if block:
                owner, is_trait, of_trait = block
            elif line == "}":
                owner, is_trait, of_trait = None, False, False
            function = FUNCTION.match(line)
            if not function or line.lstrip().startswith("//"):
                continue
            clauses = clauses_after(lines, number, cited)
            if (function[2] and not of_trait) or (is_trait and owner) or (of_trait and clauses):
                name = f"{owner}::{function[3]}" if owner else function[3]
                if path.stem.endswith("laws"):
                    name = f"{path.stem}::{function[3]}"
                found.append((name, clauses))
    return found


def listing(_head):
    """The list, as Markdown."""
    cited = records()
    lines = ["**Records**", ""]
    for name, (path, fields) in cited.items():
        lines.append(f"- `{name}` (`{path}`): {', '.join(f'`{field}`' for field in fields)}")
    lines.append("")
    for crate in product_crates():
        functions = functions_of(crate, cited)
        if not functions:
            continue
        lines.append(f"**{crate}**")
        lines.append("")
        for name, clauses in functions:
            lines.append(f"- `{name}`" + (f": {', '.join(clauses)}" if clauses else ""))
        lines.append("")
    return "\n".join(lines)


if __name__ == "__main__":
    sys.exit(run(DOCUMENT, "contracts", "contracts.py", listing))
