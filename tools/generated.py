"""What the scripts share that write a part of a document from the sources: the product crates, and the replacement of the
part between two markers."""

import sys
from pathlib import Path

TOP = Path(__file__).resolve().parent.parent


def product_crates():
    """The crates above the heading `tests` in crates.txt, in order."""
    lines = (TOP / "crates.txt").read_text(encoding="utf-8").split("\n# tests\n")[0].splitlines()
    return [line.split(":")[0].split()[0] for line in lines if line and not line.startswith("#")]


def run(document, name, script, listing):
    """Writes, compares or prints the part of a document between its markers, by the words of the command line.

    `listing` makes the part from what comes before it. Returns the exit status.
    """
    begin, end = f"<!-- {name}: written by tools/{script} -->", f"<!-- {name} end -->"
    text = document.read_text(encoding="utf-8")
    head, _, rest = text.partition(begin)
    _, _, tail = rest.partition(end)
    new = f"{head}{begin}\n\n{listing(head)}\n{end}{tail}"
    if "--write" in sys.argv:
        document.write_text(new, encoding="utf-8")
    elif "--check" not in sys.argv:
        print(listing(head))
    elif new != text:
        print(f"docs/{document.name}: the list of {name} differs from the sources; run tools/{script} --write")
        return 1
    else:
        print(f"docs/{document.name}: the list of {name} is that of the sources")
    return 0
