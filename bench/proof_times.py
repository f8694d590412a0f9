#!/usr/bin/env python3
"""Lists the functions of a crate by the seconds that their proofs took, the longest first.

A check keeps each module that it has proved in `out/incremental` of the crate, and the time of the file is when the proof
ended. So the time between one file and the next is that of the second module, if the check ran on one core, as
`rt check --jobs 1` or `rt test --jobs 1` from nothing. The arguments are the crate's folder and how many functions are
listed (20 if left out).
"""

import re
import sys
from pathlib import Path

# A module's file: its library, then its path. A function's modules are below the path of the function.
MODULE = re.compile(r"Rattle-\w+-(?:proofs|specs)\.(?P<path>.+?)(?:\.decls)?\.oantt$")
# The modules that the toolchain makes for a function.
PARTS = re.compile(r"\.(Answers|Carried[-\d]*|Code|Given|Goals|Invariants|Lts|Met|Proof|Statement|Tie|Key)$")


def function_of(name):
    """The path of the function or of the file of lemmas that a module belongs to, or None for another file."""
    found = MODULE.search(name)
    return PARTS.sub("", found["path"]) if found else None


def seconds_by_function(files):
    """The seconds for each function, of pairs of a time and the name of a file."""
    spent, before = {}, None
    for time, name in sorted(files):
        function = function_of(name)
        if function is None:
            continue
        if before is not None:
            spent[function] = spent.get(function, 0) + time - before
        before = time
    return spent


def main(folder, count="20"):
    kept = Path(folder) / "out" / "incremental"
    spent = seconds_by_function((path.stat().st_mtime, path.name) for path in kept.rglob("*.oantt"))
    if not spent:
        sys.exit(f"{kept} has no proofs: run rt check --jobs 1")
    for function, seconds in sorted(spent.items(), key=lambda item: -item[1])[: int(count)]:
        print(f"{seconds:8.1f}  {function}")
    print(f"{sum(spent.values()):8.1f}  in all")


if __name__ == "__main__":
    main(*sys.argv[1:])
