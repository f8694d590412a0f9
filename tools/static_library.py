#!/usr/bin/env python3
"""Builds the archive of crates/peg_c over the libraries that `rt ci` has left in crates/*/out, which `rt lib` would prove
again. peg_c itself is proved again. tests/gate.sh calls it through tools/c_library.sh, right after `rt ci`.

It uses the kit's own module. The exit status is 1 if a library is missing or the archive isn't built.
"""

import os
import pathlib
import subprocess
import sys

TOP = pathlib.Path(__file__).resolve().parent.parent


def kit():
    """The folder of the kit, in which `rt doc` names a file."""
    said = subprocess.run(["rt", "doc"], capture_output=True, text=True, check=True)
    return pathlib.Path(said.stdout.strip()).parent


def main():
    sys.dont_write_bytecode = True
    sys.path.insert(0, str(kit() / "bin"))
    import rtlib

    folder = TOP / "crates" / "peg_c"
    os.chdir(folder)
    crate = rtlib.Crate(str(folder), str(TOP), {})
    missing = [library.name for library in crate.below() if not os.path.isdir(library.rlib)]
    if missing:
        print("not built:", *missing)
        return 1
    os.makedirs("out", exist_ok=True)
    return 1 if crate.build_static(["--jobs", "1"]) else 0


sys.exit(main())
