#!/usr/bin/env python3
"""Runs the toolchain's command `rt`, and sums the sources of a crate once where `rt` sums them again and again.

`rt` knows what was built of a library by a sum over its sources and over the sums of the libraries that crates.txt lists
for it. It computes each sum anew whenever a library is listed. For `peg_tool` these are 8,858 sums of some 10 ms each, and
it asks for them several times in a run. Here a sum is kept until a proof or a build has run, so that a source that was
changed meanwhile is still noticed. Where the toolchain has another form, `rt` runs as it is. The arguments are those of
`rt`.
"""

import importlib.machinery
import importlib.util
import os
import shutil
import sys


def load(path):
    """The toolchain's script as a module."""
    loader = importlib.machinery.SourceFileLoader("toolchain_rt", str(path))
    module = importlib.util.module_from_spec(importlib.util.spec_from_loader("toolchain_rt", loader))
    sys.modules["toolchain_rt"] = module
    loader.exec_module(module)
    return module


def keep_sums(crate):
    """Has the crates of a class keep the results of `stamp` and `below` until one of them has run `call`."""
    calls = 0
    run = crate.call

    def kept(method):
        name = f"kept_{method.__name__}"

        def once(self):
            found = self.__dict__.get(name)
            if found is None or found[0] != calls:
                found = self.__dict__[name] = (calls, method(self))
            return found[1]

        return once

    def call(self, *words):
        nonlocal calls
        try:
            return run(self, *words)
        finally:
            calls += 1

    below = kept(crate.below)
    crate.stamp, crate.below, crate.call = kept(crate.stamp), lambda self: list(below(self)), call


def main(words):
    script = shutil.which("rt")
    if script is None:
        sys.exit("rt is not in PATH")
    sys.dont_write_bytecode = True
    try:
        module = load(os.path.realpath(script))
        keep_sums(module.rtlib.Crate)
        run = module.main
    except (AttributeError, SyntaxError, UnicodeDecodeError):
        os.execv(script, [script, *words])
    return run(words)


if __name__ == "__main__":
    sys.exit(main(sys.argv[1:]))
