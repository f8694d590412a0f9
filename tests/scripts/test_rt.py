"""Tests of tools/rt.py: sums are computed once until a call has run, and each crate has its own."""

import sys
import unittest
from pathlib import Path

sys.path.insert(0, str(Path(__file__).resolve().parent.parent.parent / "tools"))
import rt


def crates():
    """A class of crates as the toolchain has it, which counts the sums that it computes."""

    class Crate:
        sums = 0

        def __init__(self, deps):
            self.deps = deps

        def stamp(self):
            Crate.sums += 1
            return [self.source if hasattr(self, "source") else "", *(dep.stamp() for dep in self.deps)]

        def below(self):
            return [it for dep in self.deps for it in [*dep.below(), dep]]

        def call(self, *words):
            return words

    rt.keep_sums(Crate)
    return Crate


class Sums(unittest.TestCase):
    def test_a_sum_is_computed_once(self):
        crate = crates()
        low = crate([])
        top = crate([low, crate([low]), crate([low])])
        self.assertEqual(top.stamp(), top.stamp())
        self.assertEqual(crate.sums, 4)

    def test_a_call_forgets_sums(self):
        crate = crates()
        low = crate([])
        low.source = "old"
        top = crate([low])
        self.assertEqual(top.stamp(), ["", ["old"]])
        low.source = "new"
        self.assertEqual(top.call("build"), ("build",))
        self.assertEqual(top.stamp(), ["", ["new"]])

    def test_lists_of_crates_can_be_changed(self):
        crate = crates()
        low = crate([])
        top = crate([low])
        top.below().append(top)
        self.assertEqual(top.below(), [low])


if __name__ == "__main__":
    unittest.main()
