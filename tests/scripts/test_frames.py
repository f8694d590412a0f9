"""Tests of tools/frames.py: a row whose function is missing or doesn't call the next one is found."""

import sys
import unittest
from pathlib import Path

sys.path.insert(0, str(Path(__file__).resolve().parent.parent.parent / "tools"))
import frames

CODE = {
    "low/src/lib.rt": """\
impl<'a> Other<'a> {
    pub fn step(&self) -> u8 {
        0
    }
}

impl Machine {
    /// Calls again.
    pub(crate) fn step<K: Keep>(
        &self,
        memo: &mut K,
    ) -> u8
        ensures { result ≡ 1 }
    {
        // again(memo) is left out
        self.next::<K>(memo)
    }
}
""",
    "high/src/main.rt": """\
fn main() -> u8 {
    machine.step(&mut memo)
}
""",
}
ROWS = """\
## Frames

From main to the end there are 2 frames.

| Number | Function | File | Why |
|---|---|---|---|
| 1 | `main` | `high/src/main.rt` | the start |
| 2 | `Machine::step` | `low/src/lib.rt` | an instruction |
"""


def found(section):
    return list(frames.faults(section, CODE.get))


class Frames(unittest.TestCase):
    def test_a_true_table_has_no_fault(self):
        self.assertEqual(found(ROWS), [])

    def test_a_function_is_found_in_the_blocks_of_its_type(self):
        self.assertIn("self.next::<K>(memo)", frames.body_of(CODE["low/src/lib.rt"], "Machine::step"))
        self.assertIn("0", frames.body_of(CODE["low/src/lib.rt"], "Other::step"))
        self.assertIsNone(frames.body_of(CODE["low/src/lib.rt"], "Third::step"))

    def test_a_call_may_have_type_arguments(self):
        self.assertTrue(frames.calls("run_loop::<Brand, K>(a)", "run_loop"))
        self.assertTrue(frames.calls("self.step(a)", "Machine::step"))
        self.assertFalse(frames.calls("first_step(a)", "step"))

    def test_comments_call_nothing(self):
        self.assertFalse(frames.calls(frames.body_of(CODE["low/src/lib.rt"], "Machine::step"), "again"))

    def test_a_missing_function_is_a_fault(self):
        self.assertEqual(
            found(ROWS.replace("`Machine::step`", "`Machine::stop`")),
            ["1: main doesn't call Machine::stop", "2: low/src/lib.rt has no function Machine::stop"],
        )

    def test_a_missing_file_is_a_fault(self):
        self.assertEqual(
            found(ROWS.replace("high/src/main.rt", "high/src/none.rt")), ["1: high/src/none.rt has no function main"]
        )

    def test_the_numbers_are_checked(self):
        self.assertEqual(found(ROWS.replace("| 2 |", "| 3 |")), ["the rows aren't numbered from 1"])
        self.assertEqual(
            found(ROWS.replace("2 frames", "3 frames")), ["the text says 3 frames, and the table has 2"]
        )

    def test_a_section_without_rows_is_a_fault(self):
        self.assertEqual(found("## Frames\n"), ["the table has no rows"])


if __name__ == "__main__":
    unittest.main()
