"""Tests of tests/wanted.py: sections are read as cases, malformed ones are faults, and marks say what is as wanted."""

import sys
import unittest
from pathlib import Path

sys.path.insert(0, str(Path(__file__).resolve().parent.parent))
import wanted

TEXTS = """Grammar: examples/json.peg

## A comma is missing
    [1
     2]
> 2:2: expected ',' or ']', found '2'

## The file ends in an array
    [1⟨end⟩
> 1:3: expected ',' or ']', found the end
> opened at 1:1
"""


class Sections(unittest.TestCase):
    def test_a_section_has_a_title_a_text_and_wanted_lines(self):
        head, cases = wanted.sections(TEXTS)
        self.assertEqual(head, "Grammar: examples/json.peg")
        self.assertEqual([case.title for case in cases], ["A comma is missing", "The file ends in an array"])
        self.assertEqual([case.text for case in cases], [b"[1\n 2]\n", b"[1"])
        self.assertEqual(cases[0].wanted, ["2:2: expected ',' or ']', found '2'"])
        self.assertEqual(cases[1].wanted, ["1:3: expected ',' or ']', found the end", "opened at 1:1"])

    def test_brackets_hold_bytes(self):
        self.assertEqual(wanted.decoded(["a⟨C2A0⟩b⟨0D⟩", "é"]), b"a\xc2\xa0b\r\n\xc3\xa9\n")

    def test_sections_of_another_form_are_malformed(self):
        for content in [
            "no section",
            "head\n\n## title\n> wanted",
            "head\n\n## title\n    text",
            "head\n\n## title\n> wanted\n    text",
            "head\n\n## title\ntext\n    text\n> wanted",
            "head\n\n## title\n    text\n>wanted",
            "head\n\n## title\n    ⟨0⟩\n> wanted",
            "head\n\n## title\n    ⟨end⟩\n    text\n> wanted",
            "head\nmore\n\n## title\n    text\n> wanted",
        ]:
            with self.assertRaises(wanted.Malformed, msg=content):
                wanted.sections(content)

    def test_wanted_lines_of_another_form_are_malformed(self):
        for check, lines in [
            (wanted.check_text, ["expected 'a', found 'b'"]),
            (wanted.check_text, ["1:0: expected 'a', found 'b'"]),
            (wanted.check_text, ["1:1: expected 'a', found 'b'", "open at 1:1"]),
            (wanted.check_mistake, ["1:1: Shadowed: x"]),
            (wanted.check_mistake, ["lint 1:1: shadowed"]),
            (wanted.check_mistake, ["lint 1:1: Shadowed: x", "note: x at 1:1 y"]),
            (wanted.check_mistake, ["explain 1:1: x", "note: x"]),
        ]:
            with self.assertRaises(wanted.Malformed, msg=lines):
                check(wanted.Case("title", b"b", lines))

    def test_wanted_positions_are_in_the_text(self):
        for place in ["1:1", "1:3", "2:1", "2:2", "3:1"]:
            self.assertTrue(wanted.has_position(b"ab\r\nc\n", place), place)
        for place in ["1:4", "2:3", "3:2", "4:1"]:
            self.assertFalse(wanted.has_position(b"ab\r\nc\n", place), place)
        with self.assertRaises(wanted.Malformed):
            wanted.check_positions(wanted.Case("title", b"b", ["1:1: expected 'a', found 'b'", "opened at 2:1"]))


class Marks(unittest.TestCase):
    def test_a_text_is_the_same_only_with_its_note(self):
        first, note = "2:1: expected ']', found the end", "opened at 1:1"
        self.assertEqual(wanted.mark_of_text([first], [first, "", "^"]), "same")
        self.assertEqual(wanted.mark_of_text([first, note], [first, "", "^", note]), "same")
        self.assertEqual(wanted.mark_of_text([first, note], [first, "", "^"]), "place")

    def test_a_text_with_other_words_or_another_position(self):
        first = "2:1: expected ']', found the end"
        self.assertEqual(wanted.mark_of_text([first], ["2:1: expected ')', found the end"]), "place")
        self.assertEqual(wanted.mark_of_text([first], ["2:10: expected ']', found the end"]), "other")
        self.assertEqual(wanted.mark_of_text([first], []), "other")

    def test_a_warning_is_compared_by_its_kind_and_position(self):
        lines = ["lint 1:8: RepeatedByte: the class has ',' twice"]
        self.assertEqual(wanted.mark_of_mistake(lines, [("lint", "1:8", "RepeatedByte")]), "same")
        self.assertEqual(wanted.mark_of_mistake(lines, [("lint", "1:8", "MixedRange")]), "found")
        self.assertEqual(wanted.mark_of_mistake(lines, [("lint", "1:18", "RepeatedByte")]), "not found")
        self.assertEqual(wanted.mark_of_mistake(lines, []), "not found")

    def test_a_note_has_the_position_of_the_mistake(self):
        note = "note: the class that starts at 2:9 holds a line end"
        first = ("explain", "1:9", "the rule Int is not defined")
        lines = ["explain 1:9: the rule Int is not defined", note]
        self.assertEqual(wanted.mark_of_mistake(lines, [first, ("note", "", note)]), "same")
        self.assertEqual(wanted.mark_of_mistake(lines, [first]), "not found")
        self.assertEqual(wanted.mark_of_mistake(lines, [first, ("note", "", "note: see 2:9")]), "found")

    def test_lines_of_explain_lose_the_name_of_the_file(self):
        printed = "/tmp/a.peg:1:2: unexpected '/'\nS //\n  ^\n"
        self.assertEqual(wanted.message_lines(printed, "/tmp/a.peg"), ["1:2: unexpected '/'", "S //", "  ^"])

    def test_bars_in_cells_are_escaped(self):
        self.assertEqual(wanted.row("a|b", "c"), "| a\\|b | c |")


class Folder(unittest.TestCase):
    def test_each_file_has_the_form(self):
        texts = list(wanted.texts())
        self.assertGreaterEqual(len(texts), 60)
        self.assertGreaterEqual(len({grammar for grammar, _ in texts}), 10)
        self.assertGreaterEqual(len(list(wanted.mistakes())), 40)


if __name__ == "__main__":
    unittest.main()
