"""Tests of cases.py: what it takes for a case, and that each kind of wrong case is a fault."""
import pathlib
import sys
import tempfile
import unittest
from unittest import mock

sys.path.insert(0, str(pathlib.Path(__file__).resolve().parent.parent))
import cases  # noqa: E402

GOOD = "Two words are written.\n\n  $ echo one; echo two\n  one\n  two\n"


def faults(text: str, name: str = "x.t") -> list[str]:
    """The faults of a file with this text. The program is not run."""
    with tempfile.TemporaryDirectory() as folder:
        path = pathlib.Path(folder, name)
        path.write_text(text, encoding="utf-8")
        return cases.run_file(path, "/bin/true").faults


class Reading(unittest.TestCase):
    def test_a_case_has_its_command_output_and_status(self) -> None:
        (case,) = cases.read_cases("A sentence\nof two lines.\n\n  $ a \\\n  > b\n  one\n  [3]\n")
        self.assertEqual((case.line, case.sentence, case.command), (4, "A sentence of two lines.", "a \\\nb"))
        self.assertEqual((case.wanted(), case.status), ("one\n", 3))

    def test_a_last_line_may_have_no_end(self) -> None:
        (case,) = cases.read_cases("One.\n\n  $ printf one\n  one (no-eol)\n")
        self.assertEqual(case.wanted(), "one")

    def test_documents_have_blocks_of_four_spaces(self) -> None:
        (case,) = cases.read_document("Text:\n\n    $ echo one\n    one\n\nMore text.\n\n    no command\n")
        self.assertEqual((case.command, case.wanted(), case.status), ("echo one", "one\n", None))


class Running(unittest.TestCase):
    def test_a_right_case_passes(self) -> None:
        self.assertEqual(faults(GOOD), [])

    def test_a_wrong_line_is_a_fault(self) -> None:
        self.assertIn("-three", faults(GOOD.replace("  two\n", "  three\n"))[0])

    def test_a_line_too_few_is_a_fault(self) -> None:
        self.assertIn("+two", faults(GOOD.replace("  two\n", "")) [0])

    def test_a_line_too_many_is_a_fault(self) -> None:
        self.assertIn("-three", faults(GOOD + "  three\n")[0])

    def test_a_wrong_status_is_a_fault(self) -> None:
        self.assertIn("status 0 and not 1", faults(GOOD + "  [1]\n")[0])

    def test_a_missing_status_is_a_fault(self) -> None:
        self.assertIn("status 2 and not 0", faults("It fails.\n\n  $ exit 2\n")[0])

    def test_standard_error_is_output(self) -> None:
        self.assertIn("+one", faults("It writes.\n\n  $ echo one >&2\n")[0])

    def test_a_case_without_a_sentence_is_a_fault(self) -> None:
        self.assertIn("no sentence", faults("  $ true\n")[0])

    def test_a_command_that_is_not_run_is_a_fault(self) -> None:
        self.assertIn("neither text, command nor output", faults("One.\n\n   $ true\n")[0])

    def test_output_without_a_command_is_a_fault(self) -> None:
        self.assertIn("neither text, command nor output", faults("One.\n\n  one\n")[0])

    def test_a_file_without_a_case_is_a_fault(self) -> None:
        self.assertIn("no case", faults("Text alone.\n")[0])

    def test_a_document_with_a_wrong_line_is_a_fault(self) -> None:
        self.assertEqual(len(faults("Text:\n\n    $ echo one\n    two\n", "x.md")), 1)

    def test_bytes_that_are_no_text_are_a_fault(self) -> None:
        self.assertEqual(len(faults("One.\n\n  $ printf '\\377'\n  ? (no-eol)\n")), 1)


    def test_a_command_whose_tool_is_not_here_is_skipped(self) -> None:
        text = "Two tools.\n\n  $ echo 1 | jq .\n  1\n\n  $ echo jqs parallels\n  jqs parallels\n"
        with tempfile.TemporaryDirectory() as folder, mock.patch.object(cases.shutil, "which", return_value=None):
            path = pathlib.Path(folder, "x.t")
            path.write_text(text, encoding="utf-8")
            result = cases.run_file(path, "/bin/true")
        self.assertEqual((result.ran, dict(result.skipped), result.faults), (1, {"jq": 1}, []))


if __name__ == "__main__":
    unittest.main()
