"""Tests of tools/documents.py: dead links, limits that are stated twice, and the number of wrong edits."""

import sys
import unittest
from pathlib import Path

TOP = Path(__file__).resolve().parent.parent.parent
sys.path.insert(0, str(TOP / "tools"))
import documents


class Documents(unittest.TestCase):
    def test_a_link_to_no_file_or_no_heading_is_dead(self):
        text = "[a](docs/USAGE.md#limits) [b](docs/NONE.md) [c](docs/USAGE.md#none) [d](https://example.org/)"
        found = list(documents.dead_links(TOP / "README.md", text))
        self.assertEqual(found, ["docs/NONE.md: no such file", "docs/USAGE.md#none: no such heading"])

    def test_a_limit_has_one_home(self):
        found = list(documents.stated_again(TOP / "README.md", "at most 67,108,864 bytes", {"67,108,864"}))
        self.assertEqual(found, ["67,108,864: this limit is stated in docs/USAGE.md"])
        self.assertEqual(list(documents.stated_again(documents.USAGE, "67,108,864", {"67,108,864"})), [])

    def test_the_number_of_wrong_edits_is_that_of_the_files(self):
        self.assertEqual(list(documents.wrong_count("refuses 3 wrong edits", 4)), ["3 wrong edits: there are 4"])
        self.assertEqual(list(documents.wrong_count("refuses 4 wrong edits", 4)), [])


if __name__ == "__main__":
    unittest.main()
