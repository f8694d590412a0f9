"""Tests of tools/recipes.py: a list of escape letters in a file that the recipe doesn't name is found."""

import sys
import unittest
from pathlib import Path

sys.path.insert(0, str(Path(__file__).resolve().parent.parent.parent / "tools"))
import recipes

RECIPE = "**Add an escape.** `peg_lexer`: `specs/Lists.antt` and `src/lists.rt`. Then `examples/a.peg`.\n"


class Recipes(unittest.TestCase):
    def test_lists_are_found_in_each_quoting(self):
        for text in [
            r"[nrt'\"\[\]\\]",
            r"""b"nrt'\"[]\\" """,
            r"""codes "'\\\\' [nrt'\"\\[\\]\\\\]" """,
            "b'n',\n byte: b'\\n', b'r',\n byte: b'\\r', b't',\n",
            "escape_for 110 10 ∷ escape_for 114 13",
        ]:
            self.assertTrue(recipes.holds_list(text), text)

    def test_other_letters_are_no_list(self):
        for text in [r'["\\/bfnrt]', "b'n' b'r'", "110 114"]:
            self.assertFalse(recipes.holds_list(text), text)

    def test_files_that_the_recipe_does_not_name_are_faults(self):
        listed = r"[nrt'\"\[\]\\]"
        files = [
            ("crates/peg_lexer/src/lists.rt", listed),
            ("crates/peg_messages/src/lists.rt", listed),
            ("crates/peg_lexer/src/other.rt", listed),
            ("crates/peg_lexer/src/none.rt", "nothing"),
            ("examples/a.peg", listed),
            ("examples/b.peg", listed),
        ]
        self.assertEqual(
            recipes.missing(files, RECIPE),
            ["crates/peg_messages/src/lists.rt", "crates/peg_lexer/src/other.rt", "examples/b.peg"],
        )

    def test_the_recipe_ends_at_the_next_one(self):
        text = "**Add a crate.** a\n\n**Add an escape, such as x.** b\nc\n\n**Add an output form.** d\n"
        self.assertEqual(recipes.recipe_of(text), "**Add an escape, such as x.** b\nc\n\n")


if __name__ == "__main__":
    unittest.main()
