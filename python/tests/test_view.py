"""The page that shows a parse, and the diagrams of rules."""

import os
import re
import shutil
import subprocess
import tempfile
import unittest
from xml.etree import ElementTree

from pegtool import Grammar
from pegtool.__main__ import main
from pegtool._notation import Choice, Name, Predicate, Repeat, Sequence, Terminal, expressions
from pegtool._railroad import diagram
from pegtool._view import parents_of

NODE = shutil.which("node")
SUM = "Sum <- Number ('+' Number)*  # a sum\nNumber <- [0-9]+ !'.' / '(' Sum ')' / ''\n"


class Expressions(unittest.TestCase):
    def test_rules_are_read(self):
        self.assertEqual(
            expressions(Grammar(SUM)),
            {
                "Sum": Sequence((Name("Number"), Repeat(Sequence((Terminal("'+'"), Name("Number"))), 0, None))),
                "Number": Choice(
                    (
                        Sequence((Repeat(Terminal("[0-9]"), 1, None), Predicate("!", Terminal("'.'")))),
                        Sequence((Terminal("'('"), Name("Sum"), Terminal("')'"))),
                        Terminal("''"),
                    )
                ),
            },
        )

    def test_counts_dots_and_empty_sequences_are_read(self):
        self.assertEqual(
            expressions(Grammar("A <- .{2} ('x'{1,3})? / &(.)\nB <-\n")),
            {
                "A": Choice(
                    (
                        Sequence((Repeat(Terminal("."), 2, 2), Repeat(Repeat(Terminal("'x'"), 1, 3), 0, 1))),
                        Predicate("&", Terminal(".")),
                    )
                ),
                "B": Sequence(()),
            },
        )


class Diagrams(unittest.TestCase):
    def test_diagrams_are_well_formed(self):
        for expression in expressions(Grammar(SUM)).values():
            svg = ElementTree.fromstring(diagram(expression))
            width, height = int(svg.get("width")), int(svg.get("height"))
            for box in svg.iter("rect"):
                x, y = int(box.get("x")), int(box.get("y"))
                self.assertGreaterEqual(min(x, y), 0)
                self.assertLessEqual(x + int(box.get("width")), width)
                self.assertLessEqual(y + int(box.get("height")), height)

    def test_names_lead_to_their_rules(self):
        self.assertIn('<a href="#rule-Number">', diagram(expressions(Grammar(SUM))["Sum"]))


class Pages(unittest.TestCase):
    def page_of(self, grammar, text, *options):
        with tempfile.TemporaryDirectory() as folder:
            paths = [os.path.join(folder, name) for name in ("sum.peg", "sum.txt", "page.html")]
            for path, content in zip(paths, (grammar, text)):
                with open(path, "w", encoding="utf-8") as file:
                    file.write(content)
            status = main(["view", paths[0], paths[1], "-o", paths[2], *options])
            with open(paths[2], encoding="utf-8") as file:
                return status, file.read()

    def test_a_match_has_its_tree_and_its_text(self):
        status, page = self.page_of(SUM, "1+22")
        self.assertEqual(status, 0)
        self.assertEqual(page.count("<div data-n="), 3)
        spans = re.findall(r'<span data-n="(\d+)">([^<]*)</span>', page)
        self.assertEqual(spans, [("1", "1"), ("0", "+"), ("2", "22")])
        self.assertIn('<h3 id="rule-Number">', page)

    def test_a_fault_is_marked(self):
        status, page = self.page_of("Sum <- Number ('+' Number)*\nNumber <- [0-9]+\n", "1+x")
        self.assertEqual(status, 1)
        self.assertIn('<span class="fault">x</span>', page)
        self.assertIn("expected Number, found &#x27;x&#x27;", page)

    def test_the_page_needs_no_other_file(self):
        _, page = self.page_of(SUM, "1")
        self.assertNotIn("src=", page)
        self.assertNotRegex(page, r'href="(?!#)')

    def test_lines_have_numbers(self):
        _, page = self.page_of("A <- .*\n", "ab\r\nc\n")
        self.assertEqual(re.findall(r"<div><i>(\d+)</i>", page), ["1", "2", "3"])

    def test_a_line_end_that_is_a_fault_is_shown(self):
        _, page = self.page_of("A <- 'ab'\n", "ab\n")
        self.assertIn('<span class="fault line-end">\n</span>', page)

    def test_rules_are_hidden(self):
        _, page = self.page_of(SUM, "1+22", "--hide", "Number")
        self.assertEqual(page.count("<div data-n="), 1)
        _, page = self.page_of(SUM, "(1)", "--show", "Sum")
        # The root and the sum in parentheses.
        self.assertEqual(page.count("<div data-n="), 2)

    def test_a_large_tree_is_cut_with_a_note(self):
        # The root and a node for each of 30 numbers.
        _, page = self.page_of(SUM, "+".join("1" * 30), "--max-nodes", "10")
        self.assertEqual(page.count("<div data-n="), 10)
        self.assertIn("The tree has 31 nodes, and the first 10 are shown.", page)
        # The sizes that the page knows are those of the nodes that it has.
        self.assertIn("const sizes = [10, 1, 1, 1, 1, 1, 1, 1, 1, 1];", page)

    def test_parents_are_found_by_levels(self):
        self.assertEqual(parents_of([1, 2, 3, 3, 2, 3]), [-1, 0, 1, 1, 0, 4])

    def test_a_long_text_is_cut(self):
        _, page = self.page_of("A <- .*\n", "a" * 1_000_050)
        self.assertIn("50 more bytes", page)
        self.assertLess(len(page), 1_030_000)

    @unittest.skipUnless(NODE, "node isn't installed")
    def test_the_script_can_be_read(self):
        _, page = self.page_of(SUM, "1+22")
        script = page[page.index("<script>") + len("<script>") : page.index("</script>")]
        with tempfile.TemporaryDirectory() as folder:
            path = os.path.join(folder, "script.js")
            with open(path, "w", encoding="utf-8") as file:
                file.write(script)
            subprocess.run([NODE, "--check", path], check=True, timeout=60)

    def test_text_is_escaped(self):
        _, page = self.page_of("A <- .*\n", "<script>&")
        self.assertIn("&lt;script&gt;&amp;", page)


if __name__ == "__main__":
    unittest.main()
