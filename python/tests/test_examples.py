"""The examples of the repository: the package writes what the program prints.

PEGTOOL names the program; by default it is the one that `make run` builds. Without it these tests are skipped.
"""

import glob
import json
import os
import subprocess
import unittest

from pegtool import Grammar, GrammarError
from pegtool._notation import expressions
from pegtool._railroad import diagram

TOP = os.path.abspath(os.path.join(os.path.dirname(__file__), os.pardir, os.pardir))
PROGRAM = os.environ.get("PEGTOOL", os.path.join(TOP, "crates", "pegtool", "out", "pegtool"))


def grammars():
    """The grammar files of the examples."""
    return sorted(glob.glob(os.path.join(TOP, "examples", "**", "*.peg"), recursive=True))


def texts(path):
    """The texts of a grammar file."""
    return sorted(glob.glob(os.path.join(path[: -len(".peg")], "*")))


@unittest.skipUnless(os.access(PROGRAM, os.X_OK), "the program isn't built")
class Program(unittest.TestCase):
    def line(self, *words):
        return subprocess.run([PROGRAM, *words], capture_output=True, check=False).stdout.decode("ascii")

    def test_lines_of_examples_are_those_of_the_program(self):
        compared = 0
        for path in grammars():
            grammar = Grammar.from_file(path)
            for text in texts(path):
                with open(text, "rb") as file:
                    answer = grammar.match(file.read())
                rows = answer.to_json(rows=True) if answer else answer.to_json()
                self.assertEqual(rows + "\n", self.line("parse", path, text, "--rows"), text)
                compared += 1
        self.assertGreater(compared, 40)

    def test_what_is_known_of_examples_is_what_the_program_prints(self):
        for path in grammars():
            grammar = Grammar.from_file(path)
            self.assertEqual(grammar.code(), json.loads(self.line("code", path)), path)
            self.assertEqual({"table": grammar.table()}, json.loads(self.line("table", path)), path)
            self.assertEqual({"warnings": grammar.warnings()}, json.loads(self.line("lint", path)), path)
            proved = json.loads(self.line("lint", path, "--proved"))
            self.assertEqual({"warnings": grammar.warnings(grammar.rules[0], proved=True)}, proved, path)

    def test_profiles_of_examples_are_those_of_the_program(self):
        compared = 0
        for path in grammars():
            grammar = Grammar.from_file(path)
            start = grammar.rules[-1]
            for text in texts(path):
                with open(text, "rb") as file:
                    data = file.read()
                for words, options in (
                    (("--steps", "1000000"), {"steps": 1_000_000}),
                    (("--steps", "100"), {"steps": 100}),
                    (("--memo", "4096"), {"memo": 4096}),
                    (("--start", start, "--memo", "4096"), {"start": start, "memo": 4096}),
                ):
                    printed = json.loads(self.line("profile", path, text, *words))
                    self.assertEqual(grammar.profile(data, **options), printed, (text, words))
                    compared += 1
        self.assertGreater(compared, 160)

    def test_lines_of_examples_without_the_nodes_of_a_rule_are_those_of_the_program(self):
        for path in grammars():
            grammar = Grammar.from_file(path)
            for text in texts(path)[:2]:
                with open(text, "rb") as file:
                    data = file.read()
                for words, options in (
                    (("--rows", "--hide", grammar.rules[-1]), {"hide": grammar.rules[-1:]}),
                    (("--rows", "--show", grammar.rules[-1]), {"show": grammar.rules[-1:]}),
                    (("--no-tree",), {"tree": False}),
                ):
                    answer = grammar.match(data, **options)
                    rows = answer.to_json(rows=True) if answer else answer.to_json()
                    self.assertEqual(rows + "\n", self.line("parse", path, text, *words), (text, words))

    def test_refusals_are_those_of_the_program(self):
        for source in (b"A <- [a-]", b"A <- 'x'{0}\n", b"A <- B\n", b"A <- A\n", b"A <- ('a'*)*\n", b"A <- 'a' A <- 'b'"):
            with self.subTest(source), self.assertRaises(GrammarError) as caught:
                Grammar(source)
            printed = subprocess.run(
                [PROGRAM, "check", "/dev/stdin"], input=source, capture_output=True, check=False
            ).stdout.decode("ascii")
            keys = sorted(caught.exception.refusal.items())
            shown = ",".join(f'"{key}":{value}' for key, value in keys if isinstance(value, int))
            for part in shown.split(",") if shown else []:
                self.assertIn(part, printed)
            self.assertIn(f'"refusal":"{caught.exception.kind}"', printed)


class Diagrams(unittest.TestCase):
    def test_each_rule_of_each_example_has_a_diagram(self):
        for path in grammars():
            grammar = Grammar.from_file(path)
            rules = expressions(grammar)
            self.assertEqual(tuple(rules), grammar.rules, path)
            for expression in rules.values():
                self.assertIn("</svg>", diagram(expression))


if __name__ == "__main__":
    unittest.main()
