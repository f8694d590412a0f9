"""Errors: how they are sent between processes, what they say of wrong arguments, and how the library is found."""

import array
import concurrent.futures
import copy
import mmap
import os
import pathlib
import pickle
import subprocess
import sys
import tempfile
import unittest

from pegtool import (
    Grammar,
    GrammarError,
    NodeError,
    NoSuchRuleError,
    ParseError,
    PegError,
    StepLimitError,
    TextError,
    VisitError,
)

CHAIN = "S <- 'a' S / 'b'\n"
PACKAGE = pathlib.Path(__file__).resolve().parent.parent


def parse_chain(text):
    """The number of bytes that match; a function that a pool of processes can call."""
    return Grammar(CHAIN).parse(text).consumed


def error_of(call, *arguments, **options):
    """The error that a call raises."""
    try:
        call(*arguments, **options)
    except Exception as error:
        return error
    raise AssertionError("no error")


class Sending(unittest.TestCase):
    def errors(self):
        grammar = Grammar(CHAIN)
        return [
            error_of(grammar.parse, "aac", name="t.txt"),
            error_of(Grammar, "S <- T\n"),
            error_of(grammar.parse, "b", "T"),
            error_of(grammar.parse, "aab", memo=0, steps=14),
        ]

    def test_errors_are_pickled_and_copied(self):
        kinds = [ParseError, GrammarError, NoSuchRuleError, StepLimitError]
        for error, kind in zip(self.errors(), kinds):
            for other in (pickle.loads(pickle.dumps(error)), copy.copy(error), copy.deepcopy(error)):
                self.assertIs(type(other), kind)
                self.assertEqual((str(other), other.__dict__), (str(error), error.__dict__))

    def test_a_pool_of_processes_raises_the_error(self):
        with concurrent.futures.ProcessPoolExecutor(1) as pool:
            self.assertEqual(pool.submit(parse_chain, "ab").result(timeout=60), 2)
            with self.assertRaises(ParseError) as caught:
                pool.submit(parse_chain, "ac").result(timeout=60)
        self.assertEqual((caught.exception.position, caught.exception.found), (1, "'c'"))


class Arguments(unittest.TestCase):
    def test_a_text_is_a_str_bytes_or_a_buffer(self):
        grammar = Grammar("S <- .*\n")
        for text in ("ab", b"ab", bytearray(b"ab"), memoryview(b"xab")[1:], array.array("B", b"ab")):
            self.assertEqual(grammar.parse(text).consumed, 2)
        with tempfile.TemporaryFile() as file:
            file.write(b"ab")
            file.flush()
            with mmap.mmap(file.fileno(), 2) as mapped:
                self.assertEqual(grammar.parse(mapped).consumed, 2)
        for text in (pathlib.Path("ab"), 5, True, [97, 97], {97}, None):
            self.assertRaises(TypeError, grammar.match, text)
            self.assertRaises(TypeError, Grammar, text)

    def test_options_have_types(self):
        grammar = Grammar(CHAIN)
        for options in ({"start": b"S"}, {"memo": 1.5}, {"memo": None}, {"steps": 2.5}, {"steps": "9"}):
            self.assertRaises(TypeError, grammar.match, "b", **options)

    def test_an_unknown_rule_is_named(self):
        error = error_of(Grammar(CHAIN).parse("b").root.find, "X")
        self.assertIsInstance(error, NoSuchRuleError)
        self.assertEqual(str(error), "no rule has the name X")


class Steps(unittest.TestCase):
    # The predicate doubles the items of the grammar of messages, so a parse for the message takes more steps.
    GRAMMAR = "S <- !'x' 'a' S / 'b'\n"

    def test_the_second_parse_has_the_limit_too(self):
        grammar = Grammar(self.GRAMMAR)
        steps = grammar.match("aac", memo=0).steps
        error = error_of(grammar.parse, "aac", memo=0, steps=steps, name="t.txt")
        self.assertIsInstance(error, ParseError)
        # The furthest failure counts the predicate's terminal.
        self.assertEqual(str(error), "t.txt:1:3: expected 'x', 'a' or 'b', found 'c'\naac\n  ^")
        self.assertEqual((error.position, error.line, error.column, error.consumed), (2, 1, 3, None))
        self.assertEqual(error.expected, ["'x'", "'a'", "'b'"])
        self.assertTrue(str(grammar.match("aac", memo=0, steps=steps).error("u.txt")).startswith("u.txt:1:3: "))
        self.assertEqual(error_of(grammar.parse, "aac", memo=0).expected, ["!'x'", "'a'", "'b'"][1:])

    def test_the_end_is_expected_after_a_prefix(self):
        grammar = Grammar("S <- !'x' 'a'\n")
        steps = grammar.match("a\xfcc", memo=0).steps
        error = error_of(grammar.parse, "a\xfcc", memo=0, steps=steps)
        self.assertEqual((error.expected, error.found, error.consumed), (["the end"], "'\xfc'", 1))


class Nodes(unittest.TestCase):
    # Bytes over 127 are letters.
    GRAMMAR = "Pairs <- Pair*\nPair <- Key '=' Value '\\n'\nKey <- [a-z\\x80-\\xFF]+\nValue <- [0-9]+\n"

    def error(self, text, **options):
        """An error at the last value of a text."""
        *_, value = Grammar(self.GRAMMAR).parse(text, **options).root.find_all("Value")
        return value.error(f"{int(value.text)} is over 10")

    def test_an_error_at_a_node_reads_like_a_syntax_error(self):
        error = self.error("a=1\n\xfc\xfc=11\n", name="pairs.txt")
        self.assertEqual(str(error), "pairs.txt:2:4: 11 is over 10\n\xfc\xfc=11\n   ^")
        self.assertEqual((error.line, error.column, error.position, error.byte_position), (2, 4, 7, 9))
        self.assertEqual((error.message, error.rule), ("11 is over 10", "Value"))

    def test_an_error_at_a_node_of_bytes_counts_bytes(self):
        error = self.error("a=1\n\xfc\xfc=11\n".encode("utf-8"), name="pairs.txt")
        self.assertEqual(str(error), "pairs.txt:2:6: 11 is over 10\n\xfc\xfc=11\n   ^")
        self.assertEqual((error.line, error.column, error.position, error.byte_position), (2, 6, 9, 9))

    def test_the_text_may_have_another_name(self):
        root = Grammar(self.GRAMMAR).parse("a=1\n", name="pairs.txt").root
        self.assertEqual(str(root.error("bad")), "pairs.txt:1:1: bad\na=1\n^")
        self.assertEqual(str(root.error("bad", "other.txt")), "other.txt:1:1: bad\na=1\n^")
        self.assertEqual(str(self.error("a=1\n")), "<text>:1:3: 1 is over 10\na=1\n  ^")

    def test_errors_of_texts_have_a_base(self):
        self.assertIsInstance(self.error("a=1\n"), TextError)
        for kind in (ParseError, NodeError, VisitError):
            self.assertTrue(issubclass(kind, TextError) and issubclass(kind, PegError))
        self.assertFalse(issubclass(GrammarError, TextError))


class Places(unittest.TestCase):
    def test_all_line_ends_count(self):
        grammar = Grammar("S <- [ab\\r\\n]*\n")
        for text, place in [("a\nb!", (2, 2)), ("a\r\nb!", (2, 2)), ("a\rb!", (2, 2)), ("\n\r\n\r!", (4, 1)), ("!", (1, 1))]:
            error = error_of(grammar.parse, text)
            self.assertEqual((error.line, error.column), place, text)

    def test_a_place_between_cr_and_lf_is_in_their_line(self):
        error = error_of(Grammar("S <- 'a\\r' 'x'\n").parse, "a\r\n")
        self.assertEqual((error.line, error.column), (1, 3))
        error = error_of(Grammar, "S <- 'a'\r\nT <- )\r\n")
        self.assertEqual((error.line, error.column), (2, 6))

    def test_names_are_shown_with_escapes(self):
        error = error_of(Grammar, "S <- T\n", name="a\n\x1b[31m\udcff.peg")
        self.assertTrue(str(error).startswith("a\\n\\x1b[31m\\xff.peg:1:6: the rule T is not defined\n"), str(error))
        with tempfile.TemporaryDirectory() as folder:
            path = os.fsencode(folder) + b"/x.peg"
            pathlib.Path(os.fsdecode(path)).write_text("S <- T\n", encoding="ascii")
            self.assertTrue(str(error_of(Grammar.from_file, path)).startswith(f"{folder}/x.peg:1:6: "))
        error = error_of(Grammar(CHAIN).parse, "ac", name="a:\n\x1b[31m\udcff\xe9.txt")
        self.assertTrue(str(error).startswith("a:\\n\\x1b[31m\\xff\xe9.txt:1:2: expected "), str(error))
        self.assertEqual((error.line, error.column, error.found), (1, 2, "'c'"))


class Library(unittest.TestCase):
    def run_python(self, program, **environment):
        """What a program in another process prints, and the last line that it reports."""
        variables = {**os.environ, "PYTHONPATH": str(PACKAGE), **environment}
        done = subprocess.run([sys.executable, "-c", program], env=variables, capture_output=True, text=True, check=False)
        return done.stdout.strip(), done.stderr.strip().rpartition("\n")[2]

    def test_the_system_is_asked_last(self):
        program = (
            "import ctypes.util\n"
            "def asked(name): raise AssertionError('asked')\n"
            "ctypes.util.find_library = asked\n"
            "import pegtool; print(pegtool.Grammar(\"S <- 'a'\").rules)\n"
        )
        self.assertEqual(self.run_python(program), ("('S',)", ""))

    def test_another_library_is_an_import_error(self):
        for path, wanted in [("/nowhere/libpeg.so", "can't be loaded"), (sys.executable, "can't be loaded")]:
            _, reported = self.run_python("import pegtool", PEGTOOL_LIBRARY=path)
            self.assertTrue(reported.startswith(f"ImportError: {path} {wanted}"), reported)
        _, reported = self.run_python("import pegtool", PEGTOOL_LIBRARY="libc.so.6")
        self.assertEqual(reported, "ImportError: libc.so.6 is another library: it has no peg_abi")


if __name__ == "__main__":
    unittest.main()
