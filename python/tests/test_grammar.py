"""Grammars and their errors, against values worked out by hand."""

import gc
import os
import tempfile
import threading
import unittest
from concurrent.futures import ThreadPoolExecutor

from pegtool import _library
from pegtool import (
    Failure,
    Grammar,
    GrammarError,
    Match,
    NoSuchRuleError,
    ParseError,
    StepLimitError,
    Text,
    TextTooLongError,
    version,
)

CHAIN = b"S <- 'a' S / 'b'\n"


class Grammars(unittest.TestCase):
    def test_rules_are_named_in_order(self):
        grammar = Grammar("B <- A A\nA <- 'a'\n")
        self.assertEqual(grammar.rules, ("B", "A"))
        self.assertEqual(repr(grammar), "<Grammar <grammar>, 2 rules>")

    def test_a_file_is_read_with_its_name(self):
        with tempfile.TemporaryDirectory() as folder:
            path = os.path.join(folder, "chain.peg")
            with open(path, "wb") as file:
                file.write(CHAIN)
            self.assertEqual(Grammar.from_file(path).parse("ab").consumed, 2)
            with open(path, "wb") as file:
                file.write(b"S <- T\n")
            with self.assertRaises(GrammarError) as caught:
                Grammar.from_file(path)
            self.assertTrue(str(caught.exception).startswith(f"{path}:1:6: the rule T is not defined\nS <- T\n     ^"))
            self.assertRaises(OSError, Grammar.from_file, os.path.join(folder, "missing"))

    def test_the_version_has_three_numbers(self):
        self.assertRegex(version(), r"^\d+\.\d+\.\d+$")


class Known(unittest.TestCase):
    """What is known of a grammar. The lines are in docs/USAGE.md and docs/LINT.md, or follow from them."""

    def test_the_code_is_that_of_pegtool(self):
        code = [["end"], ["choice", 5], ["test", 0, [[97, 97]]], ["call", 0], ["commit", 6]]
        code += [["test", 1, [[98, 98]]], ["ret"]]
        self.assertEqual(Grammar(CHAIN).code(), {"code": code, "entries": [1]})

    def test_the_table_has_an_entry_for_each_rule(self):
        table = Grammar("A <- B?\nB <- 'b'\n").table()
        self.assertEqual(table[0], {"fails": False, "nothing": True, "rule": "A", "something": True})
        self.assertEqual(table[1], {"fails": True, "nothing": False, "rule": "B", "something": True})

    def test_warnings_depend_on_the_start(self):
        grammar = Grammar("S <- 'a' T\nT <- 'a' / 'ab'\n")
        self.assertEqual([warning["kind"] for warning in grammar.warnings()], ["Shadowed"])
        kinds = [(warning["kind"], warning["rule"]) for warning in grammar.warnings("T")]
        self.assertEqual(kinds, [("UnusedRule", "S"), ("Shadowed", "T")])
        self.assertRaises(NoSuchRuleError, grammar.warnings, "U")
        self.assertRaises(TypeError, grammar.warnings, b"T")

    def test_habits_are_no_proved_warnings(self):
        grammar = Grammar("S <- T .\nT <- 'a'\n")
        self.assertEqual([warning["kind"] for warning in grammar.warnings()], ["AnyAtEnd"])
        self.assertEqual(grammar.warnings(proved=True), [])


    def test_a_profile_counts_calls_and_positions(self):
        # A takes 6 steps on a, and on (t)y it takes 12 and twice those of t: 60 here, and one more at the end.
        grammar = Grammar("A <- '(' A ')' 'x' / '(' A ')' 'y' / 'a'\n")
        rules = [{"again": 4, "calls": 7, "places": 3, "rule": "A"}]
        self.assertEqual(
            grammar.profile("((a)y)y"), {"consumed": 7, "result": "matched", "rules": rules, "steps": 61}
        )
        self.assertEqual(grammar.profile("((a)y)y", memo=4096)["rules"][0]["places"], 3)

    def test_a_profile_of_a_failure_has_the_calls_too(self):
        grammar = Grammar("S <- T 'b'\nT <- 'a'\n")
        rules = [{"again": 0, "calls": 1, "places": 1, "rule": rule} for rule in "ST"]
        self.assertEqual(grammar.profile(b"aa"), {"result": "failed", "rules": rules, "steps": 4})
        rules[0] = {"again": 0, "calls": 0, "places": 0, "rule": "S"}
        matched = {"consumed": 1, "result": "matched", "rules": rules, "steps": 3}
        self.assertEqual(grammar.profile(Text("aa"), "T"), matched)
        self.assertRaises(NoSuchRuleError, grammar.profile, "aa", "U")
        self.assertRaises(TypeError, grammar.profile, 1)

    def test_a_profile_stops_at_the_limit_of_steps(self):
        # A call of S with n letters before the b takes 5n + 4 steps, and the end one more: 15 here.
        grammar = Grammar(CHAIN)
        rules = [{"again": 0, "calls": 3, "places": 3, "rule": "S"}]
        self.assertEqual(grammar.profile("aab", steps=15)["result"], "matched")
        self.assertEqual(grammar.profile("aab", steps=14), {"result": "stopped", "rules": rules, "steps": 14})


class Refusals(unittest.TestCase):
    def refusal(self, source):
        with self.assertRaises(GrammarError) as caught:
            Grammar(source)
        return caught.exception

    def test_a_syntax_error_has_its_position(self):
        error = self.refusal("A <- 'a'\nB <- )\n")
        self.assertEqual((error.kind, error.offset, error.line, error.column), ("Syntax", 14, 2, 6))
        self.assertEqual(error.refusal, {"at": 14, "column": 6, "line": 2, "refusal": "Syntax"})
        self.assertEqual(
            str(error), "<grammar>:2:6: unexpected ')'\nB <- )\n     ^"
        )

    def test_names_are_reported(self):
        error = self.refusal("A <- 'a'\nA <- 'b'\n")
        self.assertEqual((error.kind, error.line, error.column), ("Duplicate", 2, 1))
        self.assertEqual(error.message, "the rule A is defined twice")
        error = self.refusal("A <- B\n")
        self.assertEqual((error.kind, error.offset), ("Undefined", 5))

    def test_an_empty_loop_has_its_rule(self):
        error = self.refusal("A <- ('a'*)*\n")
        self.assertEqual((error.kind, error.offset), ("EmptyLoop", 5))
        self.assertEqual(error.message, "this repetition matches the empty text again and again, in A")

    def test_left_recursion_has_its_path_and_the_first_definition(self):
        error = self.refusal("S <- A\nA <- B 'x'\nB <- A\n")
        self.assertEqual((error.kind, error.path), ("LeftRecursion", ["A", "B"]))
        self.assertEqual(error.message, "left recursion: A -> B -> A")
        self.assertEqual((error.line, error.column, error.offset), (2, 1, 7))
        # The first rule of the cycle is defined after a comment that looks like its definition.
        error = self.refusal("S <- 'x' # A <- here\r\n/ A\r\nA <- B\r\nB <- A\r\n")
        self.assertEqual((error.path, error.line, error.column, error.offset), (["A", "B"], 3, 1, 27))

    def test_the_cause_of_a_syntax_error_is_named(self):
        error = self.refusal("A <- 'a\\q'\n")
        self.assertEqual(error.message, "\\q isn't an escape")
        # The backslash is shown; the report has the start of the literal.
        self.assertEqual((error.column, error.offset, error.refusal["at"]), (8, 7, 5))
        error = self.refusal("A <- 'a\n")
        self.assertEqual(str(error), "<grammar>:1:6: this literal isn't closed\nA <- 'a\n     ^")

    def test_a_file_that_is_too_long_has_no_position(self):
        error = self.refusal(b" " * 1_048_577)
        self.assertEqual((error.kind, error.offset, error.line), ("FileTooLong", None, None))
        self.assertEqual(str(error), "<grammar>: the grammar file is longer than 1048576 bytes")


class Parses(unittest.TestCase):
    def test_a_whole_match(self):
        match = Grammar(CHAIN).parse("aab")
        self.assertIsInstance(match, Match)
        self.assertEqual((match.consumed, match.far, match.expected), (3, 2, ["'a'"]))
        self.assertTrue(match.is_whole)
        # 15 steps are counted by hand in docs/USAGE.md.
        self.assertEqual(match.steps, 15)

    def test_a_match_has_the_steps_of_the_run_that_found_it(self):
        # Without a memo n parentheses take 18 * 2**n - 11 steps, and with one 12 * n + 7. The first run has no memo,
        # and may take 4,096 steps and 64 for each of the 3 * n + 1 bytes: 5,696 for eight, and 5,888 for nine.
        grammar = Grammar("A <- '(' A ')' 'x' / '(' A ')' 'y' / 'a'\n")
        self.assertEqual(grammar.parse("(" * 8 + "a" + ")y" * 8).steps, 4597)
        self.assertEqual(grammar.parse("(" * 9 + "a" + ")y" * 9).steps, 115)

    def test_a_failure_is_false(self):
        failure = Grammar(CHAIN).match("c")
        self.assertIsInstance(failure, Failure)
        self.assertFalse(failure)
        self.assertEqual((failure.far, failure.expected), (0, ["'a'", "'b'"]))
        self.assertEqual(failure.expected_spans, [(5, 8), (13, 16)])

    def test_a_failure_is_raised_with_its_position(self):
        with self.assertRaises(ParseError) as caught:
            Grammar("Line <- Word ('\\n' Word)*\nWord <- [a-z]+\n").parse("ab\nc1", name="notes.txt")
        error = caught.exception
        self.assertEqual((error.position, error.line, error.column), (4, 2, 2))
        self.assertEqual(error.expected, ["the end", "'\\n'", "[a-z]"])
        self.assertEqual((error.found, error.consumed), ("'1'", 4))
        self.assertEqual(
            str(error), "notes.txt:2:2: expected the end, '\\n' or [a-z], found '1'\nc1\n ^"
        )

    def test_the_furthest_failure_may_be_after_the_match(self):
        with self.assertRaises(ParseError) as caught:
            Grammar("S <- ('a' 'b')* 'a'?\n").parse("abac")
        error = caught.exception
        self.assertEqual((error.position, error.consumed, error.far), (3, 3, 3))
        self.assertEqual(error.expected, ["the end", "'b'"])

    def test_a_message_may_name_a_rule_in_place_of_its_class(self):
        with self.assertRaises(ParseError) as caught:
            Grammar("Sum <- Number ('+' Number)*\nNumber <- [0-9]+\n").parse("1+x")
        self.assertEqual(caught.exception.expected, ["[0-9]"])
        self.assertEqual(caught.exception.message, "expected Number, found 'x'")

    def test_a_literal_fails_at_its_start(self):
        with self.assertRaises(ParseError) as caught:
            Grammar("S <- 'ab'* 'a'?\n").parse("abac")
        error = caught.exception
        self.assertEqual((error.position, error.far, error.expected), (3, 3, ["the end"]))
        with self.assertRaises(ParseError) as caught:
            Grammar("S <- 'ab'\n").parse("a")
        self.assertEqual((caught.exception.position, caught.exception.far), (0, 1))

    def test_a_predicate_fails_at_its_start(self):
        grammar = Grammar("S <- ! B [a-z] !\t# the end\n.\nB <- 'if' ![a-z]\n")
        with self.assertRaises(ParseError) as caught:
            grammar.parse("if", name="a:1:1: b.txt")
        error = caught.exception
        self.assertEqual((error.position, error.expected, error.found), (0, ["no B"], "'i'"))
        self.assertEqual(error.message, "expected something other than B, found 'i'")
        self.assertEqual(str(error), "a:1:1: b.txt:1:1: expected something other than B, found 'i'\nif\n^")
        with self.assertRaises(ParseError) as caught:
            grammar.parse("ab")
        self.assertEqual((caught.exception.position, caught.exception.expected), (1, ["the end"]))

    def test_a_whole_match_has_no_error(self):
        self.assertRaises(ValueError, Grammar(CHAIN).parse("ab").error)

    def test_errors_of_bytes(self):
        with self.assertRaises(ParseError) as caught:
            Grammar("S <- 'a'\n").parse(b"\xff", name="b\udcff.txt")
        self.assertEqual(caught.exception.found, "'\\xFF'")
        self.assertTrue(str(caught.exception).startswith("b\\xff.txt:1:1: expected 'a', found "))

    def test_the_end_can_be_found(self):
        with self.assertRaises(ParseError) as caught:
            Grammar("S <- 'a' 'b'\n").parse("a")
        self.assertEqual((caught.exception.position, caught.exception.found), (1, "the end"))

    def test_a_prefix_is_a_match(self):
        match = Grammar(CHAIN).match("abc")
        self.assertEqual((match.consumed, match.is_whole, match.text), (2, False, "ab"))

    def test_options(self):
        grammar = Grammar("A <- B 'x'\nB <- 'b'\n")
        self.assertEqual(grammar.parse("b", "B").root.rule, "B")
        self.assertRaises(NoSuchRuleError, grammar.parse, "b", "C")
        self.assertRaises(NoSuchRuleError, grammar.parse, "b", "")
        chain = Grammar(CHAIN)
        self.assertEqual(chain.parse("aab", memo=0, steps=15).steps, 15)
        self.assertRaises(StepLimitError, chain.parse, "aab", memo=0, steps=14)
        for options in ({"memo": -1}, {"memo": 1_000_001}, {"steps": 0}, {"steps": 1_000_000_000_001}):
            self.assertRaises(ValueError, chain.parse, "b", **options)
        self.assertRaises(TextTooLongError, chain.parse, b"a" * 67_108_865)

    def test_str_is_encoded_and_buffers_are_bytes(self):
        match = Grammar("S <- ('ü' / [a-z])*\n").parse("aüb")
        self.assertEqual((match.byte_consumed, match.data, match.text), (4, "aüb".encode("utf-8"), "aüb"))
        self.assertEqual(Grammar("S <- .*\n").parse(b"\xff\x00").text, b"\xff\x00")
        self.assertEqual(Grammar("S <- .*\n").parse(bytearray(b"ab")).text, b"ab")

    def test_repeated_work_ends_with_the_default_memo(self):
        grammar = Grammar("A <- '(' A ')' 'x' / '(' A ')' 'y' / 'a'\n")
        match = grammar.parse("(" * 100 + "a" + ")y" * 100)
        self.assertEqual(len(match.rows), 101)


def run_threads(count, function):
    """Runs a function of a number from 0 in threads at the same time. Returns what it returns, by number."""
    results = [None] * count

    def run(number):
        results[number] = function(number)

    threads = [threading.Thread(target=run, args=(number,)) for number in range(count)]
    for thread in threads:
        thread.start()
    for thread in threads:
        thread.join()
    return results


class Calls:
    """Counts the calls that make and free grammars, while it is entered. The garbage collector then runs on request."""

    NAMES = tuple(f"peg_{kind}_{call}" for kind in ("grammar", "explainer") for call in ("read", "share", "free"))

    def __init__(self):
        self.library = _library.LIBRARY
        self.counted = {name: [] for name in self.NAMES}

    def __enter__(self):
        gc.collect()
        gc.disable()
        _library.LIBRARY = self
        return self

    def __exit__(self, *error):
        _library.LIBRARY = self.library
        gc.enable()

    def __getattr__(self, name):
        function = getattr(self.library, name)
        if name in self.NAMES:
            self.counted[name].append(name)
        return function

    def __getitem__(self, name):
        return len(self.counted[name])

    def counts(self):
        return {name: self[name] for name in self.NAMES if self[name]}


class Threads(unittest.TestCase):
    def test_a_grammar_is_used_by_several_threads(self):
        grammar, lengths = Grammar(CHAIN), {}

        def parse(count):
            lengths[count] = [grammar.parse("a" * count + "b").consumed for _ in range(50)]

        threads = [threading.Thread(target=parse, args=(count,)) for count in (1, 10, 100, 1000)]
        for thread in threads:
            thread.start()
        for thread in threads:
            thread.join()
        self.assertEqual(lengths, {count: [count + 1] * 50 for count in (1, 10, 100, 1000)})

    def test_a_grammar_is_compiled_once(self):
        with Calls() as calls:
            grammar = Grammar(CHAIN)
            run_threads(3, lambda number: grammar.parse("ab"))
            # The thread that made it and the three have a handle each, besides the one that they share.
            self.assertEqual(calls.counts(), {"peg_grammar_read": 1, "peg_grammar_share": 4, "peg_grammar_free": 3})

    def test_a_thread_that_ends_frees_its_handle(self):
        with Calls() as calls:
            grammar = Grammar(CHAIN)
            for ended in range(3):
                self.assertEqual(calls["peg_grammar_free"], ended)
                run_threads(1, lambda number: grammar.parse("ab"))
            self.assertEqual(calls["peg_grammar_free"], 3)
            self.assertEqual(grammar.parse("ab").consumed, 2)

    def test_the_grammar_of_explanations_is_compiled_once(self):
        with Calls() as calls:
            grammar = Grammar(CHAIN)
            self.assertEqual(grammar.parse("b").consumed, 1)
            self.assertEqual(calls["peg_explainer_read"], 0)
            errors = run_threads(3, lambda number: [str(grammar.match("a" * number).error()) for _ in range(4)])
            self.assertEqual(calls["peg_explainer_read"], 1)
            self.assertEqual((calls["peg_explainer_share"], calls["peg_explainer_free"]), (3, 3))
            self.assertEqual(errors[2], ["<text>:1:3: expected 'a' or 'b', found the end\naa\n  ^"] * 4)
            del grammar
            self.assertEqual(calls["peg_explainer_free"], 4)

    def test_a_grammar_outlives_the_thread_that_made_it(self):
        made = run_threads(1, lambda number: Grammar(CHAIN))
        self.assertEqual(made.pop().parse("b").consumed, 1)

    def test_another_thread_frees_a_grammar(self):
        with Calls() as calls:
            grammars = [Grammar(CHAIN)]
            grammars[0].parse("b")
            run_threads(1, lambda number: grammars.clear())
            self.assertEqual(calls.counts(), {"peg_grammar_read": 1, "peg_grammar_share": 1, "peg_grammar_free": 2})

    def test_the_garbage_collector_of_another_thread_frees_a_grammar(self):
        with Calls() as calls:
            circle = [Grammar(CHAIN)]
            circle.append(circle)
            del circle
            self.assertEqual(calls["peg_grammar_free"], 0)
            run_threads(1, lambda number: gc.collect())
            self.assertEqual(calls["peg_grammar_free"], 2)

    def test_a_pool_of_eight_threads_parses_as_one_thread(self):
        grammar = Grammar("Sum <- Number ('+' Number)* !.\nNumber <- [0-9]+\n")
        # Every third sum ends with a sign, where a number is missing.
        texts = ["+".join(map(str, range(count % 50 + 1))) + "+" * (count % 3 == 0) for count in range(400)]

        def outcome(text):
            answer = grammar.match(text)
            if not answer:
                return str(answer.error())
            return [(node.rule, node.start, node.end) for node in answer.root.walk()]

        with ThreadPoolExecutor(8) as pool:
            self.assertEqual(list(pool.map(outcome, texts)), list(map(outcome, texts)))

    def test_threads_make_and_drop_grammars(self):
        shared = Grammar(CHAIN)

        def parse(number):
            consumed = 0
            for _ in range(50):
                grammar = Grammar(CHAIN if number % 2 else b"S <- 'a'* 'b'\n")
                consumed += grammar.parse("a" * number + "b").consumed + shared.parse("ab").consumed
            return consumed

        self.assertEqual(run_threads(8, parse), [50 * (number + 3) for number in range(8)])


if __name__ == "__main__":
    unittest.main()
