"""Tests of lint_finder.py at the examples of docs/LINT.md, and of how lint.py compares lists. The spans are counted by
hand."""
import pathlib
import sys
import unittest

sys.path.insert(0, str(pathlib.Path(__file__).resolve().parent.parent))
from lint import differences  # noqa: E402
from lint_finder import KINDS, MAY_BE_MISSED, Finder  # noqa: E402

MISTAKES = pathlib.Path(__file__).resolve().parents[2] / "examples/lint/mistakes.peg"


def found(file: bytes, start=None):
    """The kinds and the spans of the warnings about a grammar file."""
    return [(warning["kind"], warning["start"], warning["end"]) for warning in Finder(file, start).warnings()]


class Kinds(unittest.TestCase):
    def test_a_rule_is_unused_if_no_path_of_names_leads_to_it(self) -> None:
        file = b"Item <- 'x'\nList <- Item (',' Item)*\n"
        self.assertEqual(found(file), [("UnusedRule", 12, 16)])
        self.assertEqual(found(file, "List"), [])
        self.assertEqual(found(b"S <- 'a'\nT <- 'x' U / 'y'\nU <- 'u' T / 'v'"),
                         [("UnusedRule", 9, 10), ("UnusedRule", 26, 27)])

    def test_what_calls_itself_on_every_path_never_matches(self) -> None:
        self.assertEqual(found(b"S <- 'a' S"), [("NeverMatches", 5, 10), ("NeverMatches", 9, 10)])

    def test_the_empty_class_alone_has_no_warning(self) -> None:
        self.assertEqual(found(b"S <- 'a' / []"), [])
        self.assertEqual(found(b"S <- 'a' []"), [("NeverMatches", 5, 11)])

    def test_alternatives_after_one_that_never_fails(self) -> None:
        self.assertEqual(found(b"S <- 'a'? / 'b'? / 'c'"), [("NeverTried", 12, 16), ("NeverTried", 19, 22)])
        self.assertEqual([warning["by"] for warning in Finder(b"S <- 'a'? / 'b'? / 'c'").warnings()], [[5, 9], [5, 9]])

    def test_a_doubled_slash_is_an_empty_alternative(self) -> None:
        self.assertEqual(found(b"S <- 'a' // 'b'"), [("EmptyAlternative", 10, 10), ("NeverTried", 12, 15)])

    def test_a_predicate_that_always_fails(self) -> None:
        self.assertEqual(found(b"S <- !('a'?) 'b'"), [("NeverMatches", 5, 16), ("AlwaysFails", 5, 12)])

    def test_operators_without_effect(self) -> None:
        self.assertEqual(found(b"S <- ('a'*)? 'b'"), [("NoEffect", 5, 12)])
        self.assertEqual(found(b"S <- &('a'?) 'b'"), [("NoEffect", 5, 12)])
        self.assertEqual(found(b"S <- (!'a')? 'b'"), [])

    def test_a_sequence_begins_with_its_parenthesis(self) -> None:
        self.assertEqual(found(b"S <- ('a' / 'b') [] / 'c'"), [("NeverMatches", 5, 19)])

    def test_ranges_of_a_class(self) -> None:
        self.assertEqual(found(b"S <- [z-a] 'x'"), [("NeverMatches", 5, 14), ("ReversedRange", 6, 9)])
        self.assertEqual(found(b"S <- [+-]]"), [("ClassEndsInRange", 6, 9)])
        self.assertEqual(found(rb"S <- [+-\]] [\x41-\101]"), [])
        self.assertEqual(found(b"S <- [A-z] [0-9a-fA-F]"), [("RangeOverSigns", 6, 9)])
        self.assertEqual(found(b"S <- [0-9+-.] [!-/]"), [("RangeOverSigns", 9, 12)])

    def test_repeated_bytes_of_a_class(self) -> None:
        self.assertEqual(found(b"S <- [0-9,a-f,A-F]"), [("RepeatedByte", 13, 14)])
        self.assertEqual(found(rb"S <- [a-mm-z] [A\x41] [a-mn-z]"), [("RepeatedByte", 9, 12), ("RepeatedByte", 16, 20)])

    def test_items_that_cannot_follow_the_one_before(self) -> None:
        self.assertEqual(found(b"S <- 'x' !. 'y'"), [("NeverFollows", 12, 15)])
        self.assertEqual(found(b"S <- W 'x'\nW <- [a-z]+"), [("NeverFollows", 7, 10)])
        self.assertEqual(found(b"S <- !'##' '#' / !'a' ."), [])

    def test_items_that_take_nothing(self) -> None:
        self.assertEqual(found(b"S <- 'a' ' '* ' '* 'b'"), [("TakesNothing", 14, 18)])
        self.assertEqual(found(b"S <- ' '? ' '* 'x'? !."), [])

    def test_bytes_of_classes_and_literals(self) -> None:
        self.assertEqual(found(b"Text <- [^x]+\n"), [("ClassBeginsWithCaret", 8, 12)])
        self.assertEqual(found("S <- 'é' [é]".encode()), [("HighBytesInClass", 10, 14)])
        self.assertEqual(found(b"S <- '\n' [\r] '\\n'"), [("HoldsLineEnd", 5, 8), ("HoldsLineEnd", 9, 12)])
        self.assertEqual(found(b"S <- [ T ] [ T]"), [("BlanksInClass", 5, 10), ("RepeatedByte", 8, 9)])

    def test_a_dot_at_the_end_of_a_rule(self) -> None:
        self.assertEqual(found(b"S <- T . # end\nT <- 't' ."), [("AnyAtEnd", 7, 8)])
        for item in (b"!T .", b"T . .", b"T (.)", b"'a' (T .)", b"('a' T .)"):
            self.assertEqual(found(b"S <- " + item + b"\nT <- 't'"), [], item)

    def test_the_file_with_each_kind_has_each_kind(self) -> None:
        kinds = {kind for kind, _, _ in found(MISTAKES.read_bytes())}
        self.assertEqual(kinds, set(KINDS) - MAY_BE_MISSED)


class Differences(unittest.TestCase):
    WANTED = Finder(b"S <- 'a' // 'b'").warnings()

    def count(self, printed) -> int:
        return len(list(differences(self.WANTED, printed)))

    def test_the_same_lists(self) -> None:
        self.assertEqual(self.count(self.WANTED), 0)

    def test_a_missing_an_extra_and_a_repeated_warning(self) -> None:
        self.assertEqual(self.count(self.WANTED[1:]), 1)
        self.assertEqual(self.count(self.WANTED + [{**self.WANTED[1], "kind": "NeverMatches", "start": 14}]), 1)
        self.assertEqual(self.count([self.WANTED[0], *self.WANTED]), 1)

    def test_another_member_is_a_missing_and_an_extra_warning(self) -> None:
        self.assertEqual(self.count([self.WANTED[0], {**self.WANTED[1], "by": [0, 0]}]), 2)

    def test_another_order(self) -> None:
        self.assertEqual(self.count(self.WANTED[::-1]), 1)

    def test_a_kind_that_may_be_missed_is_only_compared_with_itself(self) -> None:
        shadowed = {**self.WANTED[1], "kind": "Shadowed"}
        self.assertEqual(self.count([*self.WANTED, shadowed]), 0)
        self.assertEqual(self.count([*self.WANTED, shadowed, shadowed]), 1)


if __name__ == "__main__":
    unittest.main()
