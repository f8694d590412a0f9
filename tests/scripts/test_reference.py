"""Tests of reference.py at examples of Ford's paper (POPL 2004) and of docs/NOTATION.md, worked out by hand."""
import pathlib
import sys
import unittest

sys.path.insert(0, str(pathlib.Path(__file__).resolve().parent.parent))
from reference import Grammar, Node, Parse, Refused, check_line, parse_line  # noqa: E402

# The language of a's, b's and c's of one number, which is not context-free (section 3.3).
COUNTS = b"D <- &(A !'b') 'a'* B !.\nA <- 'a' A 'b' / ''\nB <- 'b' B 'c' / ''\n"


def answer(file: bytes, text: bytes):
    grammar = Grammar(file)
    return Parse(grammar, text).answer(grammar.names[0])


def refusal(file: bytes) -> dict[str, object]:
    try:
        Grammar(file).check()
    except Refused as refused:
        return refused.members
    return {}


sys.setrecursionlimit(5_000)


class Parses(unittest.TestCase):
    def test_the_language_of_three_equal_counts(self) -> None:
        for text, end in [(b"", 0), (b"abc", 3), (b"aabbcc", 6), (b"aabbc", None), (b"abbc", None), (b"aabcc", None)]:
            root = answer(COUNTS, text).root
            self.assertEqual(root.end if root else None, end, text)

    def test_a_choice_commits_to_its_first_match(self) -> None:
        self.assertEqual(answer(b"S <- 'a' / 'ab'", b"ab").root, Node("S", 0, 1, ()))

    def test_a_star_takes_all_and_gives_nothing_back(self) -> None:
        found = answer(b"S <- 'a'* 'a'", b"aa")
        self.assertEqual((found.root, found.far, found.expected), (None, 2, [(5, 8), (10, 13)]))

    def test_a_literal_fails_at_the_byte_that_differs(self) -> None:
        found = answer(b"S <- 'abc'", b"abd")
        self.assertEqual((found.far, found.expected), (2, [(5, 10)]))

    def test_failures_in_predicates_count(self) -> None:
        found = answer(b"S <- !'b' 'a'", b"c")
        self.assertEqual((found.far, found.expected), (0, [(6, 9), (10, 13)]))

    def test_a_count_is_greedy(self) -> None:
        self.assertIsNone(answer(b"S <- 'a'{1,2} 'a'", b"aa").root)
        self.assertEqual(answer(b"S <- 'a'{2}", b"aaa").root, Node("S", 0, 2, ()))

    def test_a_line_has_its_keys_in_byte_order(self) -> None:
        line = '{"consumed":2,"expected":[[5,8]],"far":1,"result":"partial","rows":[[1,"S",0,2],[2,"S",1,2]]}\n'
        self.assertEqual(parse_line(answer(b"S <- 'a' S / 'b'", b"abx"), b"abx", "--rows", True, None), (line, 1))


class Refusals(unittest.TestCase):
    def test_where_files_are_refused(self) -> None:
        for file, at in [(b"A <- [a-]", 5), (b'A <- "a\\-b"', 5), (b"A <- '\\x4g'", 5), (b"A <- 'x' #end", 9),
                         (b"A < 'x'", 2), (b"A <- a-b", 6), (b"A <- 'x';", 8), (b"A <- 'x'{2,}", 8), (b"A <- 'x')", 8),
                         (b"A <- ('x'", 9), (b"A <- 'x'?*", 9), (b"A <- 'x'{2}{3}", 11), (b"A <- !!A", 6),
                         (b"A A <- 'x'", 2), (b"A <- (B <- 'x')", 8), (b"A <- ) 'x'{0}", 5)]:
            found = refusal(file)
            self.assertEqual((found.get("refusal"), found.get("at")), ("Syntax", at), file)

    def test_counts_out_of_range(self) -> None:
        self.assertEqual(refusal(b"A <- 'x'{0} )"), {"at": 8, "column": 9, "line": 1, "refusal": "BadCount"})

    def test_too_many_open_parentheses(self) -> None:
        self.assertEqual(refusal(b"A <- " + b"(" * 201)["at"], 205)

    def test_names(self) -> None:
        self.assertEqual(refusal(b"A <- B\nA <- 'x'\n")["refusal"], "Duplicate")
        self.assertEqual(refusal(b"A <- B\n")["start"], 5)

    def test_a_star_of_what_matches_the_empty_string(self) -> None:
        line = '{"column":6,"end":12,"line":1,"refusal":"EmptyLoop","rule":"A","start":5}\n'
        self.assertEqual(check_line(b"A <- ('a'*)*\n"), (line, 2))

    def test_a_left_cycle_through_an_optional_part(self) -> None:
        self.assertEqual(refusal(b"A <- B 'x'\nB <- 'y'? A\n"), {"path": ["A", "B"], "refusal": "LeftRecursion"})

    def test_the_shortest_cycle_of_the_least_rule(self) -> None:
        file = b"S <- A\nA <- B / C\nB <- D\nC <- D\nD <- A / 'x' S\n"
        self.assertEqual(refusal(file)["path"], ["A", "B", "D"])


if __name__ == "__main__":
    unittest.main()
