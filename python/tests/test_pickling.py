"""Pickled and copied grammars, answers and nodes, also between processes."""

import copy
import multiprocessing
import pickle
import unittest

from pegtool import Failure, Grammar, Match, ParseError, Text

SUM = "Sum <- Product ('+' Product)*\nProduct <- Number ('*' Number)*\nNumber <- [0-9\\x80-\\xFF]+\n"
GRAMMAR = Grammar(SUM, name="sum.peg", hide=["Product"])


def numbers_of(text):
    """The nodes of the numbers of a text; a function that other processes can call."""
    return list(GRAMMAR.parse(text, name="sum.txt").root.find_all("Number"))


def texts_of(nodes):
    """The texts of nodes; a function that other processes can call."""
    return [node.text for node in nodes]


def grammar_and_length(grammar):
    """The rules of a grammar, and the length that it matches; a function that other processes can call."""
    return grammar.rules, grammar.match("12+3").consumed


def members(answer):
    """What an answer has, for comparisons."""
    common = (answer.far, answer.expected, answer.steps, answer.data, answer.name, answer.grammar.source)
    return (*common, list(answer.rows), answer.start, answer.end) if isinstance(answer, Match) else common


def sent(value):
    """What arrives of a value that is pickled, by each protocol."""
    return [pickle.loads(pickle.dumps(value, protocol)) for protocol in range(pickle.HIGHEST_PROTOCOL + 1)]


class Pickles(unittest.TestCase):
    def test_a_grammar_is_sent_as_its_source(self):
        for grammar in sent(GRAMMAR):
            self.assertEqual((grammar.source, grammar.name, grammar.hide), (GRAMMAR.source, "sum.peg", {"Product"}))
            self.assertEqual(len(grammar.parse("1*2").rows), 3)
        self.assertLess(len(pickle.dumps(GRAMMAR)), len(SUM) + 200)

    def test_a_match_is_sent_with_its_nodes(self):
        for text in ("12+3*\xfc", "12+3*\xfc".encode("utf-8")):
            match = GRAMMAR.match(text, name="sum.txt")
            for other in sent(match):
                self.assertIs(type(other), Match)
                self.assertEqual(members(other), members(match))
                self.assertEqual(other.root.pprint(), match.root.pprint())
                self.assertEqual((other.text, other.root[1].line), (text, 1))

    def test_a_match_keeps_its_selection_and_its_position(self):
        match = GRAMMAR.match("x12+3", pos=1, show=["Number"])
        for other in sent(match):
            self.assertEqual(members(other), members(match))
            self.assertEqual((other.start, [node.start for node in other.root]), (1, [1, 4]))
        match = GRAMMAR.match("1+2", tree=False)
        for other in sent(match):
            self.assertRaises(ValueError, lambda: other.root)

    def test_a_failure_is_sent(self):
        failure = GRAMMAR.match("+", name="sum.txt")
        for other in sent(failure):
            self.assertIs(type(other), Failure)
            self.assertEqual(members(other), members(failure))
            self.assertEqual(str(other.error()), str(failure.error()))

    def test_nodes_are_sent_with_their_match(self):
        match = GRAMMAR.parse("1+2*3")
        for nodes in sent(list(match.root)):
            self.assertEqual([node.text for node in nodes], ["1", "2", "3"])
            self.assertIs(nodes[0].match, nodes[2].match)
            self.assertEqual(nodes[2].parent, nodes[0].parent)
            self.assertEqual(nodes[1], nodes[0].match.root[1])

    def test_a_text_is_sent(self):
        for given in ("\xfcb", b"\xff"):
            for text in sent(Text(given)):
                self.assertEqual((text.given, text.data), (given, Text(given).data))

    def test_errors_at_nodes_are_sent(self):
        error = GRAMMAR.parse("1+2").root[1].error("too small")
        for other in sent(error):
            self.assertEqual((str(other), other.__dict__), (str(error), error.__dict__))


class Copies(unittest.TestCase):
    def test_what_never_changes_is_its_own_copy(self):
        match = GRAMMAR.parse("1+2*3")
        for value in (GRAMMAR, match, match.root[1], GRAMMAR.match("+"), Text("a")):
            self.assertIs(copy.copy(value), value)
            self.assertIs(copy.deepcopy(value), value)
        kept = copy.deepcopy({"nodes": list(match.root)})
        self.assertEqual(kept["nodes"], match.root.children)


class Processes(unittest.TestCase):
    def check(self, method):
        context = multiprocessing.get_context(method)
        with context.Pool(1) as pool:
            self.assertEqual(pool.apply(grammar_and_length, (GRAMMAR,)), (("Sum", "Product", "Number"), 4))
            (first, *_) = found = pool.apply(numbers_of, ("1+22*\xfc",))
            self.assertEqual([node.text for node in found], ["1", "22", "\xfc"])
            self.assertEqual((first.match.name, first.match.root.size), ("sum.txt", 4))
            self.assertEqual(pool.apply(texts_of, (found,)), ["1", "22", "\xfc"])
            with self.assertRaises(ParseError) as caught:
                pool.apply(numbers_of, ("1+",))
            self.assertEqual(caught.exception.position, 2)

    def test_nodes_go_to_and_from_a_forked_process(self):
        self.check("fork")

    def test_nodes_go_to_and_from_a_spawned_process(self):
        self.check("spawn")


if __name__ == "__main__":
    unittest.main()
