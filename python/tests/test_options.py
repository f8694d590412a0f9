"""Options of parses: shown and hidden rules, no tree, and a position to begin at."""

import pathlib
import tempfile
import threading
import unittest

from pegtool import _library
from pegtool import Failure, Grammar, Match, NoSuchRuleError, ParseError, Text

# The grammar and the text are those of docs/USAGE.md, section "Shown and hidden rules".
LETTERS = "S <- A B\nA <- 'a' C\nC <- 'c'\nB <- 'b' D D\nD <- 'd'\n"
TEXT = "acbdd"
LINE = "Line <- Word ' ' Word? '\\n'\nWord <- [a-z\\xC3\\xBC]+\n"


def rows(match):
    """The rows of a match as tuples."""
    return [tuple(row) for row in match.rows]


def sizes(match):
    """The sizes of the nodes."""
    return [node.size for node in match.root.walk()]


class Selection(unittest.TestCase):
    def test_the_children_of_a_hidden_node_take_its_place(self):
        match = Grammar(LETTERS).parse(TEXT, hide=["A", "B"])
        self.assertEqual(rows(match), [(1, "S", 0, 5), (2, "C", 1, 2), (2, "D", 3, 4), (2, "D", 4, 5)])
        self.assertEqual(sizes(match), [4, 1, 1, 1])
        self.assertEqual([child.rule for child in match.root], ["C", "D", "D"])
        self.assertEqual([child.parent for child in match.root], [match.root] * 3)

    def test_the_root_and_shown_nodes_are_shown(self):
        match = Grammar(LETTERS).parse(TEXT, show=["C"])
        self.assertEqual(rows(match), [(1, "S", 0, 5), (2, "C", 1, 2)])
        match = Grammar(LETTERS).parse(TEXT, show=("B", "D"))
        self.assertEqual(rows(match), [(1, "S", 0, 5), (2, "B", 2, 5), (3, "D", 3, 4), (3, "D", 4, 5)])
        self.assertEqual(sizes(match), [4, 3, 1, 1])
        self.assertEqual(rows(Grammar(LETTERS).parse(TEXT, show=[])), [(1, "S", 0, 5)])

    def test_the_lines_are_those_of_pegtool(self):
        # The lines are in docs/USAGE.md.
        grammar = Grammar(LETTERS)
        self.assertEqual(
            grammar.parse(TEXT, hide=["A", "B"]).to_json(rows=True),
            '{"consumed":5,"expected":[],"far":0,"result":"matched",'
            '"rows":[[1,"S",0,5],[2,"C",1,2],[2,"D",3,4],[2,"D",4,5]]}',
        )
        self.assertEqual(
            grammar.parse(TEXT, show=["C"]).to_json(),
            '{"consumed":5,"expected":[],"far":0,"result":"matched","tree":{"children":[{"children":[],"end":2,'
            '"rule":"C","start":1}],"end":5,"rule":"S","start":0}}',
        )

    def test_the_root_is_shown_though_its_rule_is_hidden(self):
        match = Grammar("S <- 'a' S / T\nT <- 'b'\n").parse("aab", hide=["S"])
        self.assertEqual(rows(match), [(1, "S", 0, 3), (2, "T", 2, 3)])

    def test_deep_trees_are_selected(self):
        match = Grammar("S <- A / 'b'\nA <- 'a' S\n").parse("a" * 20_000 + "b", hide=["S"])
        self.assertEqual((len(match.rows), match.rows[-1]), (20_001, (20_001, "A", 19_999, 20_001)))
        self.assertEqual([match.root.size, match.root[0].size], [20_001, 20_000])

    def test_a_grammar_may_have_hidden_rules(self):
        grammar = Grammar(LETTERS, hide=["A", "C", "D"])
        self.assertEqual(rows(grammar.parse(TEXT)), [(1, "S", 0, 5), (2, "B", 2, 5)])
        self.assertEqual(rows(grammar.match(TEXT + "x")), [(1, "S", 0, 5), (2, "B", 2, 5)])
        with tempfile.TemporaryDirectory() as folder:
            path = pathlib.Path(folder, "letters.peg")
            path.write_text(LETTERS, encoding="ascii")
            self.assertEqual(Grammar.from_file(path, hide=["A", "C", "D"]).hide, grammar.hide)
        # What a parse says goes before.
        self.assertEqual(len(grammar.parse(TEXT, hide=[]).rows), 6)
        self.assertEqual(rows(grammar.parse(TEXT, show=["C"])), [(1, "S", 0, 5), (2, "C", 1, 2)])

    def test_names_are_names_of_rules(self):
        grammar = Grammar(LETTERS)
        for options in ({"show": ["T"]}, {"hide": ["A", "T"]}, {"hide": ["T"], "tree": False}):
            with self.assertRaises(NoSuchRuleError) as caught:
                grammar.match(TEXT, **options)
            self.assertEqual(str(caught.exception), "no rule has the name T")
        self.assertRaises(NoSuchRuleError, Grammar, LETTERS, hide=["T"])
        self.assertRaises(ValueError, grammar.match, TEXT, show=["A"], hide=["B"])
        self.assertRaises(TypeError, grammar.match, TEXT, hide="A")

    def test_a_failure_has_no_nodes_to_select(self):
        self.assertIsInstance(Grammar(LETTERS).match("x", hide=["A"]), Failure)


    def test_hidden_nodes_are_not_made(self):
        grammar = Grammar(LETTERS)
        with Counted("peg_parser_parse") as counted:
            grammar.parse(TEXT, hide=["A"])
            grammar.parse(TEXT, tree=False)
            grammar.parse(TEXT)
        self.assertEqual(counted.calls, 2)

    def test_a_grammar_is_compiled_once_for_hidden_rules_that_are_asked_for_again(self):
        grammar = Grammar(LETTERS)
        with Counted("peg_parser_read") as counted:
            for _ in range(3):
                grammar.parse(TEXT, hide=["A"])
                grammar.parse(TEXT, show=["S", "C", "B", "D"])
                grammar.parse(TEXT, tree=False)
                grammar.parse(TEXT, show=[])
        self.assertEqual(counted.calls, 2)

    def test_the_parsers_that_were_asked_for_last_are_kept(self):
        names = [f"R{number}" for number in range(9)]
        grammar = Grammar(f"S <- {' '.join(names)}\n" + "".join(f"{name} <- 'a'\n" for name in names))
        with Counted("peg_parser_read") as counted:
            for rule in [*grammar.rules[1:], *grammar.rules[1:3], grammar.rules[9]]:
                self.assertEqual(len(grammar.parse("a" * 9, hide=[rule]).rows), 9)
        self.assertEqual(counted.calls, 11)

    def test_threads_share_a_parser(self):
        grammar, found = Grammar(LETTERS, hide=["A"]), []
        with Counted("peg_parser_read") as counted:
            threads = [threading.Thread(target=lambda: found.append(len(grammar.parse(TEXT).rows))) for _ in range(8)]
            for thread in threads:
                thread.start()
            for thread in threads:
                thread.join()
        self.assertEqual((found, counted.calls), ([5] * 8, 1))


class Counted:
    """Counts the calls of a function of the library, while it is entered."""

    def __init__(self, name):
        self.library = _library.LIBRARY
        self.name = name
        self.calls = 0

    def __enter__(self):
        _library.LIBRARY = self
        return self

    def __exit__(self, *error):
        _library.LIBRARY = self.library

    def __getattr__(self, name):
        self.calls += name == self.name
        return getattr(self.library, name)


class NoTree(unittest.TestCase):
    def test_a_parse_may_make_no_tree(self):
        match = Grammar(LETTERS).parse(TEXT, tree=False)
        self.assertEqual((match.consumed, match.text, match.is_whole, len(match.rows)), (5, TEXT, True, 0))
        self.assertEqual(match.to_json(), '{"consumed":5,"expected":[],"far":0,"result":"matched"}')
        self.assertRaises(ValueError, lambda: match.root)
        self.assertRaises(ValueError, match.records, "A", "C")
        self.assertRaises(ParseError, Grammar(LETTERS).parse, "a", tree=False)


class Positions(unittest.TestCase):
    def test_a_parse_may_begin_at_a_position(self):
        for text in (b"a b\nc \n", "a b\nc \n", Text("a b\nc \n"), Text(b"a b\nc \n"), memoryview(b"a b\nc \n")):
            match = Grammar(LINE).match(text, pos=4)
            self.assertEqual((match.start, match.end, match.consumed, match.is_whole), (4, 7, 3, True))
            self.assertEqual([(node.start, node.end, node.line, node.column) for node in match.root], [(4, 5, 2, 1)])
            self.assertEqual(rows(match), [(1, "Line", 4, 7), (2, "Word", 4, 5)])
            self.assertEqual(match.far, 6)

    def test_records_are_parsed_one_after_the_other(self):
        grammar, text = Grammar(LINE), Text("\xfc b\n\xfc\xfc \nc d\n")
        position, found = 0, []
        while position < len(text):
            match = grammar.match(text, pos=position)
            self.assertIsInstance(match, Match)
            found.append([word.text for word in match.root])
            position = match.end
        self.assertEqual(found, [["\xfc", "b"], ["\xfc\xfc"], ["c", "d"]])

    def test_errors_count_from_the_beginning_of_the_text(self):
        with self.assertRaises(ParseError) as caught:
            Grammar(LINE).parse("\xfc b\n\xfc !\n", pos=4, name="t.txt")
        error = caught.exception
        self.assertEqual((error.position, error.byte_position, error.line, error.column), (6, 8, 2, 3))
        self.assertEqual((error.consumed, error.far), (None, 6))
        head, line, caret = str(error).split("\n")
        self.assertTrue(head.startswith("t.txt:2:3: expected "), head)
        self.assertEqual((line, caret), ("\xfc !", "  ^"))

    def test_the_source_line_begins_before_the_position(self):
        with self.assertRaises(ParseError) as caught:
            Grammar("Word <- [a-z]+\n").parse("ab,cd!", pos=3)
        error = caught.exception
        self.assertEqual((error.position, error.column, error.consumed), (5, 6, 2))
        self.assertEqual(str(error).split("\n")[1:], ["ab,cd!", "     ^"])

    def test_a_failure_counts_from_the_beginning_of_the_text(self):
        failure = Grammar(LINE).match("\xfc b\n!", pos=4)
        self.assertEqual((failure.far, failure.byte_far), (4, 5))
        self.assertEqual(Grammar("S <- 'a'*\n").match("bb", pos=2).far, 2)

    def test_a_parse_ends_where_the_text_ends(self):
        for text in ("abcd", b"abcd"):
            match = Grammar("S <- .*\n").match(text, pos=2)
            self.assertEqual((match.end, match.consumed, match.is_whole), (4, 2, True))

    def test_a_position_is_in_the_text(self):
        grammar = Grammar("S <- 'a'*\n")
        self.assertEqual(grammar.parse("aa", pos=2).consumed, 0)
        for position in (-1, 3):
            self.assertRaises(ValueError, grammar.match, "aa", pos=position)
            self.assertRaises(ValueError, grammar.match, b"aa", pos=position)
        self.assertRaises(TypeError, grammar.match, "aa", pos="1")

    def test_shown_nodes_have_their_positions(self):
        match = Grammar(LETTERS).match("xx" + TEXT, pos=2, show=["D"])
        self.assertEqual(rows(match), [(1, "S", 2, 7), (2, "D", 5, 6), (2, "D", 6, 7)])

    def test_a_text_of_bytes_is_not_copied(self):
        data = b"a b\nc \n"
        self.assertIs(Grammar(LINE).match(data, pos=4).data, data)
        text = Text("a b\nc \n")
        self.assertIs(Grammar(LINE).match(text, pos=4).data, text.data)


class Names(unittest.TestCase):
    def test_an_answer_knows_the_name_of_its_text(self):
        grammar = Grammar(LINE)
        self.assertTrue(str(grammar.match("!", name="t.txt").error()).startswith("t.txt:1:1: "))
        self.assertTrue(str(grammar.match("!", name="t.txt").error("other")).startswith("other:1:1: "))
        self.assertEqual(grammar.match("a \n").name, "<text>")


if __name__ == "__main__":
    unittest.main()
