"""Nodes, rows, records and the lines of pegtool, against values worked out by hand."""

import struct
import unittest

from pegtool import Grammar, NodeError, NoSuchRuleError, Row, Rows

CHAIN = "S <- 'a' S / 'b'\n"
SUM = "Sum <- Product ('+' Product)*\nProduct <- Number ('*' Number)*\nNumber <- [0-9]+\n"


class Nodes(unittest.TestCase):
    def setUp(self):
        self.match = Grammar(SUM).parse("2+3*45")
        self.root = self.match.root

    def test_nodes_have_rule_extent_and_text(self):
        shown = [(node.rule, node.start, node.end, node.text, node.level, node.size) for node in self.root.walk()]
        self.assertEqual(
            shown,
            [
                ("Sum", 0, 6, "2+3*45", 1, 6),
                ("Product", 0, 1, "2", 2, 2),
                ("Number", 0, 1, "2", 3, 1),
                ("Product", 2, 6, "3*45", 2, 3),
                ("Number", 2, 3, "3", 3, 1),
                ("Number", 4, 6, "45", 3, 1),
            ],
        )

    def test_children_are_iterated_indexed_and_counted(self):
        self.assertEqual([child.text for child in self.root], ["2", "3*45"])
        self.assertEqual(self.root[1][-1].bytes, b"45")
        self.assertEqual((len(self.root), len(self.root[0][0])), (2, 0))
        self.assertRaises(IndexError, lambda: self.root[2])
        self.assertEqual(self.root[0:1] + self.root[:0:-1], self.root.children)

    def test_the_children_of_a_node_are_looked_for_once(self):
        self.assertIs(self.match._children_of(3), self.match._children_of(3))
        self.assertEqual(self.match._children_of(3).tolist(), [4, 5])

    def test_parents_lead_to_the_root(self):
        last = self.root[1][1]
        self.assertEqual(last.parent, self.root[1])
        self.assertEqual(last.parent.parent, self.root)
        self.assertIsNone(self.root.parent)

    def test_nodes_are_found_by_rule(self):
        self.assertEqual([node.text for node in self.root.find_all("Number")], ["2", "3", "45"])
        self.assertEqual(self.root[1].find("Number").text, "3")
        self.assertIsNone(self.root.find("Sum"))
        self.assertRaises(ValueError, self.root.find, "Other")

    def test_a_required_node_is_found_or_an_error(self):
        self.assertEqual(self.root[1].find("Number", required=True), self.root[1][0])
        with self.assertRaises(NodeError) as caught:
            self.root[1].find("Sum", required=True)
        self.assertEqual(str(caught.exception), "<text>:1:3: this Product has no Sum\n2+3*45\n  ^")
        self.assertRaises(NoSuchRuleError, self.root.find, "Other", required=True)

    def test_nodes_are_shown(self):
        self.assertEqual(repr(self.root[1]), "<Product 2..6>")
        self.assertEqual(
            self.root[1].pprint(), "Product '3*45'\n  Number '3'\n  Number '45'"
        )
        self.assertEqual(repr(self.match), "<Match of 6 bytes, 6 nodes>")

    def test_a_shown_tree_is_bounded(self):
        shown = "Sum '2+3*45'\n  Product '2'\n    ...\n  Product '3*45'\n    ..."
        self.assertEqual(self.root.pprint(levels=2), shown)
        self.assertEqual(self.root.pprint(lines=2), "Sum '2+3*45'\n  Product '2'\n...")
        self.assertEqual(self.root.pprint(width=6).split("\n")[0], "Sum '2+...")
        deep = Grammar(CHAIN).parse("a" * 100_000 + "b").root.pprint()
        self.assertEqual((len(deep.split("\n")), len(deep) < 5_000), (41, True))

    def test_nodes_are_compared_by_place(self):
        self.assertEqual(self.root[0], next(iter(self.root)))
        self.assertNotEqual(self.root[0], Grammar(SUM).parse("2").root)
        self.assertEqual(len({self.root, self.match.root}), 1)


class RowsOfAMatch(unittest.TestCase):
    def test_rows_are_a_sequence(self):
        rows = Grammar(CHAIN).parse("ab").rows
        self.assertEqual(list(rows), [Row(1, "S", 0, 2), Row(2, "S", 1, 2)])
        self.assertEqual((len(rows), rows[-1], rows[1:]), (2, (2, "S", 1, 2), [(2, "S", 1, 2)]))
        self.assertRaises(IndexError, lambda: rows[2])

    def test_rows_are_compared(self):
        match = Grammar(CHAIN).parse("ab")
        self.assertEqual(match.rows, match.rows)
        self.assertEqual(match.rows, Grammar(CHAIN).parse("ab").rows)
        self.assertEqual(match.rows, [(1, "S", 0, 2), (2, "S", 1, 2)])
        self.assertNotEqual(match.rows, Grammar(CHAIN).parse("aab").rows)
        self.assertNotEqual(match.rows, [(1, "S", 0, 2)])

    def test_rows_are_packed(self):
        rows = Grammar(CHAIN).parse("ab").rows
        self.assertEqual(list(struct.iter_unpack("=IIIIQ", rows.buffer)), [(0, 0, 2, 1, 2), (0, 1, 2, 2, 1)])
        self.assertTrue(rows.buffer.readonly)

    def test_numpy_takes_the_rows(self):
        try:
            import numpy
        except ImportError:
            self.skipTest("no numpy")
        rows = Grammar(SUM).parse("2+3*45").rows
        nodes = numpy.frombuffer(rows.buffer, Rows.FORMAT)
        self.assertEqual(nodes["level"].tolist(), [1, 2, 3, 2, 3, 3])
        self.assertEqual(int(nodes["size"].sum()), 6 + 2 + 1 + 3 + 1 + 1)


class Records(unittest.TestCase):
    LOG = "Log <- Line*\nLine <- Path ' ' Status? '\\n'\nPath <- '/' Word*\nWord <- [a-z]+ '/'?\nStatus <- [0-9]{3}\n"

    def test_records_have_the_texts_of_the_first_nodes(self):
        match = Grammar(self.LOG).parse("/a/b 200\n/ \n/c 404\n")
        self.assertEqual(list(match.records("Line", "Path", "Status")), [("/a/b", "200"), ("/", None), ("/c", "404")])
        self.assertEqual(list(match.records("Line", "Status", "Word")), [("200", "a/"), (None, None), ("404", "c")])
        self.assertEqual(list(match.records("Path", "Status")), [(None,)] * 3)
        self.assertRaises(TypeError, match.records, "Line")

    def test_records_are_of_the_type_that_was_given(self):
        match = Grammar(self.LOG).parse(b"/a 200\n")
        self.assertEqual(list(match.records("Line", "Path")), [(b"/a",)])
        match = Grammar("S <- P*\nP <- K V\nK <- '\xfc'\nV <- [a-z]\n").parse("\xfca\xfcb")
        self.assertEqual(list(match.records("P", "K", "V")), [("\xfc", "a"), ("\xfc", "b")])

    def test_nested_nodes_have_records_of_their_own(self):
        match = Grammar("L <- '(' W? L* ')'\nW <- [a-z]+\n").parse("(a(b)((c)))")
        self.assertEqual(list(match.records("L", "W")), [("a",), ("b",), ("c",), ("c",)])
        # A node isn't below itself.
        match = Grammar("L <- '(' L* ')'\n").parse("(()())")
        self.assertEqual(list(match.records("L", "L")), [("()",), (None,), (None,)])

    def test_the_rules_of_records_are_known(self):
        match = Grammar(self.LOG).parse("")
        self.assertEqual(list(match.records("Line", "Path")), [])
        self.assertRaises(NoSuchRuleError, match.records, "Lien", "Path")
        self.assertRaises(NoSuchRuleError, match.records, "Line", "Paht")


class Lines(unittest.TestCase):
    def test_the_lines_are_those_of_pegtool(self):
        # The lines are in docs/USAGE.md.
        match = Grammar(CHAIN).parse("aab")
        self.assertEqual(
            match.to_json(),
            '{"consumed":3,"expected":[[5,8]],"far":2,"result":"matched","tree":{"children":[{"children":'
            '[{"children":[],"end":3,"rule":"S","start":2}],"end":3,"rule":"S","start":1}],"end":3,"rule":"S","start":0}}',
        )
        self.assertEqual(
            match.to_json(rows=True),
            '{"consumed":3,"expected":[[5,8]],"far":2,"result":"matched","rows":[[1,"S",0,3],[2,"S",1,3],[3,"S",2,3]]}',
        )
        failure = Grammar(CHAIN).match("")
        self.assertEqual(failure.to_json(), '{"expected":[[5,8],[13,16]],"far":0,"result":"failed"}')

    def test_siblings_are_separated(self):
        match = Grammar("A <- B B\nB <- 'b'\n").parse("bb")
        self.assertEqual(
            match.to_json(),
            '{"consumed":2,"expected":[],"far":0,"result":"matched","tree":{"children":[{"children":[],"end":1,'
            '"rule":"B","start":0},{"children":[],"end":2,"rule":"B","start":1}],"end":2,"rule":"A","start":0}}',
        )

    def test_a_tree_of_61_levels_is_not_nested(self):
        grammar = Grammar(CHAIN)
        self.assertIn('"tree"', grammar.parse("a" * 59 + "b").to_json())
        self.assertRaises(ValueError, grammar.parse("a" * 60 + "b").to_json)
        self.assertIn('[61,"S",60,61]', grammar.parse("a" * 60 + "b").to_json(rows=True))


if __name__ == "__main__":
    unittest.main()
