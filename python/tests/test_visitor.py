"""Visitors and transformers, against values worked out by hand."""

import unittest

from pegtool import Grammar, NodeError, NoSuchRuleError, ParseError, Transformer, Visitor, VisitError

CHAIN = "S <- 'a' S / 'b'\n"
SUM = "Sum <- Product ('+' Product)*\nProduct <- Number ('*' Number)*\nNumber <- [0-9]+\n"
SPACED = (
    "List <- Open Item* Close\nItem <- Word Spacing\nWord <- [a-z]+\n"
    "Open <- '(' Spacing\nClose <- ')'\nSpacing <- ' '*\n"
)


class Evaluate(Visitor):
    def visit_Sum(self, node, values):
        return sum(values)

    def visit_Product(self, node, values):
        result = 1
        for value in values:
            result *= value
        return result

    def visit_Number(self, node, values):
        return int(node.text)


class Visitors(unittest.TestCase):
    def test_values_go_from_the_leaves_up(self):
        match = Grammar(SUM).parse("2+3*45")
        self.assertEqual(Evaluate().visit(match), 137)
        self.assertEqual(Evaluate().visit(match.root[1]), 135)

    def test_other_nodes_have_their_values_or_their_text(self):
        self.assertEqual(Visitor().visit(Grammar(SUM).parse("2+3*45")), [["2"], ["3", "45"]])

    def test_the_type_of_a_value_depends_on_its_rule_alone(self):
        grammar = Grammar("List <- '[' Item* ']'\nItem <- &Word [a-z]+\nWord <- [a-z]\n")
        self.assertEqual(Visitor().visit(grammar.parse("[]")), [])
        self.assertEqual(Visitor().visit(grammar.parse("[a]")), ["a"])
        self.assertEqual([rule for rule in grammar.rules if grammar.is_leaf(rule)], ["Item", "Word"])

    def test_a_method_fits_a_rule(self):
        class Misspelt(Visitor):
            def visit_Itme(self, node, values):
                return None

        with self.assertRaises(NoSuchRuleError) as caught:
            Misspelt().visit(Grammar(SUM).parse("7"))
        self.assertEqual(str(caught.exception), "Misspelt.visit_Itme fits no rule")

    def test_a_rule_may_have_a_name_like_a_method(self):
        class Again(Visitor):
            def visit_revisit_x(self, node, values):
                return "again"

        self.assertEqual(Again().visit(Grammar("revisit_x <- 'x'\n").parse("x")), "again")

    def test_only_passes_a_value_on(self):
        class First(Evaluate):
            visit_Sum = Visitor.only

        self.assertEqual(First().visit(Grammar(SUM).parse("7*8")), 56)
        with self.assertRaises(VisitError) as caught:
            First().visit(Grammar(SUM).parse("7+8"))
        self.assertIsInstance(caught.exception.__cause__, ValueError)

    def test_deep_trees_are_visited(self):
        class Depth(Visitor):
            def visit_S(self, node, values):
                return 1 + (values[0] if values else 0)

        self.assertEqual(Depth().visit(Grammar(CHAIN).parse("a" * 50_000 + "b")), 50_001)

    def test_hidden_nodes_have_no_value(self):
        match = Grammar(SPACED).parse("(a bc )")
        # Open and Item call rules, so their values are lists, and Close has its text.
        self.assertEqual(Visitor().visit(match), [[""], ["a", " "], ["bc", " "], ")"])

        class Words(Visitor):
            hide = ("Spacing", "Open", "Close")

        # The nodes of Open have no other children than hidden ones, and those of Item have words.
        self.assertEqual(Words().visit(match), [["a"], ["bc"]])

        class Brackets(Visitor):
            hide = ["Spacing"]

        self.assertEqual(Brackets().visit(match), ["(", ["a"], ["bc"], ")"])

    def test_the_values_of_children_take_the_place_of_a_hidden_node(self):
        class Flat(Visitor):
            hide = {"Product"}

        self.assertEqual(Flat().visit(Grammar(SUM).parse("2+3*45")), ["2", "3", "45"])
        # A node that is visited has a value, also if its rule is hidden.
        self.assertEqual(Flat().visit(Grammar(SUM).parse("2+3*45").root[1]), ["3", "45"])

    def test_a_rule_that_calls_only_hidden_rules_has_a_text(self):
        grammar = Grammar("S <- N*\nN <- [0-9]+ Spacing\nSpacing <- (' ' / Comment)*\nComment <- '#' Comment?\n")
        spacing = ["Spacing", "Comment"]
        self.assertEqual(Visitor().visit(grammar.parse("1 2", hide=spacing)), ["1 ", "2"])
        self.assertEqual(Visitor().visit(grammar.parse("", hide=spacing)), [])
        self.assertFalse(grammar.is_leaf("N", ["Spacing"]))
        self.assertTrue(grammar.is_leaf("N", spacing))
        self.assertFalse(grammar.is_leaf("S", spacing))
        # Hidden rules may call each other, and then a rule that isn't hidden.
        chain = Grammar("A <- B\nB <- C?\nC <- D / 'b' B\nD <- 'd'\n")
        self.assertFalse(chain.is_leaf("A", ["B", "C"]))
        self.assertTrue(chain.is_leaf("A", ["B", "C", "D"]))

        class Numbers(Visitor):
            hide = spacing

        self.assertEqual(Numbers().visit(grammar.parse("1 2")), ["1 ", "2"])

    def test_hidden_rules_are_rules(self):
        class Misspelt(Visitor):
            hide = ["Spaces"]

        class NoList(Visitor):
            hide = "Spacing"

        match = Grammar(SPACED).parse("()")
        self.assertRaises(NoSuchRuleError, Misspelt().visit, match)
        self.assertRaises(TypeError, NoList().visit, match)


class Exceptions(unittest.TestCase):
    GRAMMAR = "Lines <- Line*\nLine <- Value '\\n'\nValue <- [a-z0-9\\x80-\\xFF]+\n"

    def visit(self, visitor, text="1\n\xfcx\n3\n"):
        """The error of a visit."""
        match = Grammar(self.GRAMMAR).parse(text, name="values.txt")
        try:
            visitor.visit(match)
        except Exception as error:
            return error
        raise AssertionError("no error")

    def test_an_exception_is_the_cause_of_an_error_with_the_place(self):
        class Numbers(Visitor):
            def visit_Value(self, node, values):
                return int(node.text)

        error = self.visit(Numbers())
        self.assertIsInstance(error, VisitError)
        self.assertIsInstance(error.__cause__, ValueError)
        self.assertEqual((error.line, error.column, error.rule), (2, 1, "Value"))
        head, line, caret = str(error).split("\n")
        self.assertEqual(head, f"values.txt:2:1: in the visit of <Value 2..4>: ValueError: {error.__cause__}")
        self.assertEqual((line, caret), ("\xfcx", "^"))

    def test_errors_of_the_package_are_passed_on(self):
        class Checks(Visitor):
            def visit_Value(self, node, values):
                if not node.text.isdigit():
                    raise node.error("no number")

        error = self.visit(Checks())
        self.assertIs(type(error), NodeError)
        self.assertEqual(str(error), "values.txt:2:1: no number\n\xfcx\n^")

        class Nested(Visitor):
            def visit_Value(self, node, values):
                return Grammar(CHAIN).parse(node.text)

        self.assertIs(type(self.visit(Nested())), ParseError)

    def test_other_exceptions_are_passed_on(self):
        class Interrupted(Visitor):
            def visit_Value(self, node, values):
                raise KeyboardInterrupt

        match = Grammar(self.GRAMMAR).parse("1\n")
        self.assertRaises(KeyboardInterrupt, Interrupted().visit, match)


class Calculate(Transformer):
    Number = int
    Sum = sum

    def Product(self, values):
        result = 1
        for value in values:
            result *= value
        return result


class Transformers(unittest.TestCase):
    def test_a_function_has_the_name_of_its_rule(self):
        self.assertEqual(Calculate().visit(Grammar(SUM).parse("2+3*45")), 137)
        self.assertEqual(Calculate().visit(Grammar(SUM).parse(b"2+3*45")), 137)

    def test_a_node_without_a_function_has_its_text_or_its_values(self):
        self.assertEqual(Transformer().visit(Grammar(SUM).parse("2+3*45")), [["2"], ["3", "45"]])

        class Numbers(Transformer):
            Number = float

        self.assertEqual(Numbers().visit(Grammar(SUM).parse("2+3*45")), [[2.0], [3.0, 45.0]])

    def test_a_method_with_the_node_goes_before(self):
        class Places(Calculate):
            def visit_Number(self, node, values):
                return (node.start, node.end)

            Product = list
            Sum = list

        self.assertEqual(Places().visit(Grammar(SUM).parse("2+3*45")), [[(0, 1)], [(2, 3), (4, 6)]])

    def test_hidden_rules_have_no_value(self):
        class Words(Transformer):
            hide = ("Spacing", "Open", "Close")
            Word = str.upper
            List = tuple

            def Item(self, values):
                (word,) = values
                return word

        self.assertEqual(Words().visit(Grammar(SPACED).parse("(a bc )")), ("A", "BC"))

    def test_a_function_fits_a_rule(self):
        class Misspelt(Transformer):
            Nubmer = int

        with self.assertRaises(NoSuchRuleError) as caught:
            Misspelt().visit(Grammar(SUM).parse("7"))
        self.assertEqual(str(caught.exception), "Misspelt.Nubmer fits no rule")

        class Helping(Transformer):
            factor = 2

            def _double(self, text):
                return self.factor * int(text)

            def Number(self, text):
                return self._double(text)

        self.assertEqual(Helping().visit(Grammar(SUM).parse("7+8")), [[14], [16]])

    def test_an_exception_has_its_place(self):
        with self.assertRaises(VisitError) as caught:
            Calculate().visit(Grammar("Sum <- Product\nProduct <- Number\nNumber <- [a-z]\n").parse("x"))
        self.assertEqual(caught.exception.rule, "Number")

    def test_a_rule_may_have_the_name_of_a_method(self):
        grammar = Grammar("visit <- only*\nonly <- [a-z]\n")
        self.assertEqual(Transformer().visit(grammar.parse("ab")), ["a", "b"])

        class Upper(Transformer):
            def visit_only(self, node, values):
                return node.text.upper()

        self.assertEqual(Upper().visit(grammar.parse("ab")), ["A", "B"])


if __name__ == "__main__":
    unittest.main()
