"""Positions, lines, columns and carets, for texts that are `str` and for texts that are bytes."""

import unittest

from pegtool import Grammar, GrammarError, ParseError, Text
from pegtool._caret import caret_lines
from pegtool._lines import BLOCK as LINES_BLOCK
from pegtool._lines import Lines
from pegtool._text import BLOCK

WORDS = "Words <- Word ([ \\r\\n]+ Word)*\nWord <- Letter+\nLetter <- [a-z] / [\\xC0-\\xFF] [\\x80-\\xBF]+\n"

# Words of characters that take one byte, two, three and four.
SEVERAL = "ab größe\n日本 a𝄞\r\nße"


def positions(match, rule):
    """The positions of the nodes of a rule."""
    return [(node.start, node.end, node.line, node.column) for node in match.root.find_all(rule)]


def error_of(call, *arguments, **options):
    """The error that a call raises."""
    try:
        call(*arguments, **options)
    except (ParseError, GrammarError) as error:
        return error
    raise AssertionError("no error")


class Characters(unittest.TestCase):
    def test_positions_of_a_str_count_characters(self):
        match = Grammar(WORDS).parse(SEVERAL)
        # ab, größe, 日本, a𝄞, ße
        self.assertEqual(
            positions(match, "Word"), [(0, 2, 1, 1), (3, 8, 1, 4), (9, 11, 2, 1), (12, 14, 2, 4), (16, 18, 3, 1)]
        )
        self.assertEqual((match.start, match.end, match.consumed), (0, 18, 18))

    def test_a_part_of_the_text_is_the_text_of_the_node(self):
        match = Grammar(WORDS).parse(SEVERAL)
        for node in match.root.walk():
            self.assertEqual(SEVERAL[node.start : node.end], node.text)
            self.assertEqual(SEVERAL.encode("utf-8")[node.byte_start : node.byte_end], node.bytes)
            self.assertEqual(node.bytes.decode("utf-8"), node.text)

    def test_positions_of_bytes_count_bytes(self):
        match = Grammar(WORDS).parse(SEVERAL.encode("utf-8"))
        self.assertEqual(
            positions(match, "Word"), [(0, 2, 1, 1), (3, 10, 1, 4), (11, 17, 2, 1), (18, 23, 2, 8), (25, 28, 3, 1)]
        )
        self.assertEqual([(node.byte_start, node.byte_end) for node in match.root.find_all("Word")][1], (3, 10))
        self.assertEqual((match.end, match.consumed, match.byte_end), (28, 28, 28))

    def test_lengths_and_failures_of_a_str_count_characters(self):
        match = Grammar("S <- '\xfc'* 'ab'?\n").match("\xfc\xfcac")
        # The literal fails after its first letter.
        self.assertEqual((match.consumed, match.end, match.far, match.text), (2, 2, 3, "\xfc\xfc"))
        self.assertEqual((match.byte_consumed, match.byte_end, match.byte_far), (4, 4, 5))
        self.assertIn('{"consumed":4,"expected":[[11,15]],"far":5,', match.to_json())

    def test_a_character_belongs_to_the_node_that_has_its_first_byte(self):
        text = "gr\xf6\xdfe"
        nodes = Grammar("S <- C*\nC <- .\n").parse(text).root.children
        self.assertEqual([node.text for node in nodes], ["g", "r", "\xf6", "", "\xdf", "", "e"])
        self.assertEqual("".join(node.text for node in nodes), text)

    def test_rows_count_bytes(self):
        match = Grammar("S <- A A\nA <- '\xfc'\n").parse("\xfc\xfc")
        self.assertEqual([row[2:] for row in match.rows], [(0, 4), (0, 2), (2, 4)])

    def test_long_texts_have_the_positions_of_short_ones(self):
        for before in (BLOCK - 2, BLOCK - 1, BLOCK, 2 * BLOCK, 3 * BLOCK + 1):
            text = "\xfc" * before + "日本" * BLOCK
            node = Grammar("S <- [\\xBC\\xC3]* A\nA <- .*\n").parse(text).root[0]
            self.assertEqual((node.start, node.end), (before, before + 2 * BLOCK))
            self.assertEqual(node.text, "日本" * BLOCK)


class Texts(unittest.TestCase):
    def test_positions_and_offsets_belong_together(self):
        text = Text("a\xfc日𝄞b")
        # The characters begin at the bytes 0, 1, 3, 6 and 10.
        self.assertEqual([text.position(offset) for offset in (0, 1, 3, 6, 10, 11)], [0, 1, 2, 3, 4, 5])
        self.assertEqual([text.offset(position) for position in range(6)], [0, 1, 3, 6, 10, 11])
        self.assertEqual(text.position(2), 2)
        self.assertEqual(len(text), 5)

    def test_positions_and_offsets_of_long_texts(self):
        given = "a\xfc日𝄞" * BLOCK
        text = Text(given)
        for position in (0, 1, 127, 128, 129, 255, 256, 257, 1000, len(given) - 1, len(given)):
            offset = len(given[:position].encode("utf-8"))
            self.assertEqual((text.offset(position), text.position(offset)), (offset, position))

    def test_a_position_is_in_the_text(self):
        for given in ("\xfcb", b"ab"):
            text = Text(given)
            self.assertEqual((text.offset(0), text.offset(2)), (0, len(text.data)))
            for position in (-1, 3):
                self.assertRaises(ValueError, text.offset, position)
                self.assertRaises(ValueError, text.line_column, position)

    def test_a_buffer_is_a_text_of_bytes(self):
        text = Text(bytearray(b"ab"))
        self.assertEqual((text.given, text.data), (b"ab", b"ab"))
        self.assertRaises(TypeError, Text, 5)


class LinesOfTexts(unittest.TestCase):
    def test_all_line_ends_count(self):
        for given in ("a\nb\r\nc\rd\n", b"a\nb\r\nc\rd\n"):
            match = Grammar("S <- .*\n").parse(given)
            places = [match.line_column(position) for position in range(10)]
            # The position between CR and LF is in the line that they end.
            lines = [(1, 1), (1, 2), (2, 1), (2, 2), (2, 3), (3, 1), (3, 2), (4, 1), (4, 2), (5, 1)]
            self.assertEqual(places, lines)
            self.assertRaises(ValueError, match.line_column, 10)

    def test_long_texts_have_the_lines_of_short_ones(self):
        for line_end in (b"\n", b"\r", b"\r\n"):
            for length in (1, 7, 63, LINES_BLOCK, LINES_BLOCK + 5):
                data = (b"a" * length + line_end) * (3 * LINES_BLOCK // length)
                lines = Lines(data)
                step = length + len(line_end)
                for line in range(len(data) // step):
                    for offset in (0, length // 2, length, step - 1):
                        self.assertEqual(lines.at(line * step + offset), (line + 1, line * step))
                self.assertEqual(lines.at(len(data)), (len(data) // step + 1, len(data)))

    def test_line_ends_at_blocks_count_once(self):
        for before in range(LINES_BLOCK - 3, LINES_BLOCK + 2):
            data = b"a" * before + b"\r\n\n\rb"
            lines = Lines(data)
            self.assertEqual([lines.at(before + n)[0] for n in range(6)], [1, 1, 2, 3, 4, 4])
            starts = [0, 0, before + 2, before + 3, before + 4, before + 4]
            self.assertEqual([lines.at(before + n)[1] for n in range(6)], starts)

    def test_columns_of_a_str_count_characters(self):
        text = "\xfc\n日本x"
        self.assertEqual(Grammar("S <- .*\n").parse(text).line_column(4), (2, 3))
        self.assertEqual(Grammar("S <- .*\n").parse(text.encode("utf-8")).line_column(9), (2, 7))

    def test_a_failure_has_lines_too(self):
        failure = Grammar("S <- .* 'x'\n").match("a\nb")
        self.assertEqual(failure.line_column(failure.far), (2, 2))


class Errors(unittest.TestCase):
    def test_an_error_in_a_str_counts_characters(self):
        error = error_of(Grammar("S <- 'gr\xf6\xdfe ' [a-z]+\n").parse, "gr\xf6\xdfe frm!", name="sql.txt")
        self.assertEqual((error.line, error.column, error.position, error.byte_position), (1, 10, 9, 11))
        self.assertEqual((error.consumed, error.far, error.found), (9, 9, "'!'"))
        head, line, caret = str(error).split("\n")
        self.assertTrue(head.startswith("sql.txt:1:10: expected "), head)
        self.assertEqual((line, caret), ("gr\xf6\xdfe frm!", "         ^"))

    def test_an_error_in_bytes_counts_bytes(self):
        error = error_of(Grammar("S <- 'gr\xf6\xdfe ' [a-z]+\n").parse, "gr\xf6\xdfe frm!".encode("utf-8"))
        self.assertEqual((error.line, error.column, error.position, error.byte_position), (1, 12, 11, 11))
        self.assertEqual(str(error).split("\n")[1:], ["gr\xf6\xdfe frm!", "         ^"])

    def test_a_caret_is_below_its_character(self):
        # What is before the fault, and the blanks below it: wide characters, a combining accent, no width, a tab.
        cases = [("日本", "    "), ("e\u0301a", "  "), ("a\u200bb", "  "), ("\u3000\t", "  \t"), ("ａ", "  "), ("한", "  ")]
        cases.append(("a\xadb", "   "))
        for before, blanks in cases:
            for text in (before + "!", (before + "!").encode("utf-8")):
                error = error_of(Grammar("S <- [\\t\\x22-\\xFF]*\n").parse, text)
                self.assertEqual(str(error).split("\n")[1:], [before + "!", blanks + "^"])

    def test_what_cannot_be_printed_is_escaped_above_the_caret(self):
        self.assertEqual(caret_lines(b"a\x01\xff!", 0, 3), "a\\x01\\xFF!\n         ^")
        # A character that the position splits is shown as bytes.
        self.assertEqual(caret_lines("\xfc".encode("utf-8"), 0, 1), "\\xC3\\xBC\n    ^")
        self.assertEqual(caret_lines(b"a\r\nb", 0, 2), "a\n ^")
        self.assertEqual(caret_lines(b"a\r\nbc\rd", 3, 4), "bc\n ^")
        # A line may begin inside of a character, and a character over 127 may be a control character.
        self.assertEqual(caret_lines(b"a\n\x80b", 2, 3), "\\x80b\n    ^")
        self.assertEqual(caret_lines("\x85!".encode("utf-8"), 0, 2), "\x85!\n ^")

    def test_a_long_line_is_cut_around_the_position(self):
        line = b"a" * 200
        self.assertEqual(caret_lines(line, 0, 100), "a" * 120 + "\n" + " " * 80 + "^")
        self.assertEqual(caret_lines(line, 0, 10), "a" * 120 + "\n" + " " * 10 + "^")
        self.assertEqual(caret_lines(line, 0, 200), "a" * 80 + "\n" + " " * 80 + "^")
        # No character is cut: what is shown begins and ends up to three bytes earlier.
        self.assertEqual(caret_lines(("日" * 100).encode("utf-8"), 0, 150), "日" * 40 + "\n" + " " * 54 + "^")
        self.assertEqual(caret_lines(("a" * 119 + "\xfcb").encode("utf-8"), 0, 0), "a" * 119 + "\n^")
        line = ("𝄞" * 50 + "aaa!").encode("utf-8")
        self.assertEqual(caret_lines(line, 0, 203), "𝄞" * 20 + "aaa!\n" + " " * 23 + "^")

    def test_messages_are_those_of_the_library(self):
        grammar = Grammar("S <- [\\x00-\\x20\\x22-\\xFF]*\n")
        handle = grammar._explainer()
        long = ["b" * 300 + "!" + "c" * 300, "a" + "\xfc" * 300 + "!"]
        texts = [text.encode("utf-8") for text in ("a!", "a\nb\r\nc!", "\t\x01\x7f!", "\xfc\xdf\x85!", *long)]
        for data in (*texts, b"a\n\x80b\xff!"):
            error = error_of(grammar.parse, data, name="t.txt")
            status, raw = handle.explain(data, 0, grammar.match(data)._request.options)
            self.assertEqual((error.message, error.byte_position), (raw.sentence, raw.position))
            self.assertEqual(str(error) + "\n", "t.txt" + raw.message)

    def test_a_grammar_error_in_a_str_counts_characters(self):
        error = error_of(Grammar, "S <- '\xfc\xfc' T\n")
        self.assertEqual((error.line, error.column, error.offset, error.byte_offset), (1, 11, 10, 12))
        self.assertEqual(str(error).split("\n")[2], "          ^")
        error = error_of(Grammar, "S <- '\xfc\xfc' T\n".encode("utf-8"))
        self.assertEqual((error.line, error.column, error.offset, error.byte_offset), (1, 13, 12, 12))


if __name__ == "__main__":
    unittest.main()
