"""Records of streams."""

import io
import os
import pickle
import tempfile
import unittest

from pegtool import Failure, Grammar, Match, NoSuchRuleError, Refusal, StepLimitError, TextTooLongError
from pegtool import _records

NUMBERS = "Number <- Digit+\nDigit <- [0-9]\n"


class Pieces:
    """A stream that gives these pieces, one for each read."""

    def __init__(self, *pieces):
        self.pieces = list(pieces)

    def read(self, size):
        return self.pieces.pop(0) if self.pieces else b""


def answers(data, source=NUMBERS, **options):
    """What a grammar gives for the records of some bytes."""
    return list(Grammar(source).lines(io.BytesIO(data), **options))


def texts(data, **options):
    """The texts of the records of some bytes."""
    return [answer.data for answer in answers(data, "Text <- .*", **options)]


class Records(unittest.TestCase):
    def test_a_record_ends_at_a_line_feed(self):
        self.assertEqual(texts(b"ab\n\nc\n"), [b"ab", b"", b"c"])

    def test_the_last_record_may_lack_its_end(self):
        self.assertEqual(texts(b"a\nb"), [b"a", b"b"])

    def test_a_stream_without_bytes_has_no_record(self):
        self.assertEqual(texts(b""), [])

    def test_a_line_feed_alone_ends_an_empty_record(self):
        self.assertEqual(texts(b"\n"), [b""])

    def test_a_carriage_return_is_part_of_a_record_without_the_option(self):
        self.assertEqual(texts(b"a\r\nb\n"), [b"a\r", b"b"])

    def test_one_carriage_return_before_the_end_is_left_out_with_the_option(self):
        self.assertEqual(texts(b"a\r\nb\r\r\nc\rd\n", crlf=True), [b"a", b"b\r", b"c\rd"])

    def test_records_may_end_at_zero_bytes(self):
        self.assertEqual(texts(b"a\nb\0c\0", null=True), [b"a\nb", b"c"])

    def test_a_record_may_come_in_several_reads(self):
        stream = Pieces(b"1", b"2", b"3\n4", b"\n", b"5")
        found = [answer.data for answer in Grammar(NUMBERS).lines(stream)]
        self.assertEqual(found, [b"123", b"4", b"5"])

    def test_records_are_given_before_the_stream_is_at_its_end(self):
        stream = Pieces(b"1\n2\n", b"3\n")
        found = Grammar(NUMBERS).lines(stream)
        self.assertEqual([next(found).data, next(found).data], [b"1", b"2"])
        self.assertEqual(stream.pieces, [b"3\n"])

    def test_a_pipe_is_read_as_far_as_it_is_written(self):
        reading, writing = os.pipe()
        with open(reading, "rb") as stream:
            found = Grammar(NUMBERS).lines(stream)
            os.write(writing, b"12\n3")
            self.assertEqual(next(found).data, b"12")
            os.write(writing, b"4\n")
            os.close(writing)
            self.assertEqual([answer.data for answer in found], [b"34"])


class Answers(unittest.TestCase):
    def test_each_record_has_a_match_or_a_failure(self):
        found = answers(b"12\nx\n3y\n")
        self.assertEqual([type(answer) for answer in found], [Match, Failure, Match])
        self.assertEqual([bool(answer) for answer in found], [True, False, True])
        self.assertEqual([answer.record for answer in found], [1, 2, 3])
        self.assertEqual([found[0].is_whole, found[2].is_whole], [True, False])

    def test_positions_are_in_the_record(self):
        last = answers(b"12\n345\n")[1]
        self.assertEqual([(node.rule, node.start, node.end) for node in last.root.walk()][0], ("Number", 0, 3))
        self.assertEqual(last.text, b"345")

    def test_lines_are_those_of_the_stream(self):
        found = answers(b"12\n345\n")
        self.assertEqual([answer.line for answer in found], [1, 2])
        self.assertEqual(found[1].root[1].line, 2)
        self.assertEqual(found[1].line_column(2), (2, 3))

    def test_a_record_with_line_ends_moves_the_lines_of_those_after_it(self):
        # CR LF ends one line, and CR alone ends one.
        found = answers(b"a\r\nb\0c\rd\0e\0", "Text <- .*", null=True)
        self.assertEqual([(answer.record, answer.line) for answer in found], [(1, 1), (2, 2), (3, 3)])

    def test_errors_have_the_line_of_the_stream(self):
        error = answers(b"12\n3x\n", name="numbers.txt")[1].error()
        self.assertEqual((error.line, error.column, error.position), (2, 2, 1))
        self.assertTrue(str(error).startswith("numbers.txt:2:2: expected "), str(error))
        self.assertTrue(str(error).endswith(", found 'x'\n3x\n ^"), str(error))

    def test_an_error_has_the_name_of_the_file(self):
        with tempfile.TemporaryDirectory() as folder:
            path = os.path.join(folder, "numbers.txt")
            with open(path, "wb") as file:
                file.write(b"x\n")
            with open(path, "rb") as file:
                (failure,) = Grammar(NUMBERS).lines(file)
            self.assertEqual(failure.name, path)

    def test_options_are_those_of_a_parse(self):
        found = answers(b"12\n", start="Digit", tree=False)
        self.assertEqual(found[0].consumed, 1)
        self.assertRaises(ValueError, lambda: found[0].root)
        self.assertEqual([node.rule for node in answers(b"12\n", hide=["Digit"])[0].root.walk()], ["Number"])

    def test_an_answer_can_be_pickled(self):
        copy = pickle.loads(pickle.dumps(answers(b"1\n2\n")[1]))
        self.assertEqual((copy.record, copy.line, copy.text), (2, 2, b"2"))


class Refusals(unittest.TestCase):
    def test_a_record_over_the_limit_of_steps_is_refused_and_the_stream_continues(self):
        # A match of one digit takes 8 steps: each of Number's two calls has a choice or a commit around it.
        found = answers(b"1\n" + b"1" * 100 + b"\n2\n", steps=50, memo=0)
        self.assertEqual([type(answer) for answer in found], [Match, Refusal, Match])
        self.assertIsInstance(found[1].error(), StepLimitError)
        self.assertEqual((bool(found[1]), found[1].record, found[1].line), (False, 2, 2))

    def test_a_record_over_the_limit_of_a_text_is_refused_and_the_stream_continues(self):
        limit = _records.MAX_TEXT_BYTES
        pieces = [b"1" * _records.BLOCK] * (limit // _records.BLOCK)
        found = Grammar("Text <- '1'*").lines(Pieces(*pieces, b"1", b"1" * 10, b"\n2\n"), tree=False)
        first, second = found
        self.assertIsInstance(first, Refusal)
        self.assertIsInstance(first.error(), TextTooLongError)
        self.assertEqual((second.record, second.data), (2, b"2"))

    def test_a_carriage_return_does_not_count_for_the_limit(self):
        limit = _records.MAX_TEXT_BYTES
        pieces = [b"1" * _records.BLOCK] * (limit // _records.BLOCK)
        (only,) = Grammar("Text <- '1'*").lines(Pieces(*pieces, b"\r\n"), tree=False, crlf=True)
        self.assertEqual(only.consumed, limit)

    def test_wrong_options_are_refused_at_once(self):
        grammar = Grammar(NUMBERS)
        with self.assertRaises(NoSuchRuleError):
            grammar.lines(io.BytesIO(b"1\n"), start="Other")
        with self.assertRaises(NoSuchRuleError):
            grammar.lines(io.BytesIO(b"1\n"), hide=["Other"])
        with self.assertRaises(ValueError):
            grammar.lines(io.BytesIO(b"1\n"), null=True, crlf=True)


if __name__ == "__main__":
    unittest.main()
