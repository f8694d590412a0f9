"""Records of streams as columns of numbers."""

import io
import unittest

from pegtool import Failure, Grammar, Match, NoSuchRuleError, RecordArrays, Refusal
from pegtool import _arrays, _records

NUMBERS = "Numbers <- Number (',' Number)*\nNumber <- Digit+\nDigit <- [0-9]\n"


class Pieces:
    """A stream that gives these pieces, one for each read."""

    def __init__(self, *pieces):
        self.pieces = list(pieces)

    def read(self, size):
        return self.pieces.pop(0) if self.pieces else b""


def blocks(data, source=NUMBERS, **options):
    """The blocks of the records of some bytes."""
    stream = io.BytesIO(data) if isinstance(data, bytes) else data
    return list(Grammar(source).line_arrays(stream, **options))


def texts(data, **options):
    """The texts of the records of some bytes."""
    return [
        block.data[start:end]
        for block in blocks(data, "Text <- .*", **options)
        for start, end in zip(block.record_starts, block.record_ends)
    ]


def rows_of(match):
    """The nodes of a match as rules and texts."""
    return [(node.rule, node.text) for node in match.root.walk()]


class Blocks(unittest.TestCase):
    def test_a_record_ends_at_a_line_feed(self):
        self.assertEqual(texts(b"ab\n\nc\n"), [b"ab", b"", b"c"])

    def test_the_last_record_may_lack_its_end(self):
        self.assertEqual(texts(b"a\nb"), [b"a", b"b"])

    def test_a_stream_without_bytes_has_no_block(self):
        self.assertEqual(blocks(b""), [])

    def test_a_line_feed_alone_ends_an_empty_record(self):
        self.assertEqual(texts(b"\n"), [b""])

    def test_carriage_returns_are_left_out_with_the_option_alone(self):
        self.assertEqual(texts(b"a\r\n\r\nb\n"), [b"a\r", b"\r", b"b"])
        self.assertEqual(texts(b"a\r\n\r\nb\r\r\nc\rd\r", crlf=True), [b"a", b"", b"b\r", b"c\rd"])

    def test_records_may_end_at_zero_bytes(self):
        self.assertEqual(texts(b"a\nb\0c\0", null=True), [b"a\nb", b"c"])

    def test_a_record_may_come_in_several_reads(self):
        stream = Pieces(b"1", b"2", b"3\n4", b"\n", b"5\n6\n", b"7")
        found = blocks(stream)
        self.assertEqual([block.data for block in found], [b"123\n", b"4\n", b"5\n6\n", b"7"])
        self.assertEqual([block.first for block in found], [1, 2, 3, 5])
        self.assertEqual([len(block) for block in found], [1, 1, 2, 1])

    def test_a_block_is_given_before_the_stream_is_at_its_end(self):
        stream = Pieces(b"1\n2\n", b"3\n")
        found = Grammar(NUMBERS).line_arrays(stream)
        self.assertEqual(next(found).data, b"1\n2\n")
        self.assertEqual(stream.pieces, [b"3\n"])


class Columns(unittest.TestCase):
    def test_columns_are_those_of_the_parses(self):
        # The second record begins with no digit, and the third one has a letter after its number.
        (block,) = blocks(b"12,3\nx,4\n5x\n", show=["Number"])
        self.assertEqual(list(block.statuses), [0, 1, 0])
        self.assertEqual(list(block.record_starts), [0, 5, 9])
        self.assertEqual(list(block.record_ends), [4, 8, 11])
        self.assertEqual(list(block.consumed), [4, 0, 1])
        self.assertEqual(list(block.far), [4, 0, 1])
        self.assertEqual(list(block.node_counts), [3, 0, 2])
        self.assertEqual(list(block.first_nodes), [0, 3, 3])
        self.assertEqual(list(block.records), [0, 0, 0, 2, 2])
        self.assertEqual(list(block.rules), [0, 1, 1, 0, 1])
        self.assertEqual(list(block.starts), [0, 0, 3, 9, 9])
        self.assertEqual(list(block.ends), [4, 2, 4, 10, 10])
        self.assertEqual(list(block.levels), [1, 2, 2, 1, 2])
        self.assertEqual(list(block.sizes), [3, 1, 1, 2, 1])
        self.assertEqual(block.unmatched(), [1, 2])

    def test_columns_are_buffers_of_unsigned_words(self):
        (block,) = blocks(b"1\n2\n")
        for column in (block.statuses, block.record_starts, block.rules, block.starts, block.ends, block.records):
            view = memoryview(column)
            self.assertEqual((view.format, view.itemsize, view.ndim), ("I", 4, 1))

    def test_numpy_takes_a_column(self):
        try:
            import numpy
        except ImportError:
            self.skipTest("there is no numpy")
        (block,) = blocks(b"1\n22\n", show=["Number"])
        self.assertEqual(numpy.asarray(block.rules).tolist(), [0, 1, 0, 1])
        self.assertEqual((numpy.asarray(block.ends) - numpy.asarray(block.starts)).tolist(), [1, 1, 2, 2])
        self.assertTrue(numpy.shares_memory(numpy.asarray(block.rules), numpy.asarray(block.rules)))

    def test_without_a_tree_there_are_no_nodes(self):
        (block,) = blocks(b"1\nx\n", tree=False)
        self.assertEqual((list(block.statuses), list(block.rules), list(block.starts)), ([0, 1], [], []))
        self.assertEqual((list(block.node_counts), list(block.first_nodes)), ([0, 0], [0, 0]))

    def test_options_are_those_of_lines(self):
        (block,) = blocks(b"12\n", start="Digit")
        self.assertEqual(list(block.consumed), [1])
        grammar = Grammar(NUMBERS)
        with self.assertRaises(NoSuchRuleError):
            grammar.line_arrays(io.BytesIO(b"1\n"), start="Other")
        with self.assertRaises(NoSuchRuleError):
            grammar.line_arrays(io.BytesIO(b"1\n"), show=["Other"])
        with self.assertRaises(ValueError):
            grammar.line_arrays(io.BytesIO(b"1\n"), null=True, crlf=True)
        # Names may come from an iterator.
        (block,) = grammar.line_arrays(io.BytesIO(b"1\n"), show=iter(["Digit"]))
        self.assertEqual(list(block.rules), [0, 2])

    def test_more_nodes_than_there_is_room_for_give_more_blocks(self):
        count = 3 * _arrays.NODES_OF_A_RECORD
        data = (b"1," * count + b"1\n") * 5
        found = blocks(data, show=["Number"])
        self.assertGreater(len(found), 1)
        self.assertEqual(sum(len(block) for block in found), 5)
        self.assertEqual(sum(len(block.rules) for block in found), 5 * (count + 2))
        self.assertEqual([block.first for block in found][:2], [1, 1 + len(found[0])])
        texts = [block.data[start:end] for block in found for start, end in zip(block.starts, block.ends)]
        self.assertEqual(texts, ([b"1," * count + b"1"] + [b"1"] * (count + 1)) * 5)

    def test_one_record_may_have_more_nodes_than_the_first_call_has_room_for(self):
        (block,) = blocks(b"1," * 100 + b"1", show=["Number"])
        self.assertEqual(list(block.node_counts), [102])


class Answers(unittest.TestCase):
    def test_blocks_agree_with_lines(self):
        data = b"12,3\n\n4,x\nx\r\n" + b"7," * 300 + b"7\n5x\n" * 3 + b"9"
        for options in ({}, {"crlf": True}, {"show": ["Digit"]}, {"null": True}, {"hide": ["Number"]}, {"steps": 99}):
            grammar = Grammar(NUMBERS)
            lines = list(grammar.lines(io.BytesIO(data), memo=0, **options))
            found = [
                (block, index)
                for block in grammar.line_arrays(io.BytesIO(data), memo=0, **options)
                for index in range(len(block))
            ]
            self.assertEqual(len(found), len(lines))
            for (block, index), answer in zip(found, lines):
                with self.subTest(record=answer.record, **options):
                    self.check(grammar, block, index, answer)

    def check(self, grammar, block, index, answer):
        """Tests that a record of a block has this answer."""
        kinds = {0: Match, 1: Failure, 6: Refusal}
        self.assertEqual(block.first + index, answer.record)
        self.assertIs(type(answer), kinds[block.statuses[index]])
        again = block.answer(index)
        self.assertEqual((type(again), again.record, again.line), (type(answer), answer.record, answer.line))
        nodes = range(block.first_nodes[index], block.first_nodes[index] + block.node_counts[index])
        texts = [(grammar.rules[block.rules[n]], block.data[block.starts[n] : block.ends[n]]) for n in nodes]
        self.assertEqual(texts, rows_of(answer) if answer else [])
        self.assertEqual([block.records[n] for n in nodes], [index] * len(nodes))
        if not isinstance(answer, Refusal):
            self.assertEqual((block.consumed[index], block.far[index]), (answer.consumed if answer else 0, answer.far))
        self.assertEqual(index in block.unmatched(), not (answer and answer.is_whole))

    def test_an_answer_has_the_line_of_the_stream(self):
        # CR LF ends one line, and CR alone ends one.
        found = blocks(Pieces(b"a\r\nb\0c\rd\0", b"e\0f\0"), "Text <- .*", null=True)
        places = [(block.answer(i).record, block.answer(i).line) for block in found for i in range(len(block))]
        self.assertEqual(places, [(1, 1), (2, 2), (3, 3), (4, 3)])

    def test_an_error_has_the_name_of_the_stream(self):
        (block,) = blocks(b"12\n3x\n", name="numbers.txt")
        (index,) = block.unmatched()
        self.assertTrue(str(block.answer(index).error()).startswith("numbers.txt:2:2: expected "))

    def test_there_is_no_answer_past_the_records(self):
        (block,) = blocks(b"12\n")
        for index in (-1, 1):
            with self.assertRaises(IndexError):
                block.answer(index)

    def test_a_record_over_the_limit_of_a_text_is_refused_and_the_stream_continues(self):
        limit = _records.MAX_TEXT_BYTES
        pieces = [b"1" * _records.BLOCK] * (limit // _records.BLOCK)
        stream = Pieces(*pieces, b"1", b"1" * 10, b"1" * 10, b"\n2\n")
        (block,) = blocks(stream, "Text <- '1'*", tree=False)
        self.assertEqual(list(block.statuses), [7, 0])
        self.assertEqual(list(block.consumed), [0, 0])
        self.assertEqual(block.data[block.record_starts[1] : block.record_ends[1]], b"2")
        self.assertEqual(repr(block), "<RecordArrays of 2 records, 0 nodes>")
        self.assertIsInstance(block, RecordArrays)

    def test_a_carriage_return_does_not_count_for_the_limit(self):
        limit = _records.MAX_TEXT_BYTES
        pieces = [b"1" * _records.BLOCK] * (limit // _records.BLOCK)
        (block,) = blocks(Pieces(*pieces, b"\r\n"), "Text <- '1'*", tree=False, crlf=True)
        self.assertEqual(list(block.consumed), [limit])


if __name__ == "__main__":
    unittest.main()
