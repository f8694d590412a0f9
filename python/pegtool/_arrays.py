"""The records of streams as columns of numbers: many records are parsed by one call of the library, and no object is
made for a record or a node."""

from __future__ import annotations

import array
import operator
import sys
from itertools import accumulate, chain, repeat
from typing import TYPE_CHECKING, Callable, Iterator, List, NamedTuple, Optional

from ._library import NodeTable, RecordTable, zeros
from ._lines import line_ends
from ._records import BLOCK, MAX_TEXT_BYTES, RecordAnswer, Stream
from ._text import RecordText

if TYPE_CHECKING:
    # Arrays have a type parameter from Python 3.12 on.
    Numbers = array.array[int]

# For how many nodes of each record the first call has room. Later calls have room for as many as records had.
NODES_OF_A_RECORD = 8


class Columns(NamedTuple):
    """What the parses of some records of a text gave."""

    # The text that the records are parts of.
    data: bytes
    records: RecordTable
    nodes: NodeTable
    # The number of nodes of the record after these, if there was no room for them.
    wanted: int


class Place(NamedTuple):
    """Where records begin in their stream: the number of the first one, and its line, both from 1."""

    record: int
    line: int


# A number, as often as another number says.
repeated: Callable[[int, int], Iterator[int]] = repeat

# Parses records of a text, with room for a number of nodes: as many of the records as it can.
ParseRecords = Callable[[bytes, RecordTable, int], Columns]

# Parses the text of one record.
AnswerRecord = Callable[[RecordText], RecordAnswer]


class RecordArrays:
    """Some records of a stream, one after the other, and the nodes of their trees, as columns of numbers.

    A column has a number for each record, or for each node. It is a memoryview of unsigned integers of 32 bits, so
    `numpy.asarray` takes it without a copy.

    >>> import io, pegtool
    >>> pairs = pegtool.Grammar("Pair <- Key '=' Value  Key <- [a-z]+  Value <- [0-9]+")
    >>> (block,) = pairs.line_arrays(io.BytesIO(b"a=1\\nbc\\nd=22\\n"), show=["Value"])
    >>> [block.data[start:end] for start, end in zip(block.starts, block.ends)]
    [b'a=1', b'1', b'd=22', b'22']
    >>> list(block.records), list(block.rules), list(block.statuses)
    ([0, 0, 2, 2], [0, 2, 0, 2], [0, 1, 0])

    `data` has the bytes of the records, and `first` is the number of the first one in the stream, from 1.
    """

    __slots__ = ("data", "first", "_columns", "_line", "_answer", "_records", "_begins", "_starts", "_ends")

    def __init__(self, columns: Columns, place: Place, answer: AnswerRecord) -> None:
        self.data = columns.data
        self.first = place.record
        self._columns = columns
        self._line = place.line
        self._answer = answer
        self._records: Optional[memoryview] = None
        # For each node, where its record begins.
        self._begins: Optional[memoryview] = None
        self._starts: Optional[memoryview] = None
        self._ends: Optional[memoryview] = None

    def __len__(self) -> int:
        """The number of records."""
        return len(self._columns.records)

    @property
    def record_starts(self) -> memoryview:
        """For each record, where it begins in `data`."""
        return self._columns.records.column(RecordTable.START)

    @property
    def record_ends(self) -> memoryview:
        """For each record, where it ends in `data`."""
        return self._columns.records.column(RecordTable.END)

    @property
    def statuses(self) -> memoryview:
        """For each record 0 if a prefix of it matches, 1 if none does, 6 if its parse is over the limit of steps, and 7
        if it is longer than a text may be. Only the first kind has nodes."""
        return self._columns.records.column(RecordTable.STATUS)

    @property
    def consumed(self) -> memoryview:
        """For each record, the length of the prefix that matched, or 0."""
        return self._columns.records.column(RecordTable.CONSUMED)

    @property
    def far(self) -> memoryview:
        """For each record, the furthest position in it where something failed, or 0."""
        return self._columns.records.column(RecordTable.FURTHEST)

    @property
    def first_nodes(self) -> memoryview:
        """For each record, the number of nodes of the records before it."""
        return self._columns.records.column(RecordTable.FIRST)

    @property
    def node_counts(self) -> memoryview:
        """For each record, the number of its nodes."""
        return self._columns.records.column(RecordTable.NODES)

    @property
    def rules(self) -> memoryview:
        """For each node, the number of its rule, from 0, as in `Grammar.rules`."""
        return self._columns.nodes.column(NodeTable.RULE)

    @property
    def levels(self) -> memoryview:
        """For each node, its level. The root of a record has level 1."""
        return self._columns.nodes.column(NodeTable.LEVEL)

    @property
    def sizes(self) -> memoryview:
        """For each node, the number of nodes in its subtree, itself included. Nodes are in preorder."""
        return self._columns.nodes.column(NodeTable.SIZE)

    @property
    def records(self) -> memoryview:
        """For each node, the index of its record, from 0. The first use takes time linear in the nodes."""
        if self._records is None:
            self._records = self._for_nodes(memoryview(array.array("I", range(len(self)))))
        return self._records

    @property
    def starts(self) -> memoryview:
        """For each node, where it begins in `data`. The first use takes time linear in the nodes."""
        if self._starts is None:
            self._starts = self._in_data(NodeTable.START)
        return self._starts

    @property
    def ends(self) -> memoryview:
        """For each node, where it ends in `data`. The first use takes time linear in the nodes."""
        if self._ends is None:
            self._ends = self._in_data(NodeTable.END)
        return self._ends

    def unmatched(self) -> List[int]:
        """The indexes of the records that don't match as a whole."""
        columns = zip(self.statuses, self.record_starts, self.consumed, self.record_ends)
        return [index for index, (status, start, length, end) in enumerate(columns) if status or start + length != end]

    def answer(self, index: int) -> RecordAnswer:
        """What `Grammar.lines` gives for the record with this index, which is parsed once more. Raises `IndexError` if
        there is no such record."""
        if not 0 <= index < len(self):
            raise IndexError(f"there is no record {index}")
        start, end = self.record_starts[index], self.record_ends[index]
        line = self._line + line_ends(self.data, self.record_starts[0], start)
        return self._answer(RecordText(self.data[start:end], self.first + index, line))

    def _for_nodes(self, values: memoryview) -> memoryview:
        """For each node, the value of its record."""
        counts = self.node_counts
        most = max(counts)
        if most != min(counts):
            return memoryview(array.array("I", chain.from_iterable(map(repeated, values, counts))))
        # Each record has the same number of nodes: its value is copied to the place of its first node, and so on.
        column = zeros(most * len(counts))
        for number in range(most):
            column[number::most] = values
        return column

    def _in_data(self, column: int) -> memoryview:
        """For each node, the offset in `data` for the offset in its record that a column has."""
        if self._begins is None:
            self._begins = self._for_nodes(self.record_starts)
        return memoryview(sums(self._columns.nodes.column(column).tobytes(), self._begins.tobytes()))

    def __repr__(self) -> str:
        return f"<RecordArrays of {len(self)} records, {len(self.rules)} nodes>"


def arrays_of(
    stream: Stream, end: bytes, is_crlf: bool, parse: ParseRecords, answer: AnswerRecord
) -> Iterator[RecordArrays]:
    """The records of a stream, as many at once as a read gives."""
    place = Place(1, 1)
    nodes_of_a_record = NODES_OF_A_RECORD
    for data in blocks_of(stream, end):
        left = table_of(data, end, is_crlf)
        wanted = 0
        while left:
            columns = parse(data, left, max(nodes_of_a_record * len(left), wanted))
            count, wanted = len(columns.records), columns.wanted
            if count == 0:
                continue
            yield RecordArrays(columns, place, answer)
            nodes_of_a_record = max(nodes_of_a_record, len(columns.nodes) // count + 1)
            begin = left.column(RecordTable.START)[0]
            left = left.part(count, len(left))
            after = left.column(RecordTable.START)[0] if left else len(data)
            place = Place(place.record + count, place.line + line_ends(data, begin, after))


def blocks_of(stream: Stream, end: bytes) -> Iterator[bytes]:
    """The bytes of a stream, cut after ends of records. Each block has whole records. The last one of the stream may
    lack its end.

    A record that is longer than the limit of a text by more than a block is shortened, and stays over the limit. So at
    most two blocks and one such record are in memory.
    """
    read = getattr(stream, "read1", stream.read)
    parts: List[bytes] = []
    held = 0
    while block := read(BLOCK):
        cut = block.rfind(end) + 1
        if cut:
            yield b"".join([*parts, block[:cut]])
            parts, held = [], 0
        if cut < len(block) and held < MAX_TEXT_BYTES + 2:
            parts.append(block[cut:])
            held += len(block) - cut
    if parts:
        yield b"".join(parts)


def table_of(data: bytes, end: bytes, is_crlf: bool) -> RecordTable:
    """The records of some bytes, as they are before they are parsed. With `is_crlf` a CR before the end isn't part of a
    record."""
    records = data.split(end)
    if not records[-1]:
        records.pop()
    count = len(records)
    # An end is after the bytes of the records so far, and after one byte that ends each of them but the last.
    lengths = array.array("I", accumulate(map(len, records)))
    ends = sums(lengths.tobytes(), array.array("I", range(count)).tobytes())
    starts = array.array("I", [0])
    starts += sums(ends[:-1].tobytes(), array.array("I", [1]).tobytes() * (count - 1))
    if is_crlf:
        ends = array.array("I", map(operator.sub, ends, map(bytes.endswith, records, repeat(b"\r"))))
    return RecordTable.of_spans(starts, ends)


def sums(first: bytes, second: bytes) -> Numbers:
    """The sums of two columns of words. Each column is added as one long number, since no sum has more than 32 bits."""
    total = int.from_bytes(first, sys.byteorder) + int.from_bytes(second, sys.byteorder)
    return array.array("I", total.to_bytes(len(first), sys.byteorder))
