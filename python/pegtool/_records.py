"""The records of streams, such as the lines of a log: how they are read, and what their parses give."""

from __future__ import annotations

from typing import Callable, Iterator, List, Literal, Protocol, Union

from ._errors import StepLimitError, TextTooLongError
from ._lines import line_ends
from ._match import Failure, Match
from ._text import RecordText

# The greatest number of bytes that are read from a stream at once.
BLOCK = 65_536

# The greatest number of bytes in a text.
MAX_TEXT_BYTES = 67_108_864


class Stream(Protocol):
    """What records are read from: a file that is open for bytes, a pipe or another object with this method."""

    def read(self, size: int, /) -> bytes:
        """At most `size` bytes, and none only at the end."""


class Refusal:
    """A record that has no answer, since it or its parse is over a limit. A refusal is false in conditions.

    `record` is the number of the record, and `line` the line of the stream where it begins, both from 1.
    """

    __slots__ = ("record", "line", "_cause")

    def __init__(self, text: RecordText, cause: Union[StepLimitError, TextTooLongError]) -> None:
        self.record = text.record
        self.line = text.line
        self._cause = cause

    def __bool__(self) -> Literal[False]:
        return False

    def error(self) -> Union[StepLimitError, TextTooLongError]:
        """The error that `Grammar.parse` raises for such a text."""
        return self._cause

    def __repr__(self) -> str:
        return f"<Refusal of record {self.record}: {self._cause}>"


# What the parse of a record gives.
RecordAnswer = Union[Match[bytes], Failure[bytes], Refusal]


def answers_of(
    texts: Iterator[RecordText], answer: Callable[[RecordText], Union[Match[bytes], Failure[bytes]]]
) -> Iterator[RecordAnswer]:
    """What the parses of records give."""
    for text in texts:
        yield answer_to(text, answer)


def answer_to(
    text: RecordText, answer: Callable[[RecordText], Union[Match[bytes], Failure[bytes]]]
) -> RecordAnswer:
    """What the parse of a record gives."""
    try:
        return answer(text)
    except (StepLimitError, TextTooLongError) as cause:
        return Refusal(text, cause)


def texts_of(stream: Stream, end: bytes, is_crlf: bool) -> Iterator[RecordText]:
    """The texts of the records of a stream. With `is_crlf` a CR before the end isn't part of a record."""
    line = 1
    for number, data in enumerate(records_of(stream, end), 1):
        yield RecordText(data[:-1] if is_crlf and data.endswith(b"\r") else data, number, line)
        ended = data + end
        line += line_ends(ended, 0, len(ended))


def records_of(stream: Stream, end: bytes) -> Iterator[bytes]:
    """The records of a stream, each without the byte that ends it. The last one may lack that byte, if it isn't empty.

    A record that is longer than two bytes over the limit of a text is cut there, so at most a block and one such record
    are in memory.
    """
    read = getattr(stream, "read1", stream.read)
    parts: List[bytes] = []
    held = 0
    while block := read(BLOCK):
        *whole, rest = block.split(end)
        if whole:
            yield joined(parts, whole[0])
            yield from whole[1:]
            parts, held = [], 0
        if rest and held < MAX_TEXT_BYTES + 2:
            parts.append(rest)
            held += len(rest)
    if parts:
        yield joined(parts, b"")


def joined(parts: List[bytes], last: bytes) -> bytes:
    """A record of which parts were read before, cut two bytes over the limit of a text."""
    return b"".join([*parts, last])[: MAX_TEXT_BYTES + 2] if parts else last
