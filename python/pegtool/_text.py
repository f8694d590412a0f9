"""Texts: what was given, its bytes, and the positions in both."""

from __future__ import annotations

import array
import bisect
import itertools
import mmap
from typing import TYPE_CHECKING, Any, Generic, Optional, Tuple, TypeVar, Union, cast, overload

from ._lines import Lines

# What a text is made of: the type of what was given, where buffers count as bytes.
AnyText = TypeVar("AnyText", str, bytes)

# A text in bytes. Buffers other than `bytes` may change, so they are copied.
if TYPE_CHECKING:
    Buffer = Union[bytes, bytearray, memoryview, mmap.mmap, array.array[int]]
else:  # Arrays have a type parameter from Python 3.12 on.
    Buffer = Union[bytes, bytearray, memoryview, mmap.mmap, array.array]

# Characters are counted once for each block of this many bytes.
BLOCK = 256

# The bytes of UTF-8 that begin no character.
CONTINUATIONS = bytes(range(0x80, 0xC0))


class Text(Generic[AnyText]):
    """A text that may be parsed several times, at several positions.

    >>> import pegtool
    >>> text = pegtool.Text("größe zählt")
    >>> word = pegtool.Grammar("Word <- (!' ' .)+")
    >>> word.match(text, pos=6).text
    'zählt'

    `given` is `str`, `bytes` or another buffer. `str` is encoded as UTF-8 once, here; a buffer is copied. Positions
    count characters if `given` is `str`, and bytes otherwise. A character belongs to the position where its first byte
    is.

    Raises `TypeError` if `given` is of another type.
    """

    __slots__ = ("given", "data", "_is_in_bytes", "_counts", "_lines")

    # The number of the record that the text is, from 1, if it is a record of a stream.
    record: Optional[int] = None
    # The line where the text begins: of a record in its stream, otherwise 1.
    line: int = 1

    @overload
    def __init__(self: Text[str], given: str) -> None: ...

    @overload
    def __init__(self: Text[bytes], given: Buffer) -> None: ...

    def __init__(self, given: Any) -> None:
        # The text as bytes.
        self.data: bytes = as_bytes(given)
        # The text as it was given; a buffer as bytes.
        self.given: AnyText = cast(AnyText, given if isinstance(given, str) else self.data)
        # Whether positions are offsets: each character has one byte, or the text isn't `str`.
        self._is_in_bytes = len(self.given) == len(self.data)
        self._counts: Optional[array.array[int]] = None
        self._lines: Optional[Lines] = None

    def __len__(self) -> int:
        """The number of characters, or of bytes if the text isn't `str`."""
        return len(self.given)

    def position(self, offset: int) -> int:
        """The position of a byte. Takes constant time, but the first use takes time linear in a text that isn't
        ASCII."""
        if self._is_in_bytes:
            return offset
        block = offset // BLOCK
        return self._characters_before()[block] + characters_in(self.data, block * BLOCK, offset)

    def offset(self, position: int) -> int:
        """The offset in bytes of a position. Raises `ValueError` if the text has no such position."""
        if not 0 <= position <= len(self.given):
            raise ValueError(f"the text has no position {position}")
        if self._is_in_bytes:
            return position
        counts = self._characters_before()
        block = bisect.bisect_right(counts, position) - 1
        first = min(block * BLOCK, len(self.data))
        while self.data[first : first + 1] and self.data[first] in CONTINUATIONS:
            first += 1
        return first + len(as_bytes(self.given[counts[block] : position]))

    def line_column(self, position: int) -> Tuple[int, int]:
        """The line and the column of a position, both from 1. LF, CR LF and CR end lines.

        Takes constant time, but the first use takes time linear in the text. Raises `ValueError` if the text has no such
        position.
        """
        return self.place(self.offset(position))

    def place(self, offset: int) -> Tuple[int, int]:
        """The line and the column of an offset in bytes, both from 1."""
        line, start = self.lines.at(offset)
        return self.line - 1 + line, self.position(offset) - self.position(start) + 1

    @property
    def lines(self) -> Lines:
        """The lines of the text, with offsets in bytes. The first use takes time linear in the text."""
        if self._lines is None:
            self._lines = Lines(self.data)
        return self._lines

    def part(self, start: int, end: int) -> AnyText:
        """The part of the text between two offsets in bytes."""
        if self._is_in_bytes:
            return self.given[start:end]
        return self.given[self.position(start) : self.position(end)]

    def _characters_before(self) -> array.array[int]:
        """For each block of bytes, the number of characters that begin before it."""
        if self._counts is None:
            blocks = range(0, len(self.data), BLOCK)
            counts = (characters_in(self.data, first, first + BLOCK) for first in blocks)
            self._counts = array.array("I", itertools.accumulate(counts, initial=0))
        return self._counts

    def __reduce__(self) -> Tuple[Any, ...]:
        return Text, (self.given,)

    def __copy__(self) -> Text[AnyText]:
        return self

    def __deepcopy__(self, memo: Any) -> Text[AnyText]:
        return self

    def __repr__(self) -> str:
        return f"<Text of {len(self.data)} bytes>"


class RecordText(Text[bytes]):
    """The text of a record of a stream. Its lines are counted from the beginning of the stream."""

    __slots__ = ("record", "line")

    def __init__(self, given: bytes, record: int, line: int) -> None:
        super().__init__(given)
        self.record = record
        self.line = line

    def __reduce__(self) -> Tuple[Any, ...]:
        return RecordText, (self.given, self.record, self.line)


def text_of(given: Any) -> Text[Any]:
    """What was given, as a text."""
    return given if isinstance(given, Text) else Text(given)


def as_bytes(given: Any) -> bytes:
    """A text as bytes; `str` is encoded as UTF-8. Raises `TypeError` for what isn't `str`, `bytes` or a buffer."""
    if isinstance(given, str):
        return given.encode("utf-8")
    try:
        return given if type(given) is bytes else bytes(memoryview(given))
    except TypeError:
        raise TypeError(f"a text is str, bytes or a buffer, and not {type(given).__name__}") from None


def characters_in(data: bytes, start: int, end: int) -> int:
    """The number of characters that begin in a part of UTF-8."""
    return len(data[start:end].translate(None, CONTINUATIONS))
