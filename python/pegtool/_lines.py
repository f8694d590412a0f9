"""The lines of a text, which are found in constant time after one pass over the text."""

from __future__ import annotations

import array
from typing import Tuple

# Line ends are counted once for each block of this many bytes.
BLOCK = 1024


class Lines:
    """The lines of some bytes. LF, CR LF and CR end a line. An offset between CR and LF is in the line that they end."""

    __slots__ = ("data", "_numbers", "_starts")

    def __init__(self, data: bytes) -> None:
        self.data = data
        # For each block, the line where it begins, from 1, and the offset where that line starts.
        self._numbers = array.array("I", [1])
        self._starts = array.array("I", [0])
        for block in range(len(data) // BLOCK):
            number, start = self._at(block, (block + 1) * BLOCK)
            self._numbers.append(number)
            self._starts.append(start)

    def at(self, offset: int) -> Tuple[int, int]:
        """The line of an offset, from 1, and the offset where that line starts."""
        return self._at(offset // BLOCK, offset)

    def _at(self, block: int, offset: int) -> Tuple[int, int]:
        """The line of an offset in a block, or at its end, and the offset where that line starts."""
        data, first = self.data, block * BLOCK
        number = self._numbers[block] + line_ends(data, first, offset)
        # A CR before a LF ends no line.
        end = offset - 1 if data[max(offset - 1, 0) : offset + 1] == b"\r\n" else offset
        found = max(data.rfind(b"\n", first, end), data.rfind(b"\r", first, end))
        return number, self._starts[block] if found < 0 else found + 1


def line_ends(data: bytes, start: int, end: int) -> int:
    """The number of line ends in a part of some bytes; a CR counts unless a LF follows, in the part or after it."""
    feeds, returns = data.count(b"\n", start, end), data.count(b"\r", start, end)
    return feeds + returns - data.count(b"\r\n", start, end + 1) if returns else feeds
