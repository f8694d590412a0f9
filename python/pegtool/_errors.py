"""The errors of this package, and the texts that they show."""

from __future__ import annotations

import os
import re
from typing import Any, Dict, List, Optional, Tuple, Type, TypeVar

from ._caret import caret_lines
from ._text import Text

LINE_END = re.compile(b"\r\n|\r|\n")

Error = TypeVar("Error", bound="PegError")


def restored(kind: Type[Error], arguments: Tuple[Any, ...], members: Dict[str, Any]) -> Error:
    """An error that was pickled or is copied."""
    error = kind.__new__(kind, *arguments)
    error.args = arguments
    error.__dict__.update(members)
    return error


class PegError(Exception):
    """The base of all errors of this package. Errors can be pickled and copied, so a process may send them to
    another."""

    def __reduce__(self) -> Tuple[Any, ...]:
        return restored, (type(self), self.args, self.__dict__)


class GrammarError(PegError):
    """A grammar file is refused.

    `kind` names the cause as `pegtool check` does, for example "Syntax" or "LeftRecursion". `line`, `column` and
    `offset` are the place that the message shows, or `None` if it shows none. Line and column are from 1, the offset
    from 0. Column and offset count characters if the file was given as `str`, and bytes otherwise; `byte_offset` counts
    bytes. `message` says the cause. `refusal` is the whole report of pegtool, as a dict, whose offsets and columns
    count bytes. `str(error)` is the message of `pegtool explain`, which shows the line with a caret.
    """

    def __init__(self, refusal: Dict[str, Any], text: bytes, source: Text[Any], name: str) -> None:
        self.refusal = refusal
        self.kind: str = refusal["refusal"]
        self.path: List[str] = refusal.get("path", [])
        self.line: Optional[int] = None
        self.column: Optional[int] = None
        self.offset: Optional[int] = None
        self.byte_offset: Optional[int] = None
        # The text is ":LINE:COLUMN: SENTENCE" and two lines, or ": SENTENCE".
        place, _, rest = text.partition(b": ")
        self.message = rest.partition(b"\n")[0].decode("utf-8", "backslashreplace")
        if not place:
            super().__init__(f"{shown_name(name)}: {self.message}")
            return
        line, column = place[1:].split(b":")
        self.byte_offset = offset_at(source.data, int(line), int(column))
        self.offset = source.position(self.byte_offset)
        self.line, self.column = source.place(self.byte_offset)
        super().__init__(message_at(name, source, self.byte_offset, self.message))


class TextError(PegError):
    """An error at a position of a text: the base of `ParseError`, `NodeError` and `VisitError`.

    `message` says what is wrong. `position` is where, from 0; `line` and `column` are the same, both from 1. Position
    and column count characters if the text was given as `str`, and bytes otherwise; `byte_position` counts bytes.
    `str(error)` has the name of the text, line, column and message, and shows the line with a caret.
    """

    def __init__(self, message: str, text: Text[Any], byte_position: int, name: str) -> None:
        self.message = message
        self.byte_position = byte_position
        self.position = text.position(byte_position)
        self.line, self.column = text.place(byte_position)
        super().__init__(message_at(name, text, byte_position, message))


class ParseError(TextError):
    """A text isn't matched, or not all of it.

    Besides the attributes of `TextError`, `expected` lists what would have been accepted at the position, as it is
    written in the grammar. `found` is the word or character there in quotes, or "the end". `consumed` is the length of
    the part that matched, or `None` if none did, and `far` the furthest position where a terminal failed; both count as
    `position` does. `str(error)` is the message of `pegtool explain`, where columns of `str` texts count characters. It
    may name a rule in place of a class.
    """

    def __init__(
        self,
        message: str,
        text: Text[Any],
        byte_position: int,
        name: str,
        expected: List[str],
        consumed: Optional[int],
        far: int,
    ) -> None:
        super().__init__(message, text, byte_position, name)
        self.expected = expected
        self.consumed = consumed
        self.far = far
        self.found: str = message.rpartition(", found ")[2]


class NodeError(TextError):
    """An error that a program reports at a node: `raise node.error("the value is over 10")`.

    Besides the attributes of `TextError`, `rule` is the rule of the node.
    """

    def __init__(self, message: str, text: Text[Any], byte_position: int, name: str, rule: str) -> None:
        super().__init__(message, text, byte_position, name)
        self.rule = rule


class VisitError(NodeError):
    """A method of a visitor raised an exception, which is the cause of this error. The position is that of the node."""


class NoSuchRuleError(PegError, ValueError):
    """No rule has the name that was given."""


class StepLimitError(PegError):
    """A parse takes more steps than were allowed."""


class TextTooLongError(PegError, ValueError):
    """A text has more than 67,108,864 bytes."""


def offset_at(data: bytes, line: int, column: int) -> int:
    """The offset of a line and a column, both from 1, where columns count bytes."""
    start = 0
    for _ in range(line - 1):
        found = LINE_END.search(data, start)
        start = found.end() if found else len(data)
    return start + column - 1


def shown_name(name: str) -> str:
    """The name of a file, with escapes for what can't be printed."""
    return shown(os.fsencode(name))


def shown(data: bytes) -> str:
    """Bytes as text: what isn't UTF-8 or can't be printed is escaped."""
    text = data.decode("utf-8", "backslashreplace")
    return "".join(c if c.isprintable() else c.encode("unicode_escape").decode("ascii") for c in text)


def message_at(name: str, text: Text[Any], offset: int, sentence: str) -> str:
    """A message in the form of `pegtool explain`: the name of the text, the place, a sentence, the line and a caret."""
    line, column = text.place(offset)
    _, start = text.lines.at(offset)
    return f"{shown_name(name)}:{line}:{column}: {sentence}\n{caret_lines(text.data, start, offset)}"


def sentence_of(data: bytes, offset: int, expected: List[str]) -> str:
    """The sentence that says what is expected and what is found at an offset."""
    items = " or ".join(filter(None, [", ".join(expected[:-1]), *expected[-1:]]))
    return f"expected {items}, found {found_at(data, offset)}"


def found_at(data: bytes, offset: int) -> str:
    """The character at an offset in quotes, a byte that is none as an escape, or "the end"."""
    if offset >= len(data):
        return "the end"
    for length in range(1, 5):
        try:
            return f"'{shown(data[offset : offset + length].decode('utf-8').encode('utf-8'))}'"
        except UnicodeDecodeError:
            continue
    return f"'\\x{data[offset]:02X}'"
