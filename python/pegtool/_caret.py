"""The source line of a position, with a caret below, as `pegtool explain` shows it."""

import re
import unicodedata

# The part of a line that is shown: how many bytes before the position it begins, and its greatest length in bytes.
BYTES_BEFORE = 80
SHOWN_BYTES = 120

# It is the only format character that terminals show.
SOFT_HYPHEN = "\u00ad"

LINE_END = re.compile(b"[\r\n]")

ESCAPES = {"\n": "\\n", "\r": "\\r"}


def caret_lines(data: bytes, start: int, offset: int) -> str:
    """The line that starts at an offset, and a caret below another offset of that line. A long line is cut."""
    first = max(unsplit(data, max(offset - BYTES_BEFORE, 0)), start)
    line = LINE_END.split(data[first : first + SHOWN_BYTES + 1], maxsplit=1)[0]
    before = shown_line(line[: offset - first])
    after = shown_line(line[offset - first : unsplit(line, SHOWN_BYTES)])
    return f"{before}{after}\n{blanks_below(before)}^"


def unsplit(data: bytes, offset: int) -> int:
    """An offset, or up to three bytes before it, where no character is split."""
    for _ in range(3):
        if 0x80 <= (data[offset] if offset < len(data) else 0) < 0xC0:
            offset = max(offset - 1, 0)
    return offset


def shown_line(part: bytes) -> str:
    """A part of a line, where bytes that are no character and control characters are escapes; a tab stays a tab."""
    return "".join(map(shown_character, part.decode("utf-8", "surrogateescape")))


def shown_character(character: str) -> str:
    """A character of a line. What isn't UTF-8 is decoded as a surrogate, whose lower half is the byte."""
    code = ord(character)
    if 0xDC80 <= code <= 0xDCFF:
        return f"\\x{code - 0xDC00:02X}"
    if character == "\t" or 0x20 <= code < 0x7F or code >= 0x80:
        return character
    return ESCAPES.get(character, f"\\x{code:02X}")


def blanks_below(before: str) -> str:
    """Blanks as wide as what is shown before a caret. A tab stays a tab."""
    return "".join("\t" if character == "\t" else " " * width(character) for character in before)


def width(character: str) -> int:
    """The number of columns of a terminal that a character takes."""
    if unicodedata.category(character) in ("Mn", "Me", "Cf") and character != SOFT_HYPHEN:
        return 0
    return 2 if unicodedata.east_asian_width(character) in ("W", "F") else 1
