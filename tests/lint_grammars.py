"""Random grammar files in which each kind of warning of `pegtool lint` occurs. Most terminals are over the letters a, b
and c, so that random texts of these letters often match. Others have what the kinds about bytes look for."""
from __future__ import annotations

import random

NAMES = "STUV"
LEVELS = 2  # of parentheses
SPACES = ["", "", "  ", "\n  ", "\r\n ", "\r", "\t", "# [^.] 'x\n", "#.\r\n"]
WORDS = ["", "a", "a", "a", "b", "b", "c", "c", "ab", "bc", "ca"]
# What a literal or a class may have beside letters. A character over 127 stands for one byte of the file.
ODD_IN_LITERALS = ["\n", "\r", "\r\n", "\xc3\xa9", "[^a]", " a ", "z-a", "//", ".", "#", r"\n", r"\x62", r"\'", r"\141"]
ODD_IN_CLASSES = ["\n", "\r\n", "\xc3\xa9", "\xff", "^", " ", "'", "/", r"\n", r"\]", r"\x62", "a-]", "+-]", "--]",
                  r"+-\]", r"c-\x61", r"\141-c", r"\x63-\142", "\x80-\xff", "\xe9-a", "a-c-", "A-c", "0-b",
                  "+-.", "!-/", r"\53-."]
OPERATORS = ["?", "?", "*", "+", "{2}", "{0,2}", "{0,1}", "{1,2}"]


class Writer:
    """Writes a random grammar file of one to four rules."""

    def __init__(self, chance: random.Random) -> None:
        self.chance = chance
        self.names = NAMES[: chance.choice([1, 2, 3, 3, 3, 4])]
        self.rule = 0

    def one_in(self, count: int) -> bool:
        return self.chance.randrange(count) == 0

    def space(self) -> str:
        return self.chance.choice(SPACES) if self.one_in(5) else " "

    def literal(self) -> str:
        quote = self.chance.choice("''''\"")
        odd = self.chance.choice(ODD_IN_LITERALS) if self.one_in(10) else ""
        return f"{quote}{self.chance.choice(WORDS)}{odd}{quote}"

    def range(self) -> str:
        return f"{self.chance.choice('abc')}-{self.chance.choice('abc')}"

    def char_class(self) -> str:
        """A class of letters and ranges, or one that begins, ends or goes on like a class of another notation."""
        count = self.chance.choice([1, 1, 2])
        members = [self.range() if self.one_in(2) else self.chance.choice("abc") for _ in range(count)]
        if self.one_in(4):
            members.insert(self.chance.randint(0, len(members)), self.chance.choice(ODD_IN_CLASSES))
        if self.one_in(14):
            members.insert(0, self.chance.choice(["^", "^", "-", " "]))
        text = "".join(members)
        return f"[ {text} ]" if self.one_in(20) else f"[{text}]"

    def terminal(self) -> str:
        kind = self.chance.randrange(20)
        if kind < 11:
            return self.literal()
        if kind < 17:
            return self.char_class()
        return self.chance.choice([".", ".", ".", ".", "[]", "()"])

    def primary(self, levels: int) -> str:
        """A primary. A name is mostly of a later rule, since a call of an earlier one may be a left cycle."""
        kind = self.chance.randrange(20)
        if kind == 0:
            return self.chance.choice(self.names)
        if kind < 7 and self.names[self.rule + 1 :]:
            return self.chance.choice(self.names[self.rule + 1 :])
        if kind < 9 and levels:
            return f"({self.space()}{self.choice(levels - 1)})"
        return self.terminal()

    def item(self, levels: int) -> str:
        prefix = self.chance.choice("&!") if self.one_in(7) else ""
        suffix = self.chance.choice(OPERATORS) if self.one_in(5) else ""
        return prefix + self.primary(levels) + suffix

    def sequence(self, levels: int) -> str:
        """A sequence, sometimes empty, and sometimes with a star that takes what comes after it. A name at its end has a
        space, which keeps it apart from the name of the next rule."""
        items = [self.item(levels) for _ in range(self.chance.choice([1, 1, 1, 2, 2, 2, 3]))]
        if self.one_in(25):
            items = []
        elif self.one_in(25):
            taken = self.terminal()
            items = [f"{taken}*", taken, *items[1:]]
        return "".join(f"{item}{self.space() or ' '}" for item in items)

    def choice(self, levels: int) -> str:
        """A choice, sometimes with an alternative that is written twice."""
        alternatives = [self.sequence(levels) for _ in range(self.chance.choice([1, 1, 2, 2, 3]))]
        if self.one_in(15):
            alternatives.append(alternatives[0])
        return f"/{self.space()}".join(alternatives)

    def definition(self, name: str) -> str:
        dot = f".{self.space()}" if self.one_in(9) else ""
        body = self.choice(LEVELS)
        return f"{name}{self.space()}<-{self.space()}{f'({body}{dot})' if self.one_in(12) else body + dot}\n"

    def file(self) -> bytes:
        start = self.space() if self.one_in(8) else ""
        rules = []
        for self.rule, name in enumerate(self.names):
            rules.append(self.definition(name))
        return (start + "".join(rules)).encode("latin-1")


def random_grammar(chance: random.Random) -> bytes:
    """A random grammar file, which the tool may refuse."""
    return Writer(chance).file()
