"""The warnings of `pegtool lint`, found by docs/LINT.md and independent of the tool: from Ford's abstract outcomes
("Parsing Expression Grammars", POPL 2004, section 3.5) and from the bytes of the grammar file. `lint.py` compares them
with the warnings that the program prints.

All warnings are found but those of the kinds in `MAY_BE_MISSED`: LINT.md lists what the tool misses of these."""
from __future__ import annotations

import dataclasses
import functools
import re

from reference import FAILS, NOTHING, SPACING, Expr, Grammar, Reader, expressions, place

# The kinds in the order of the two tables of LINT.md.
PROVED = ("UnusedRule", "NeverMatches", "NeverTried", "AlwaysFails", "NoEffect", "SameAlternative", "Shadowed",
          "NeverStops", "NeverFollows", "TakesNothing", "ReversedRange")
HABITS = ("EmptyAlternative", "AnyAtEnd", "ClassBeginsWithCaret", "ClassEndsInRange", "RangeOverSigns", "HoldsLineEnd",
          "HighBytesInClass", "BlanksInClass", "RepeatedByte")
KINDS = PROVED + HABITS
MAY_BE_MISSED = frozenset({"SameAlternative", "Shadowed", "NeverStops"})
PREDICATES = ("and", "not")
ROUNDS = 16  # rules that names are followed through
MOST_DEPTH = 100  # of expressions in a grammar with warnings about what follows
NO_BYTES: frozenset[int] = frozenset()
ALL_BYTES = frozenset(range(256))


@dataclasses.dataclass(frozen=True)
class Part:
    """A part of a rule that has a warning, and the span of the earlier part that is the cause."""

    kind: str
    start: int
    end: int
    by: tuple[int, int] | None = None


def part_of(kind: str, expr: Expr, by: Expr | None = None) -> Part:
    """The warning of a kind about an expression."""
    return Part(kind, expr.start, expr.end, (by.start, by.end) if by else None)


@dataclasses.dataclass(frozen=True)
class Edges:
    """An estimate of an expression. What it may do: match the empty string, match a byte or more, fail. The bytes that
    it may begin with, or None for any. Bytes before which it doesn't fail, and bytes that aren't next where it ends."""

    empty: bool
    consumes: bool
    fails: bool
    begins: frozenset[int] | None
    takes: frozenset[int]
    stops: frozenset[int]


UNKNOWN = Edges(True, True, True, None, NO_BYTES, NO_BYTES)
EMPTY = Edges(True, False, False, NO_BYTES, ALL_BYTES, NO_BYTES)
DOT = Edges(False, True, True, None, ALL_BYTES, NO_BYTES)


def either(one: frozenset[int] | None, other: frozenset[int] | None) -> frozenset[int] | None:
    """The bytes of both, where None is any."""
    return None if one is None or other is None else one | other


def in_sequence(first: Edges, rest: Edges) -> Edges:
    """The estimate of two expressions one after the other."""
    return Edges(first.empty and rest.empty, first.consumes or rest.consumes, first.fails or rest.fails,
                 either(first.begins, rest.begins) if first.empty else first.begins,
                 NO_BYTES if rest.fails else first.takes,
                 rest.stops if rest.consumes else rest.stops | first.stops)


def in_choice(first: Edges, rest: Edges) -> Edges:
    """The estimate of a choice of two expressions."""
    return Edges(first.empty or rest.empty, first.consumes or rest.consumes, first.fails and rest.fails,
                 either(first.begins, rest.begins), first.takes | rest.takes, NO_BYTES)


def of_operator(expr: Expr, part: Edges) -> Edges:
    """The estimate of an operator."""
    change = functools.partial(dataclasses.replace, part)
    match expr.kind:
        case "optional":
            return change(empty=True, fails=False, takes=ALL_BYTES, stops=NO_BYTES)
        case "star":
            return change(empty=True, fails=False, takes=ALL_BYTES, stops=part.takes)
        case "plus":
            return change(stops=part.takes)
        case "and":
            return change(empty=True, consumes=False, begins=NO_BYTES, stops=NO_BYTES)
        case "not":
            return Edges(part.fails, False, True, NO_BYTES, NO_BYTES, part.takes)
    return change(empty=part.empty or expr.value[0] == 0, takes=NO_BYTES, stops=NO_BYTES)


def estimate(expr: Expr, rules: dict[str, Edges]) -> Edges:
    """The estimate of an expression, from those of the rules' expressions."""
    parts = [estimate(part, rules) for part in expr.parts]
    match expr.kind:
        case "literal" if not expr.value:
            return EMPTY
        case "literal":
            first = frozenset(expr.value[:1])
            return Edges(False, True, True, first, first if len(expr.value) == 1 else NO_BYTES, NO_BYTES)
        case "class":
            return Edges(False, True, True, frozenset(expr.value), frozenset(expr.value), NO_BYTES)
        case "any":
            return DOT
        case "name":
            return rules[expr.value]
        case "sequence":
            return functools.reduce(lambda rest, first: in_sequence(first, rest), reversed(parts), EMPTY)
        case "choice":
            return functools.reduce(in_choice, parts)
    return of_operator(expr, parts[0])


def depth_of(expr: Expr) -> int:
    """How many expressions there are one in another, with this one."""
    return 1 + max(map(depth_of, expr.parts), default=0)


class Finder:
    """Finds the warnings about a grammar file that the tool accepts. Raises Refused if there is no grammar in it."""

    def __init__(self, file: bytes, start: str | None = None) -> None:
        self.file = file
        self.reader = Reader(file)
        self.definitions = self.reader.grammar()
        self.grammar = Grammar(file)
        self.outcomes = functools.lru_cache(None)(self.grammar.outcomes_of)
        self.reached = self.reached_from(start or self.definitions[0][0].value)
        self.edges = self.estimates()

    def warnings(self) -> list[dict[str, object]]:
        """The warnings with the members that `pegtool lint` prints, in its order."""
        found = [self.members(name.value, part)
                 for number, (name, _) in enumerate(self.definitions) for part in self.parts(number)]
        return sorted(found, key=written_order)

    def members(self, rule: str, part: Part) -> dict[str, object]:
        """The members of a warning."""
        members = {"kind": part.kind, "rule": rule, "start": part.start, "end": part.end,
                   "proved": part.kind in PROVED, **place(self.file, part.start)}
        return {**members, "by": list(part.by)} if part.by else members

    def parts(self, number: int):
        """The parts of a rule that have warnings."""
        name, body = self.definitions[number]
        if name.value not in self.reached:
            yield Part("UnusedRule", name.start, name.end)
        yield from self.never_matching(body)
        yield from self.dot_at_end(number)
        for expr in expressions(body):
            if expr.kind == "choice":
                yield from self.never_tried(expr)
                yield from empty_alternatives(expr)
            elif expr.kind in ("literal", "class"):
                yield from self.in_text(expr)
            elif expr.kind == "sequence":
                yield from self.after_another(expr)
            else:
                yield from self.operator(expr)

    def reached_from(self, start: str) -> set[str]:
        """The rules that a path of names leads to from a rule, also by names in predicates."""
        found: set[str] = set()
        left = [start]
        while left:
            rule = left.pop()
            if rule not in found:
                found.add(rule)
                left += [expr.value for expr in expressions(self.grammar.rules[rule]) if expr.kind == "name"]
        return found

    def never_matching(self, body: Expr):
        """NeverMatches: an alternative, an item or the expression of a rule, but no class and no predicate."""
        lists = [expr.parts for expr in expressions(body) if expr.kind in ("choice", "sequence")]
        for expr in [body, *(part for parts in lists for part in parts)]:
            if expr.kind not in ("class", *PREDICATES) and self.outcomes(expr) == {FAILS}:
                yield part_of("NeverMatches", expr)

    def never_tried(self, choice: Expr):
        """NeverTried: the alternatives after the first one that never fails."""
        certain = None
        for part in choice.parts:
            if certain:
                yield part_of("NeverTried", part, certain)
            elif FAILS not in self.outcomes(part):
                certain = part

    def operator(self, expr: Expr):
        """AlwaysFails and NoEffect."""
        if expr.kind in PREDICATES and self.outcomes(expr) == {FAILS}:
            yield part_of("AlwaysFails", expr)
        elif expr.kind in ("star", *PREDICATES) and self.outcomes(expr) == {NOTHING}:
            yield part_of("NoEffect", expr)
        elif expr.kind == "optional":
            # LINT.md excepts a part that can match the empty string or fail, and nothing else, as in `(!'a')?`.
            part = self.outcomes(expr.parts[0])
            if FAILS not in part or part == {FAILS}:
                yield part_of("NoEffect", expr)

    def estimates(self) -> dict[str, Edges] | None:
        """The estimate of each rule's expression, or None if the expressions nest too deep."""
        if any(depth_of(body) > MOST_DEPTH for _, body in self.definitions):
            return None
        rules = {name.value: UNKNOWN for name, _ in self.definitions}
        for _ in range(ROUNDS):
            rules = {name.value: estimate(body, rules) for name, body in self.definitions}
        return rules

    def after_another(self, sequence: Expr):
        """NeverFollows and TakesNothing: an item that may only begin with bytes that can't follow the one before it."""
        for before, item in zip(sequence.parts, sequence.parts[1:]) if self.edges else ():
            one, other = estimate(before, self.edges), estimate(item, self.edges)
            if (one.empty or one.consumes) and other.begins and other.begins <= one.stops:
                if other.empty:
                    yield part_of("TakesNothing", item, before)
                elif before.kind not in ("star", "plus"):
                    yield part_of("NeverFollows", item, before)

    def in_text(self, expr: Expr):
        """The kinds that depend on the bytes of a literal or a class."""
        text = self.file[expr.start : expr.end]
        if b"\n" in text or b"\r" in text:
            yield part_of("HoldsLineEnd", expr)
        if expr.kind == "literal":
            return
        if text.startswith(b"[^"):
            yield part_of("ClassBeginsWithCaret", expr)
        if max(text) > 127:
            yield part_of("HighBytesInClass", expr)
        if re.fullmatch(rb"\[ .+ \]", text, re.S):
            yield part_of("BlanksInClass", expr)
        seen: set[int] = set()
        for start, end, first, last in self.ranges(expr):
            if seen.intersection(range(first, last + 1)):
                yield Part("RepeatedByte", start, end)
            seen.update(range(first, last + 1))
            if first > last:
                yield Part("ReversedRange", start, end)
            if self.file[start:end].endswith(b"-]"):
                yield Part("ClassEndsInRange", start, end)
            if re.fullmatch(rb"[0-9]-[A-Za-z]|[A-Z]-[a-z]|[\x22-,]-[./]", self.file[start:end]):
                yield Part("RangeOverSigns", start, end)

    def ranges(self, expr: Expr):
        """The span, the first and the last byte of each range of a class. A range is tried before a single byte."""
        at = expr.start + 1
        while at < expr.end - 1:
            start = at
            first, at = self.reader.char(start)
            last = first
            if self.file[at : at + 1] == b"-":
                last, at = self.reader.char(at + 1)
            yield start, at, first, last

    def last_dot(self, number: int) -> Expr | None:
        """The last item of a rule before another one, if it is a dot after an item other than a predicate or a dot."""
        body = self.definitions[number][1]
        last = body.parts[-1] if body.kind == "choice" else body
        if number + 1 == len(self.definitions) or last.kind != "sequence" or len(last.parts) < 2:
            return None
        before, dot = last.parts[-2:]
        return dot if dot.kind == "any" and before.kind not in ("any", *PREDICATES) else None

    def dot_at_end(self, number: int):
        """AnyAtEnd: such a dot with nothing but spacing up to the name of the next rule."""
        dot = self.last_dot(number)
        if dot and SPACING.fullmatch(self.file, dot.end, self.definitions[number + 1][0].start):
            yield part_of("AnyAtEnd", dot)


def empty_alternatives(choice: Expr):
    """EmptyAlternative: the alternatives but the last with nothing written in them."""
    for part in choice.parts[:-1]:
        if part.kind == "sequence" and not part.parts:
            yield part_of("EmptyAlternative", part)


def written_order(warning: dict[str, object]) -> tuple[object, int, object]:
    """What the order of warnings goes by."""
    return warning["start"], KINDS.index(warning["kind"]), warning["end"]
