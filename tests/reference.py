"""Parsing expression grammars as Ford defines them, independent of the tool and slow: the notation ("Parsing Expression
Grammars", POPL 2004, figure 1, with hexadecimal escapes and counts), the relation of section 3.3 with the furthest
failure, the abstract outcomes of section 3.5, and the lines that `pegtool` must print for them. `fuzz.py` compares
these lines with those of the program."""
from __future__ import annotations

import dataclasses
import json
import re

MAX_OPEN = 200  # parentheses
MAX_COUNT = 255
MAX_LEVELS = 60  # of a tree that is printed as nested objects
SIMPLE_ESCAPES = {b"n": 10, b"r": 13, b"t": 9, b"'": 39, b'"': 34, b"[": 91, b"]": 93, b"\\": 92}
# Rule Char of figure 1, and the escape of two hexadecimal digits. Its alternatives are tried in order.
CHAR = re.compile(rb"\\([nrt'\"\[\]\\])|\\x([0-9a-fA-F]{2})|\\([0-2][0-7][0-7])|\\([0-7][0-7]?)|([^\\])", re.S)
SPACING = re.compile(rb"(?:[ \t\r\n]|#[^\r\n]*[\r\n])*")
NAME = re.compile(rb"[a-zA-Z_][a-zA-Z_0-9]*")
COUNT = re.compile(rb"\{([0-9]+)(?:,([0-9]+))?\}")
SIGNS = rb"/&!?*+().".decode()


class Refused(Exception):
    """A refused grammar file, with the members of the line that says why."""

    def __init__(self, **members: object) -> None:
        super().__init__(members)
        self.members = members


@dataclasses.dataclass(frozen=True)
class Token:
    """A token: its kind, its bytes in the file, and its value. A name, literal, class or count has one; of a sign the
    kind is the sign."""

    kind: str
    start: int
    end: int
    value: object = None


@dataclasses.dataclass(eq=False)
class Expr:
    """An expression. Its value is the bytes of a literal, the set of a class, the name that is called, or the least and
    the greatest number of iterations of a count."""

    kind: str
    start: int
    end: int
    parts: list[Expr]
    value: object = None


@dataclasses.dataclass(frozen=True)
class Node:
    """A node of a parse tree."""

    rule: str
    start: int
    end: int
    children: tuple[Node, ...]


@dataclasses.dataclass
class Answer:
    """The outcome of a parse: the root of the tree, if there was a match, and the furthest failure."""

    root: Node | None
    far: int
    expected: list[tuple[int, int]]


def place(file: bytes, at: int) -> dict[str, int]:
    """The line and the column of an offset, both from 1. CR LF, LF and CR end lines."""
    ends = [found.end() for found in re.finditer(rb"\r\n|\r|\n", file) if found.end() <= at]
    return {"column": at - (ends[-1] if ends else 0) + 1, "line": len(ends) + 1}


class Reader:
    """Reads a grammar file: tokens first, then one function for each rule of figure 1."""

    def __init__(self, file: bytes) -> None:
        self.file = file
        self.tokens = list(self.read_tokens())
        self.at = 0
        self.open = 0

    def fault(self, refusal: str, at: int) -> Refused:
        return Refused(at=at, refusal=refusal, **place(self.file, at))

    def char(self, at: int) -> tuple[int, int] | None:
        """The byte of rule Char at an offset, and where it ends."""
        found = CHAR.match(self.file, at)
        if not found:
            return None
        simple, digits, long, short, plain = found.groups()
        if simple:
            return SIMPLE_ESCAPES[simple], found.end()
        if digits:
            return int(digits, 16), found.end()
        if long or short:
            return int(long or short, 8), found.end()
        return plain[0], found.end()

    def literal(self, start: int) -> Token | None:
        """The literal that starts at an offset."""
        quote, at, value = self.file[start], start + 1, []
        while at < len(self.file) and self.file[at] != quote:
            found = self.char(at)
            if not found:
                return None
            value.append(found[0])
            at = found[1]
        return Token("literal", start, at + 1, bytes(value)) if at < len(self.file) else None

    def char_class(self, start: int) -> Token | None:
        """The class that starts at an offset. A range is tried before a single byte."""
        at, value = start + 1, set()
        while at < len(self.file) and self.file[at] != ord("]"):
            first = self.char(at)
            if not first:
                return None
            last = self.char(first[1] + 1) if self.file[first[1] : first[1] + 1] == b"-" else None
            value.update(range(first[0], (last or first)[0] + 1))
            at = (last or first)[1]
        return Token("class", start, at + 1, frozenset(value)) if at < len(self.file) else None

    def token(self, at: int) -> Token | None:
        """The token that starts at an offset."""
        if found := NAME.match(self.file, at):
            return Token("name", at, found.end(), found[0].decode())
        if found := COUNT.match(self.file, at):
            least = int(found[1])
            return Token("count", at, found.end(), (least, int(found[2]) if found[2] else least))
        sign = chr(self.file[at])
        if self.file.startswith(b"<-", at):
            return Token("<-", at, at + 2)
        if sign in "'\"":
            return self.literal(at)
        if sign == "[":
            return self.char_class(at)
        return Token(sign, at, at + 1) if sign in SIGNS else None

    def read_tokens(self):
        """The tokens of the file, and one for its end."""
        at = SPACING.match(self.file).end()
        while at < len(self.file):
            token = self.token(at)
            if not token:
                raise self.fault("Syntax", at)
            yield token
            at = SPACING.match(self.file, token.end).end()
        yield Token("end", at, at)

    def next(self) -> Token:
        return self.tokens[self.at]

    def take(self, kind: str) -> Token:
        """Takes the next token, which has to be of a kind."""
        token = self.next()
        if token.kind != kind:
            raise self.fault("Syntax", token.start)
        self.at += 1
        return token

    def is_definition(self) -> bool:
        """Whether a definition starts here: a name with an arrow, outside parentheses."""
        return not self.open and self.next().kind == "name" and self.tokens[self.at + 1].kind == "<-"

    def grammar(self) -> list[tuple[Token, Expr]]:
        """Grammar <- Spacing Definition+ EndOfFile"""
        definitions = [self.definition()]
        while self.next().kind != "end":
            definitions.append(self.definition())
        return definitions

    def definition(self) -> tuple[Token, Expr]:
        """Definition <- Identifier LEFTARROW Expression"""
        name = self.take("name")
        self.take("<-")
        return name, self.expression()

    def expr_since(self, first: int, kind: str, parts: list[Expr]) -> Expr:
        """An expression of the tokens since one of them, parentheses included. Without any it is empty, at the end of
        the token before."""
        end = self.tokens[self.at - 1].end
        return Expr(kind, self.tokens[first].start if first < self.at else end, end, parts)

    def expression(self) -> Expr:
        """Expression <- Sequence (SLASH Sequence)*"""
        first = self.at
        parts = [self.sequence()]
        while self.next().kind == "/":
            self.at += 1
            parts.append(self.sequence())
        return parts[0] if len(parts) == 1 else self.expr_since(first, "choice", parts)

    def sequence(self) -> Expr:
        """Sequence <- Prefix*"""
        first = self.at
        parts = []
        while self.next().kind in ("&", "!", "name", "(", "literal", "class", ".") and not self.is_definition():
            parts.append(self.prefix())
        return parts[0] if len(parts) == 1 else self.expr_since(first, "sequence", parts)

    def prefix(self) -> Expr:
        """Prefix <- (AND / NOT)? Suffix"""
        first = self.at
        if self.next().kind not in ("&", "!"):
            return self.suffix()
        sign = self.take(self.next().kind)
        return self.expr_since(first, "and" if sign.kind == "&" else "not", [self.suffix()])

    def suffix(self) -> Expr:
        """Suffix <- Primary (QUESTION / STAR / PLUS / COUNT)?"""
        start = self.next().start
        part = self.primary()
        sign = self.next()
        kinds = {"?": "optional", "*": "star", "+": "plus", "count": "count"}
        if sign.kind not in kinds:
            return part
        if sign.kind == "count" and not (sign.value[0] <= sign.value[1] and 1 <= sign.value[1] <= MAX_COUNT):
            raise self.fault("BadCount", sign.start)
        self.at += 1
        return Expr(kinds[sign.kind], start, sign.end, [part], sign.value)

    def primary(self) -> Expr:
        """Primary <- Identifier !LEFTARROW / OPEN Expression CLOSE / Literal / Class / DOT"""
        token = self.next()
        if token.kind == "(":
            if self.open == MAX_OPEN:
                raise self.fault("TooNested", token.start)
            self.at += 1
            self.open += 1
            part = self.expression()
            self.take(")")
            self.open -= 1
            return part
        if token.kind not in ("name", "literal", "class", "."):
            raise self.fault("Syntax", token.start)
        self.at += 1
        if token.kind == "name" and self.next().kind == "<-":
            raise self.fault("Syntax", self.next().start)
        return Expr("any" if token.kind == "." else token.kind, token.start, token.end, [], token.value)


def expressions(expr: Expr):
    """An expression and its parts, in written order."""
    yield expr
    for part in expr.parts:
        yield from expressions(part)


NOTHING, SOMETHING, FAILS = "nothing", "something", "fails"
Outcomes = frozenset  # of NOTHING, SOMETHING and FAILS


def in_order(first: Outcomes, rest: Outcomes) -> Outcomes:
    """The outcomes of a sequence of two expressions (section 3.5)."""
    found = {FAILS} & first
    if NOTHING in first:
        found |= rest
    if SOMETHING in first:
        found |= {SOMETHING} if rest & {NOTHING, SOMETHING} else set()
        found |= {FAILS} & rest
    return frozenset(found)


def by_turns(first: Outcomes, rest: Outcomes) -> Outcomes:
    """The outcomes of a choice of two expressions."""
    return (first - {FAILS}) | (rest if FAILS in first else frozenset())


def negated(part: Outcomes) -> Outcomes:
    """The outcomes of a not-predicate."""
    return frozenset({NOTHING} if FAILS in part else ()) | frozenset({FAILS} if part - {FAILS} else ())


def repeated(part: Outcomes) -> Outcomes:
    """The outcomes of a star."""
    return frozenset({NOTHING} if FAILS in part else ()) | ({SOMETHING} & part)


EMPTY = frozenset({NOTHING})


class Grammar:
    """The grammar of a file, with the abstract outcomes of its rules. Raises Refused if the file has no grammar."""

    def __init__(self, file: bytes) -> None:
        self.file = file
        self.rules: dict[str, Expr] = {}
        self.names: list[str] = []
        definitions = Reader(file).grammar()
        for name, body in definitions:
            if name.value in self.rules:
                raise self.named("Duplicate", name)
            self.rules[name.value] = body
            self.names.append(name.value)
        for expr in self.expressions():
            if expr.kind == "name" and expr.value not in self.rules:
                raise self.named("Undefined", expr)
        self.outcomes: dict[str, Outcomes] = {name: frozenset() for name in self.rules}
        self.close_outcomes()

    def named(self, refusal: str, at: Token | Expr) -> Refused:
        return Refused(end=at.end, name=at.value, refusal=refusal, start=at.start, **place(self.file, at.start))

    def expressions(self):
        """All expressions, in written order."""
        for body in self.rules.values():
            yield from expressions(body)

    def close_outcomes(self) -> None:
        """Adds outcomes until nothing changes: the least relation that section 3.5 describes."""
        is_changed = True
        while is_changed:
            found = {name: self.outcomes_of(body) for name, body in self.rules.items()}
            is_changed, self.outcomes = found != self.outcomes, found

    def outcomes_of(self, expr: Expr) -> Outcomes:
        """The outcomes of an expression, by those of the rules so far."""
        parts = [self.outcomes_of(part) for part in expr.parts]
        match expr.kind:
            case "literal":
                return frozenset({SOMETHING, FAILS}) if expr.value else EMPTY
            case "class":
                return frozenset({SOMETHING, FAILS} if expr.value else {FAILS})
            case "any":
                return frozenset({SOMETHING, FAILS})
            case "name":
                return self.outcomes[expr.value]
            case "sequence":
                found = EMPTY
                for part in reversed(parts):
                    found = in_order(part, found)
                return found
            case "choice":
                found = parts[-1]
                for part in reversed(parts[:-1]):
                    found = by_turns(part, found)
                return found
            case "optional":
                return by_turns(parts[0], EMPTY)
            case "star":
                return repeated(parts[0])
            case "plus":
                return in_order(parts[0], repeated(parts[0]))
            case "count":
                least, greatest = expr.value
                found = EMPTY
                for done in range(greatest):
                    found = in_order(parts[0], found)
                    found = by_turns(found, EMPTY) if done < greatest - least else found
                return found
            case "and":
                return negated(negated(parts[0]))
            case _:
                return negated(parts[0])

    def left_calls(self, expr: Expr) -> set[str]:
        """The rules that an expression can call before a byte is consumed."""
        if expr.kind == "name":
            return {expr.value}
        found: set[str] = set()
        for part in expr.parts:
            found |= self.left_calls(part)
            if expr.kind == "sequence" and NOTHING not in self.outcomes_of(part):
                break
        return found

    def check(self) -> None:
        """Raises Refused if the grammar isn't well-formed (sections 3.5 and 3.6)."""
        for rule, body in self.rules.items():
            for expr in expressions(body):
                if expr.kind in ("star", "plus") and NOTHING in self.outcomes_of(expr.parts[0]):
                    raise Refused(end=expr.end, refusal="EmptyLoop", rule=rule, start=expr.start,
                                  **place(self.file, expr.start))
        calls = {rule: self.left_calls(body) for rule, body in self.rules.items()}
        for rule in self.names:
            if path := self.cycle(calls, rule):
                raise Refused(path=path, refusal="LeftRecursion")

    def cycle(self, calls: dict[str, set[str]], start: str) -> list[str]:
        """The least of the shortest left cycles from a rule, by the order of the rules; empty if there is none."""
        distance = {start: 0}
        level = [start]
        while level:
            before = [rule for rule in self.names if rule not in distance and calls[rule] & set(level)]
            distance.update(dict.fromkeys(before, distance[level[0]] + 1))
            level = before
        reached = [distance[rule] for rule in calls[start] if rule in distance]
        path = [start] if reached else []
        for left in range(min(reached, default=0), 0, -1):
            path.append(next(rule for rule in self.names if rule in calls[path[-1]] and distance.get(rule) == left))
        return path


class Parse:
    """A parse of a text by Ford's relation (section 3.3). A result of a rule at a position is computed once: what it
    depends on is the position alone, and its failures have been noted."""

    def __init__(self, grammar: Grammar, text: bytes) -> None:
        self.grammar = grammar
        self.text = text
        self.results: dict[tuple[str, int], Node | None] = {}
        self.far = 0
        self.failed: set[tuple[int, int]] = set()

    def answer(self, start: str) -> Answer:
        root = self.call(start, 0)
        return Answer(root, self.far, sorted(self.failed))

    def fail(self, expr: Expr, at: int) -> None:
        """Notes that a terminal failed at a position."""
        if at > self.far:
            self.far = at
            self.failed.clear()
        if at == self.far:
            self.failed.add((expr.start, expr.end))

    def call(self, rule: str, at: int) -> Node | None:
        if (rule, at) not in self.results:
            children: list[Node] = []
            end = self.match(self.grammar.rules[rule], at, children)
            self.results[rule, at] = None if end is None else Node(rule, at, end, tuple(children))
        return self.results[rule, at]

    def match(self, expr: Expr, at: int, nodes: list[Node]) -> int | None:
        """Where the match of an expression ends, or None; the nodes of its calls are added."""
        match expr.kind:
            case "literal" | "class" | "any":
                return self.terminal(expr, at)
            case "name":
                node = self.call(expr.value, at)
                nodes += [node] if node else []
                return node.end if node else None
            case "sequence":
                return self.sequence(expr.parts, at, nodes)
            case "choice":
                for part in expr.parts:
                    end = self.sequence([part], at, nodes)
                    if end is not None:
                        return end
                return None
            case "and" | "not":
                found = self.match(expr.parts[0], at, [])
                return at if (found is not None) == (expr.kind == "and") else None
            case _:
                return self.iterations(expr, at, nodes)

    def terminal(self, expr: Expr, at: int) -> int | None:
        """A literal is a sequence of terminals of one byte each."""
        sets = [{byte} for byte in expr.value] if expr.kind == "literal" else [expr.value]
        for allowed in sets:
            if at >= len(self.text) or allowed is not None and self.text[at] not in allowed:
                self.fail(expr, at)
                return None
            at += 1
        return at

    def sequence(self, parts: list[Expr], at: int | None, nodes: list[Node]) -> int | None:
        count = len(nodes)
        for part in parts:
            at = self.match(part, at, nodes)
            if at is None:
                del nodes[count:]
                return None
        return at

    def iterations(self, expr: Expr, at: int, nodes: list[Node]) -> int | None:
        """`e?`, `e*`, `e+` and counts: as many iterations as match, if these are enough."""
        bounds = {"optional": (0, 1), "star": (0, None), "plus": (1, None)}
        least, greatest = bounds.get(expr.kind) or expr.value
        count, done = len(nodes), 0
        while greatest is None or done < greatest:
            end = self.sequence(expr.parts, at, nodes)
            if end is None:
                break
            at, done = end, done + 1
        if done < least:
            del nodes[count:]
            return None
        return at


def line_of(members: dict[str, object]) -> str:
    """A line of JSON: no spaces, the keys in byte order."""
    return json.dumps(members, sort_keys=True, separators=(",", ":")) + "\n"


def rows_of(node: Node, level: int = 1):
    """The nodes of a tree in preorder, each with its level."""
    yield [level, node.rule, node.start, node.end]
    for child in node.children:
        yield from rows_of(child, level + 1)


def nested(node: Node) -> dict[str, object]:
    return {"children": [nested(child) for child in node.children], "end": node.end, "rule": node.rule,
            "start": node.start}


def check_line(file: bytes) -> tuple[str, int]:
    """The line and the status of `check`."""
    try:
        grammar = Grammar(file)
        grammar.check()
    except Refused as refused:
        return line_of(refused.members), 2
    return line_of({"result": "accepted", "rules": len(grammar.rules)}), 0


def table_line(file: bytes) -> tuple[str, int]:
    """The line and the status of `table`, which doesn't need a well-formed grammar."""
    try:
        grammar = Grammar(file)
    except Refused as refused:
        return line_of(refused.members), 2
    rows = [{"rule": rule, **{kind: kind in found for kind in (NOTHING, SOMETHING, FAILS)}}
            for rule, found in grammar.outcomes.items()]
    return line_of({"table": rows}), 0


def shown_among(nodes: tuple[Node, ...], shown: set[str]) -> tuple[Node, ...]:
    """Nodes without those of rules that aren't shown. The children of an omitted node take its place."""
    found: list[Node] = []
    for node in nodes:
        children = shown_among(node.children, shown)
        found += [dataclasses.replace(node, children=children)] if node.rule in shown else children
    return tuple(found)


def parse_line(answer: Answer, text: bytes, form: str, is_whole: bool, shown: set[str] | None) -> tuple[str, int]:
    """The line and the status of `parse` with this option for the tree's form, or with none for nested objects, and with
    `--all`. The tree has its root and the nodes of these rules, or all nodes."""
    members: dict[str, object] = {"expected": answer.expected, "far": answer.far, "result": "failed"}
    root = answer.root
    if root is None:
        return line_of(members), 1
    is_partial = is_whole and root.end < len(text)
    members |= {"consumed": root.end, "result": "partial" if is_partial else "matched"}
    if form != "--no-tree":
        if shown is not None:
            root = dataclasses.replace(root, children=shown_among(root.children, shown))
        rows = list(rows_of(root))
        if form != "--rows" and max(level for level, *_ in rows) > MAX_LEVELS:
            return line_of({"refusal": "TooDeep"}), 6
        members |= {"rows": rows} if form == "--rows" else {"tree": nested(root)}
    return line_of(members), int(is_partial)
