"""The structure of grammar files: each rule's expression, read by a grammar of the notation."""

from dataclasses import dataclass
from typing import Any, Dict, FrozenSet, List, Optional, Tuple, Union

from ._grammar import Grammar
from ._match import Node
from ._visitor import Visitor

# The notation of grammar files, in itself. docs/NOTATION.md describes it.
NOTATION = r"""
Grammar    <- Spacing Definition+ !.
Definition <- Identifier '<-' Spacing Expression
Expression <- Sequence ('/' Spacing Sequence)*
Sequence   <- Prefix*
Prefix     <- Sign? Suffix
Sign       <- [&!] Spacing
Suffix     <- Primary Mark?
Mark       <- ([?*+] / '{' [0-9]+ (',' [0-9]+)? '}') Spacing
Primary    <- Identifier !'<-' / '(' Spacing Expression ')' Spacing / Terminal
Identifier <- Word Spacing
Word       <- [a-zA-Z_] [a-zA-Z_0-9]*
Terminal   <- Written Spacing
Written    <- ['] (!['] Char)* ['] / ["] (!["] Char)* ["] / '[' (!']' Range)* ']' / '.'
Range      <- Char '-' Char / Char
Char       <- '\\' . / .
Spacing    <- ([ \t\r\n] / '#' (![\r\n] .)*)*
"""


@dataclass(frozen=True)
class Terminal:
    """A literal, a class or a dot, as it is written."""

    text: str


@dataclass(frozen=True)
class Name:
    """A call of a rule."""

    rule: str


@dataclass(frozen=True)
class Sequence:
    """Items one after the other; nothing if there are none."""

    items: Tuple["Expression", ...]


@dataclass(frozen=True)
class Choice:
    """Alternatives, tried in order."""

    items: Tuple["Expression", ...]


@dataclass(frozen=True)
class Repeat:
    """A part at least `least` and at most `most` times; `None` is without a limit."""

    part: "Expression"
    least: int
    most: Optional[int]


@dataclass(frozen=True)
class Predicate:
    """A part that must follow (`&`), or must not (`!`), and that consumes nothing."""

    sign: str
    part: "Expression"


Expression = Union[Terminal, Name, Sequence, Choice, Repeat, Predicate]


class _Reader(Visitor):
    """Makes expressions from the nodes of the notation's tree."""

    def visit_Grammar(self, node: Node[str], values: List[Optional[Tuple[str, Expression]]]) -> Dict[str, Expression]:
        return dict(value for value in values if value is not None)

    def visit_Definition(self, node: Node[str], values: List[Any]) -> Tuple[str, Expression]:
        name, *_, expression = values
        return name.rule, expression

    def visit_Expression(self, node: Node[str], values: List[Optional[Expression]]) -> Expression:
        items = tuple(value for value in values if value is not None)
        return items[0] if len(items) == 1 else Choice(items)

    def visit_Sequence(self, node: Node[str], values: List[Expression]) -> Expression:
        return values[0] if len(values) == 1 else Sequence(tuple(values))

    def visit_Prefix(self, node: Node[str], values: List[Any]) -> Expression:
        part: Expression = values[-1]
        return Predicate(values[0], part) if len(values) == 2 else part

    def visit_Sign(self, node: Node[str], values: List[Any]) -> str:
        return str(node.text)[0]

    def visit_Suffix(self, node: Node[str], values: List[Any]) -> Expression:
        part: Expression = values[0]
        return Repeat(part, *values[1]) if len(values) == 2 else part

    def visit_Mark(self, node: Node[str], values: List[Any]) -> Tuple[int, Optional[int]]:
        mark = str(node.text).strip()
        if mark[0] != "{":
            return {"?": (0, 1), "*": (0, None), "+": (1, None)}[mark[0]]
        bounds = mark[1 : mark.index("}")].split(",")
        return int(bounds[0]), int(bounds[-1])

    def visit_Primary(self, node: Node[str], values: List[Optional[Expression]]) -> Expression:
        (expression,) = (value for value in values if value is not None)
        return expression

    def visit_Identifier(self, node: Node[str], values: List[Name]) -> Name:
        return values[0]

    def visit_Word(self, node: Node[str], values: List[Any]) -> Name:
        return Name(str(node.text))

    def visit_Terminal(self, node: Node[str], values: List[Terminal]) -> Terminal:
        return values[0]

    def visit_Written(self, node: Node[str], values: List[Any]) -> Terminal:
        return Terminal(str(node.text))

    def generic_visit(self, node: Node[str], values: List[Any]) -> None:
        return None


def called(expression: Expression) -> FrozenSet[str]:
    """The rules that an expression calls outside predicates."""
    if isinstance(expression, Name):
        return frozenset([expression.rule])
    if isinstance(expression, (Sequence, Choice)):
        return frozenset(rule for item in expression.items for rule in called(item))
    return called(expression.part) if isinstance(expression, Repeat) else frozenset()


def leaves(grammar: Grammar, hidden: FrozenSet[str]) -> FrozenSet[str]:
    """The rules of a grammar whose nodes never have children, if the nodes of hidden rules are left out."""
    calls = {rule: called(body) for rule, body in expressions(grammar).items()}
    return frozenset(rule for rule in calls if reached(calls, rule, hidden) <= hidden)


def reached(calls: Dict[str, FrozenSet[str]], rule: str, hidden: FrozenSet[str]) -> FrozenSet[str]:
    """The rules that a rule calls, and those that hidden ones of these call, and so on."""
    found = set(calls[rule])
    waiting = list(found & hidden)
    while waiting:
        further = calls[waiting.pop()] - found
        found |= further
        waiting.extend(further & hidden)
    return frozenset(found)


def expressions(grammar: Grammar) -> Dict[str, Expression]:
    """The expression of each rule of a grammar, in order."""
    text = grammar.source.decode("utf-8", "replace")
    rules: Dict[str, Expression] = _Reader().visit(Grammar(NOTATION, name="notation").parse(text))
    return rules
