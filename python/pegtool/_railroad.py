"""Railroad diagrams of a grammar's rules, as SVG."""

from html import escape
from typing import Callable, List, NamedTuple

from ._notation import Choice, Expression, Name, Predicate, Repeat, Sequence, Terminal

# Lengths in pixels: of a character, of the height of a box, of the space between items, and of the rails at the sides.
CHARACTER = 8
HEIGHT = 26
GAP = 14
RAIL = 22
ROW = 12


class Box(NamedTuple):
    """A part of a diagram. `up` and `down` are its extents from the line on which it is entered and left.

    `paint` gives its SVG for the position at which it is entered.
    """

    width: int
    up: int
    down: int
    paint: Callable[[int, int], List[str]]


def line(x: int, y: int, *steps: str) -> str:
    """A path from a point, by steps of SVG."""
    return f'<path d="M{x} {y}{"".join(steps)}"/>'


def label(text: str, kind: str, link: str = "") -> Box:
    """A box with a text."""
    width = CHARACTER * len(text) + 20
    radius = HEIGHT // 2 if kind == "terminal" else 3

    def paint(x: int, y: int) -> List[str]:
        top = y - HEIGHT // 2
        box = (
            f'<g class="{kind}"><rect x="{x}" y="{top}" width="{width}" height="{HEIGHT}" rx="{radius}"/>'
            f'<text x="{x + width // 2}" y="{y + 4}">{escape(text)}</text></g>'
        )
        return [f'<a href="#{escape(link)}">{box}</a>' if link else box]

    return Box(width, HEIGHT // 2, HEIGHT // 2, paint)


def in_sequence(boxes: List[Box]) -> Box:
    """Boxes one after the other; a line if there are none."""
    if not boxes:
        return Box(GAP, 0, 0, lambda x, y: [line(x, y, f"h{GAP}")])
    width = sum(box.width for box in boxes) + GAP * (len(boxes) - 1)

    def paint(x: int, y: int) -> List[str]:
        pieces = []
        for number, box in enumerate(boxes):
            if number:
                pieces.append(line(x, y, f"h{GAP}"))
                x += GAP
            pieces += box.paint(x, y)
            x += box.width
        return pieces

    return Box(width, max(box.up for box in boxes), max(box.down for box in boxes), paint)


def in_choice(boxes: List[Box]) -> Box:
    """Alternatives below each other, the first one on the line."""
    width = max(box.width for box in boxes) + 2 * RAIL
    offsets = [0]
    for above, box in zip(boxes, boxes[1:]):
        offsets.append(offsets[-1] + above.down + ROW + box.up)

    def paint(x: int, y: int) -> List[str]:
        pieces = []
        for box, offset in zip(boxes, offsets):
            left, right = x + RAIL, x + RAIL + box.width
            pieces += box.paint(left, y + offset)
            rest = x + width - RAIL - right
            if offset == 0:
                pieces += [line(x, y, f"h{RAIL}"), line(right, y, f"h{rest + RAIL}")]
                continue
            side = RAIL // 2
            pieces.append(line(x, y, f"q{side} 0 {side} {side}V{y + offset - side}q0 {side} {side} {side}"))
            turn = f"h{rest}q{side} 0 {side} -{side}V{y + side}q0 -{side} {side} -{side}"
            pieces.append(line(right, y + offset, turn))
        return pieces

    return Box(width, boxes[0].up, offsets[-1] + boxes[-1].down, paint)


def in_loop(box: Box, text: str) -> Box:
    """A box that may be repeated: a line below it leads back, with a text if there is one."""
    width = max(box.width, CHARACTER * len(text) + 10) + 2 * RAIL
    depth = box.down + ROW

    def paint(x: int, y: int) -> List[str]:
        left, right, side = x + RAIL, x + RAIL + box.width, RAIL // 2
        rest = x + width - RAIL - right
        down = f"q{side} 0 {side} {side}V{y + depth - side}q0 {side} -{side} {side}"
        up = f"H{left}q-{side} 0 -{side} -{side}V{y + side}q0 -{side} {side} -{side}"
        pieces = [line(x, y, f"h{RAIL}"), *box.paint(left, y), line(right, y, f"h{rest + RAIL}")]
        pieces.append(line(right + rest, y, down, up))
        if text:
            pieces.append(f'<text class="note" x="{x + width // 2}" y="{y + depth + 14}">{escape(text)}</text>')
        return pieces

    return Box(width, box.up, depth + (18 if text else 0), paint)


def framed(box: Box, text: str) -> Box:
    """A box in a dashed frame with a text above: it consumes nothing."""
    width = max(box.width, CHARACTER * len(text)) + 20
    up = box.up + 22

    def paint(x: int, y: int) -> List[str]:
        inner = x + (width - box.width) // 2
        frame = (
            f'<rect class="frame" x="{x}" y="{y - up + 14}" width="{width}" height="{up + box.down - 8}" rx="4"/>'
            f'<text class="note" x="{x + width // 2}" y="{y - up + 10}">{escape(text)}</text>'
        )
        return [frame, line(x, y, f"H{inner}"), *box.paint(inner, y), line(inner + box.width, y, f"H{x + width}")]

    return Box(width, up, box.down + 8, paint)


def times(least: int, most: int) -> str:
    """How often a count repeats its part."""
    return f"{least} times" if least == most else f"{least} to {most} times"


def box_of(expression: Expression) -> Box:
    """The diagram of an expression."""
    if isinstance(expression, Terminal):
        return label("any byte" if expression.text == "." else expression.text, "terminal")
    if isinstance(expression, Name):
        return label(expression.rule, "rule", f"rule-{expression.rule}")
    if isinstance(expression, Sequence):
        return in_sequence([box_of(item) for item in expression.items])
    if isinstance(expression, Choice):
        return in_choice([box_of(item) for item in expression.items])
    if isinstance(expression, Predicate):
        return framed(box_of(expression.part), "followed by" if expression.sign == "&" else "not followed by")
    return box_of_repeat(expression)


def box_of_repeat(repeat: Repeat) -> Box:
    """The diagram of an optional part, a star, a plus or a count."""
    part = box_of(repeat.part)
    if repeat.most is None:
        part = in_loop(part, "")
    elif repeat.most > 1:
        part = in_loop(part, times(repeat.least, repeat.most))
    return in_choice([part, in_sequence([])]) if repeat.least == 0 else part


def diagram(expression: Expression) -> str:
    """The diagram of a rule's expression as SVG."""
    box = in_sequence([box_of(expression)])
    width, height, y = box.width + 60, box.up + box.down + 16, box.up + 8
    ends = f'<circle cx="10" cy="{y}" r="4"/><circle cx="{width - 10}" cy="{y}" r="4"/>'
    lines = line(14, y, "h16") + line(width - 30, y, "h16")
    inner = "".join(box.paint(30, y))
    return f'<svg class="railroad" width="{width}" height="{height}" viewBox="0 0 {width} {height}">{ends}{lines}{inner}</svg>'
