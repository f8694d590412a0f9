"""One page of HTML that shows a parse: the text, the tree, the furthest failure, and diagrams of the rules."""

import itertools
import json
from html import escape
from typing import Any, List, Optional, Union

from ._errors import LINE_END, ParseError, shown, shown_name
from ._grammar import Grammar
from ._match import Failure, Match
from ._notation import expressions
from ._railroad import diagram

STYLE = """
body { font: 15px/1.45 system-ui, sans-serif; margin: 0; color: #1c1c28; background: #f6f6f9; }
header { background: #24243a; color: #fff; padding: 10px 24px; }
header h1 { font-size: 18px; margin: 0; }
main { display: grid; grid-template-columns: minmax(0, 3fr) minmax(0, 2fr); gap: 18px; padding: 18px 24px; }
section { background: #fff; border: 1px solid #dcdce6; border-radius: 6px; padding: 12px 16px; }
section.wide { grid-column: 1 / 3; overflow-x: auto; }
h2 { font-size: 14px; margin: 0 0 8px; color: #5a5a72; }
#text, #tree { font: 13px/1.55 ui-monospace, monospace; max-height: 62vh; overflow: auto; }
#text div { white-space: pre-wrap; overflow-wrap: anywhere; padding-left: 4.5em; min-height: 1.55em; }
#text i { float: left; width: 3.5em; margin-left: -4.5em; text-align: right; color: #9a9aae; font-style: normal;
  user-select: none; }
#text span { cursor: pointer; }
#text .lit { background: #d9e8ff; }
#text .chosen { background: #ffd88a; }
#text .rest { color: #9a9aae; }
#text .fault { background: #d43d3d; color: #fff; border-radius: 2px; padding: 0 1px; }
#text .line-end::before { content: '\21b5'; }
#tree div { white-space: pre; cursor: pointer; border-radius: 3px; }
#tree .lit { background: #d9e8ff; }
#tree .chosen { background: #ffd88a; }
#tree b { font-weight: 600; color: #23508e; }
#tree u { display: inline-block; width: 1.2em; text-decoration: none; color: #5a5a72; }
.note { color: #5a5a72; margin: 0 0 8px; }
button { font: inherit; font-size: 12px; float: right; margin-left: 6px; }
#path { font: 13px ui-monospace, monospace; min-height: 1.5em; color: #5a5a72; }
.message { white-space: pre-wrap; font: 13px/1.5 ui-monospace, monospace; background: #fdeaea; padding: 8px 12px; margin: 0 0 10px; }
h3 { font: 600 13px ui-monospace, monospace; margin: 14px 0 2px; }
svg.railroad { display: block; font: 13px ui-monospace, monospace; }
svg.railroad path, svg.railroad circle { fill: none; stroke: #5a5a72; stroke-width: 1.5; }
svg.railroad rect { stroke: #5a5a72; stroke-width: 1.2; }
svg.railroad .terminal rect { fill: #e4f4e4; }
svg.railroad .rule rect { fill: #e6ecfb; }
svg.railroad .frame { fill: none; stroke-dasharray: 5 4; }
svg.railroad text { text-anchor: middle; fill: #1c1c28; }
svg.railroad .note { font-size: 12px; fill: #5a5a72; }
"""

SCRIPT = """
const spans = [...document.querySelectorAll('#text span[data-n]')];
const lines = [...document.querySelectorAll('#tree div')];
const folded = new Set();
function up(n) { const path = []; while (n >= 0) { path.push(n); n = parents[n]; } return path; }
function mark(n, name) {
  const last = n + sizes[n];
  for (const span of spans) { const i = +span.dataset.n; span.classList.toggle(name, n >= 0 && i >= n && i < last); }
  for (const line of lines) line.classList.toggle(name, +line.dataset.n === n);
}
function show(n) {
  mark(n, 'lit');
  document.getElementById('path').textContent = up(n).reverse().map(i => names[rules[i]]).join(' \\u203a ');
}
function fold() {
  let next = 0;
  lines.forEach((line, n) => {
    line.hidden = n < next;
    if (!line.hidden && folded.has(n)) next = n + sizes[n];
    if (sizes[n] > 1) line.firstChild.textContent = folded.has(n) ? '\\u25b8' : '\\u25be';
  });
}
function choose(n, from) {
  mark(n, 'chosen');
  if (from === spans) { up(parents[n]).forEach(i => folded.delete(i)); fold(); }
  const other = (from === spans ? lines : spans).find(part => +part.dataset.n >= n);
  if (other) other.scrollIntoView({block: 'nearest'});
}
for (const parts of [spans, lines]) for (const part of parts) {
  part.addEventListener('mouseenter', () => show(+part.dataset.n));
  part.addEventListener('click', () => choose(+part.dataset.n, parts));
}
lines.forEach((line, n) => line.firstChild.addEventListener('click', event => {
  event.stopPropagation();
  if (!folded.delete(n)) folded.add(n);
  fold();
}));
for (const button of document.querySelectorAll('button')) button.addEventListener('click', () => {
  folded.clear();
  if (button.id === 'fold') lines.forEach((line, n) => { if (n > 0 && sizes[n] > 1) folded.add(n); });
  fold();
});
fold();
document.body.dataset.ready = 'yes';
"""

# The greatest number of bytes of a node's text that its line of the tree shows.
SHOWN_BYTES = 40

# The greatest number of nodes in a page, if the caller gives none, and of bytes of the text.
MAX_NODES = 20_000
MAX_TEXT = 1_000_000


class Outline:
    """The first nodes of a match, in preorder, as lists by node number. `total` is the number of all its nodes."""

    __slots__ = ("rules", "levels", "starts", "ends", "parents", "sizes", "total")

    def __init__(self, match: Optional[Match[Any]], max_nodes: int) -> None:
        rows = list(itertools.islice(match.rows, max_nodes)) if match else []
        self.total = len(match.rows) if match else 0
        self.rules = [row.rule for row in rows]
        self.levels = [row.level for row in rows]
        self.starts = [row.start for row in rows]
        self.ends = [row.end for row in rows]
        self.parents = parents_of(self.levels)
        self.sizes = [1] * len(rows)
        for number in range(len(rows) - 1, 0, -1):
            self.sizes[self.parents[number]] += self.sizes[number]


def parents_of(levels: List[int]) -> List[int]:
    """For each node the number of its parent, given the levels in preorder; -1 for the root."""
    parents = []
    last = [-1]  # of each level, the last node
    for number, level in enumerate(levels):
        parents.append(last[level - 1])
        last[level:] = [number]
    return parents


def text_html(data: bytes, outline: Outline, fault: Optional[int]) -> str:
    """The lines of the text with their numbers, in spans that have the number of the innermost node."""
    shown_end = min(len(data), MAX_TEXT)
    line_starts = [0, *(end.end() for end in LINE_END.finditer(data, 0, shown_end))]
    cuts = {shown_end, *line_starts, *outline.starts, *outline.ends}
    if fault is not None:
        cuts.update((fault, min(fault + 1, len(data))))
    places = sorted(place for place in cuts if place <= shown_end)
    owners = innermost(outline, places)
    pieces = []
    following = 0
    for start, end, owner in zip(places, [*places[1:], shown_end], owners):
        if following < len(line_starts) and start == line_starts[following]:
            following += 1
            pieces.append(f"{'</div>' if start else ''}<div><i>{following}</i>")
        if start < end:
            pieces.append(span_html(data[start:end], owner, start == fault))
    if fault is not None and fault == len(data):
        pieces.append('<span class="fault">end</span>')
    pieces.append("</div>")
    if shown_end < len(data):
        pieces.append(f'<p class="note">{len(data) - shown_end:,} more bytes</p>')
    return "".join(pieces)


def span_html(part: bytes, owner: Optional[int], is_fault: bool) -> str:
    """A part of a line. A line end that is a fault is shown by a sign."""
    kinds = ["fault"] if is_fault else ["rest"] if owner is None else []
    if is_fault and part in (b"\n", b"\r", b"\r\n"):
        kinds.append("line-end")
    kind = f' class="{" ".join(kinds)}"' if kinds else ""
    number = "" if owner is None else f' data-n="{owner}"'
    return f"<span{kind}{number}>{escape(part.decode('utf-8', 'replace'))}</span>"


def innermost(outline: Outline, places: List[int]) -> List[Optional[int]]:
    """For each place the number of the innermost node that begins there or before and ends after it."""
    owners: List[Optional[int]] = []
    open_nodes: List[int] = []
    starts, ends = outline.starts, outline.ends
    following = 0
    for place in places:
        while following < len(starts) and starts[following] <= place:
            while open_nodes and ends[open_nodes[-1]] <= starts[following]:
                open_nodes.pop()
            open_nodes.append(following)
            following += 1
        while open_nodes and ends[open_nodes[-1]] <= place:
            open_nodes.pop()
        owners.append(open_nodes[-1] if open_nodes else None)
    return owners


def tree_html(data: bytes, outline: Outline) -> str:
    """A line for each node, and a note if there are more."""
    lines = []
    if outline.total > len(outline.rules):
        lines.append(
            f'<p class="note">The tree has {outline.total:,} nodes, and the first {len(outline.rules):,} are shown. '
            "<code>--hide</code> leaves out the nodes of some rules.</p>"
        )
    for number, rule in enumerate(outline.rules):
        part = data[outline.starts[number] : outline.ends[number]]
        cut = shown(part[:SHOWN_BYTES]) + ("…" if len(part) > SHOWN_BYTES else "")
        indent = "  " * (outline.levels[number] - 1)
        lines.append(f'<div data-n="{number}"><u></u>{indent}<b>{rule}</b> {escape(cut)}</div>')
    return "".join(lines)


def diagrams_html(grammar: Grammar) -> str:
    """The diagram of each rule."""
    parts = (
        f'<h3 id="rule-{rule}">{rule}</h3>{diagram(expression)}' for rule, expression in expressions(grammar).items()
    )
    return "".join(parts)


def data_js(grammar: Grammar, outline: Outline) -> str:
    """The nodes, for the script of the page."""
    numbers = {name: number for number, name in enumerate(grammar.rules)}
    lists = {
        "names": list(grammar.rules),
        "rules": [numbers[rule] for rule in outline.rules],
        "sizes": outline.sizes,
        "parents": outline.parents,
    }
    return "".join(f"const {name} = {json.dumps(values)};" for name, values in lists.items())


def page(
    grammar: Grammar, answer: Union[Match[Any], Failure[Any]], title: str, max_nodes: int = MAX_NODES
) -> str:
    """The whole page, with the first `max_nodes` nodes of the tree. It needs no other file."""
    match = answer if isinstance(answer, Match) else None
    outline = Outline(match, max_nodes)
    error: Optional[ParseError] = None if match and match.is_whole else answer.error(title)
    message = f'<pre class="message">{escape(str(error))}</pre>' if error else ""
    result = f"{outline.total:,} nodes" if match else "no match"
    text = text_html(answer.data, outline, error.byte_position if error else None)
    return f"""<!DOCTYPE html>
<html lang="en">
<meta charset="utf-8">
<title>{escape(shown_name(title))}</title>
<style>{STYLE}</style>
<header><h1>{escape(shown_name(title))} by {escape(shown_name(grammar.name))}: {result}</h1></header>
<main>
<section><h2>Text</h2>{message}<div id="text">{text}</div><div id="path"></div></section>
<section><h2>Tree <button id="unfold">Unfold all</button><button id="fold">Fold all</button></h2>
<div id="tree">{tree_html(answer.data, outline)}</div></section>
<section class="wide"><h2>Grammar</h2>{diagrams_html(grammar)}</section>
</main>
<script>{data_js(grammar, outline)}{SCRIPT}</script>
</html>
"""
