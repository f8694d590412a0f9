"""The packed nodes of a match: six 32-bit words for each node.

The words are the rule's number, start, end and level, and the size, whose upper word is always 0 here: a match whose
nodes don't fit into the memory of the process isn't made. Nodes are numbered in preorder, and the subtree of a node
ends before the number of the node plus its size.
"""

from __future__ import annotations

import array
from typing import List

from ._library import RawAnswer

WORDS = 6
RULE, START, END, LEVEL, SIZE = range(5)


def shifted(raw: RawAnswer, first: int) -> RawAnswer:
    """An answer whose offsets count from the beginning of the text, where the parse began at an offset."""
    if first == 0:
        return raw
    for column in (START, END):
        offsets = (offset + first for offset in raw.nodes[column::WORDS])
        raw.nodes[column::WORDS] = memoryview(array.array("I", offsets))
    return raw._replace(furthest=raw.furthest + first)


def numbers_of(nodes: memoryview, rule: int) -> List[int]:
    """The numbers of the nodes of a rule, in preorder."""
    return [number for number, other in enumerate(nodes[RULE::WORDS]) if other == rule]
