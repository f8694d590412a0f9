"""The answers to parses: matches with their nodes, and failures."""

from __future__ import annotations

import array
import re
from typing import (
    TYPE_CHECKING,
    Any,
    Dict,
    FrozenSet,
    Generic,
    Iterable,
    Iterator,
    List,
    Literal,
    NamedTuple,
    Optional,
    Sequence,
    Tuple,
    Type,
    TypeVar,
    Union,
    overload,
)

from ._errors import NodeError, NoSuchRuleError, ParseError, StepLimitError, sentence_of
from ._library import Options, RawAnswer
from ._packed import END, LEVEL, RULE, SIZE, START, WORDS, numbers_of
from ._text import AnyText, Text

if TYPE_CHECKING:
    from ._grammar import Grammar

OneAnswer = TypeVar("OneAnswer", bound="_Answer[Any]")

# The type of `Node.bytes`, whose own name hides the type in the class.
Bytes = bytes

# Blanks and comments of a grammar file.
BLANKS = re.compile(r"^(?:[ \t\r\n]|#[^\r\n]*)*")

# The greatest number of levels of a tree that pegtool prints as nested objects.
MAX_LEVELS = 60


class Request(NamedTuple):
    """What a parse was asked for."""

    text: Text[Any]
    # The offset in bytes where the parse began.
    first: int
    options: Options
    # The rules whose nodes are left out.
    hidden: FrozenSet[str]
    # Whether nodes are made.
    tree: bool
    # How errors call the text.
    name: str


class Row(NamedTuple):
    """A node as `pegtool parse --rows` prints it. The level of the root is 1. Offsets count bytes, for `str` texts,
    too."""

    level: int
    rule: str
    start: int
    end: int


class Rows(Sequence[Row]):
    """The nodes of a match in preorder, over one packed buffer. A `Row` is made only when it is asked for.

    `buffer` is that memory, 24 bytes for each node: the rule's number, start, end and level as 32-bit numbers, and the
    number of nodes of the subtree as a 64-bit number. `numpy.frombuffer(rows.buffer, Rows.FORMAT)` takes it as it is.
    """

    # The type of a packed node, as a list of fields for numpy.
    FORMAT = [("rule", "u4"), ("start", "u4"), ("end", "u4"), ("level", "u4"), ("size", "u8")]

    def __init__(self, match: Match[Any]) -> None:
        self._match = match

    def __len__(self) -> int:
        return len(self._match._words) // WORDS

    @overload
    def __getitem__(self, index: int) -> Row: ...

    @overload
    def __getitem__(self, index: slice) -> List[Row]: ...

    def __getitem__(self, index: Union[int, slice]) -> Union[Row, List[Row]]:
        numbers = range(len(self))[index]
        if isinstance(numbers, range):
            return [self._row(number) for number in numbers]
        return self._row(numbers)

    def __iter__(self) -> Iterator[Row]:
        words, names = self._match._words, self._match.grammar.rules
        rules = map(names.__getitem__, words[RULE::WORDS])
        return map(Row._make, zip(words[LEVEL::WORDS], rules, words[START::WORDS], words[END::WORDS]))

    def _row(self, number: int) -> Row:
        words, names, first = self._match._words, self._match.grammar.rules, WORDS * number
        return Row(words[first + LEVEL], names[words[first + RULE]], words[first + START], words[first + END])

    @property
    def buffer(self) -> memoryview:
        """The packed nodes as bytes, read only."""
        return self._match._words.cast("B").toreadonly()

    def __buffer__(self, flags: int) -> memoryview:
        """The packed nodes, for `memoryview(rows)` (Python 3.12)."""
        return self.buffer

    def __eq__(self, other: object) -> bool:
        """Whether the other is the rows of a match or a list, with the same rows."""
        if not isinstance(other, (Rows, list)):
            return NotImplemented
        return len(self) == len(other) and all(one == another for one, another in zip(self, other))

    def __repr__(self) -> str:
        return f"<Rows of {len(self)} nodes>"


class Node(Generic[AnyText]):
    """A node of a parse tree: a rule that matched a part of the text.

    Iterating over a node gives its children, and `node[i]` is the child with that number. The first use of `node[i]` or
    `len(node)` takes time linear in the number of children, and later ones take constant time. Two nodes are equal if
    they are the same node of the same match.

    `start`, `end` and `column` count characters if the text was given as `str`, and bytes otherwise. `byte_start` and
    `byte_end` count bytes. Of a match of `str`, `text[node.start:node.end]` is `node.text`.

    A node that is pickled takes its match along. Nodes that are pickled together have one match.
    """

    __slots__ = ("_match", "_number")

    def __init__(self, match: Match[AnyText], number: int) -> None:
        self._match: Match[AnyText] = match
        self._number = number

    @property
    def number(self) -> int:
        """The number of the node in preorder, from 0, the root."""
        return self._number

    @property
    def rule(self) -> str:
        """The name of the rule."""
        return self._match.grammar.rules[self._match._words[WORDS * self._number]]

    @property
    def start(self) -> int:
        """The position where the rule began to match."""
        return self._match._text.position(self.byte_start)

    @property
    def end(self) -> int:
        """The position after what the rule matched."""
        return self._match._text.position(self.byte_end)

    @property
    def byte_start(self) -> int:
        """The offset of the first byte that the rule matched."""
        return self._match._words[WORDS * self._number + START]

    @property
    def byte_end(self) -> int:
        """The offset after the last byte that the rule matched."""
        return self._match._words[WORDS * self._number + END]

    @property
    def line(self) -> int:
        """The line of `start`, from 1. The first use in a text takes time linear in it."""
        return self._match._text.place(self.byte_start)[0]

    @property
    def column(self) -> int:
        """The column of `start`, from 1. The first use in a text takes time linear in it."""
        return self._match._text.place(self.byte_start)[1]

    @property
    def level(self) -> int:
        """The level of the node; that of the root is 1."""
        return self._match._words[WORDS * self._number + LEVEL]

    @property
    def size(self) -> int:
        """The number of nodes of the subtree, this one included."""
        return self._match._words[WORDS * self._number + SIZE]

    @property
    def bytes(self) -> Bytes:
        """The bytes that the rule matched."""
        return self._match.data[self.byte_start : self.byte_end]

    @property
    def text(self) -> AnyText:
        """What the rule matched: `str` if the text was given as `str`, otherwise `bytes`.

        A rule may match a part of a character. In a `str`, the character belongs to the node that has its first byte.
        """
        return self._match._text.part(self.byte_start, self.byte_end)

    @property
    def children(self) -> List[Node[AnyText]]:
        """The nodes of the rules that this rule called, in order."""
        return list(self)

    @property
    def match(self) -> Match[AnyText]:
        """The match that the node belongs to."""
        return self._match

    @property
    def parent(self) -> Optional[Node[AnyText]]:
        """The node above this one; `None` for the root. The first use takes time linear in the tree."""
        return Node(self._match, self._match._parents()[self._number]) if self._number else None

    def walk(self) -> Iterator[Node[AnyText]]:
        """The nodes of the subtree in preorder, this one first."""
        match = self._match
        return (Node(match, number) for number in range(self._number, self._number + self.size))

    @overload
    def find(self, rule: str, *, required: Literal[False] = ...) -> Optional[Node[AnyText]]: ...

    @overload
    def find(self, rule: str, *, required: Literal[True]) -> Node[AnyText]: ...

    def find(self, rule: str, *, required: bool = False) -> Optional[Node[AnyText]]:
        """The first node of a rule below this one, in preorder; `None` if there is none.

        Raises `NoSuchRuleError` if no rule has the name, and `NodeError` if a node is required and there is none.
        """
        found = next(self.find_all(rule), None)
        if found is None and required:
            raise self.error(f"this {self.rule} has no {rule}")
        return found

    def find_all(self, rule: str) -> Iterator[Node[AnyText]]:
        """All nodes of a rule below this one, in preorder. Raises `NoSuchRuleError` if no rule has the name."""
        match = self._match
        wanted, words = match._number_of(rule), match._words
        numbers = range(self._number + 1, self._number + self.size)
        return (Node(match, number) for number in numbers if words[WORDS * number] == wanted)

    def error(self, message: str, name: Optional[str] = None) -> NodeError:
        """An error at this node, which a program raises: it shows the name of the text, line, column and message, and
        the line of the text with a caret. `name` is how it calls the text, by default the name that the parse was
        given."""
        match = self._match
        return NodeError(message, match._text, self.byte_start, name or match.name, self.rule)

    def __iter__(self) -> Iterator[Node[AnyText]]:
        match, number = self._match, self._number + 1
        end = self._number + self.size
        while number < end:
            yield Node(match, number)
            number += match._words[WORDS * number + SIZE]

    def __len__(self) -> int:
        return len(self._match._children_of(self._number))

    def __bool__(self) -> Literal[True]:
        return True

    @overload
    def __getitem__(self, index: int) -> Node[AnyText]: ...

    @overload
    def __getitem__(self, index: slice) -> List[Node[AnyText]]: ...

    def __getitem__(self, index: Union[int, slice]) -> Union[Node[AnyText], List[Node[AnyText]]]:
        numbers = self._match._children_of(self._number)[index]
        if isinstance(numbers, array.array):
            return [Node(self._match, number) for number in numbers]
        return Node(self._match, numbers)

    def __eq__(self, other: object) -> bool:
        return isinstance(other, Node) and self._match is other._match and self._number == other._number

    def __hash__(self) -> int:
        return hash((id(self._match), self._number))

    def __reduce__(self) -> Tuple[Any, ...]:
        return Node, (self._match, self._number)

    def __copy__(self) -> Node[AnyText]:
        return self

    def __deepcopy__(self, memo: Any) -> Node[AnyText]:
        return self

    def __repr__(self) -> str:
        return f"<{self.rule} {self.start}..{self.end}>"

    def pprint(self, width: int = 40, levels: int = 40, lines: int = 1000) -> str:
        """The subtree as text, a line for each node: its rule and, cut to `width`, what it matched.

        Nodes below `levels` levels are left out, and after `lines` lines the rest is. A line `...` says so.
        """
        shown: List[str] = []
        number, end = self._number, self._number + self.size
        while number < end:
            node = Node(self._match, number)
            depth = node.level - self.level
            if len(shown) >= lines:
                shown.append("...")
                break
            if depth < levels:
                shown.append(f"{'  ' * depth}{node.rule} {node._shown(width)}")
                number += 1
            else:
                shown.append(f"{'  ' * depth}...")
                # The nodes beside this one are as deep, so the rest of the parent's subtree is left out.
                parent = node.parent
                number = parent.number + parent.size if parent else end
        return "\n".join(shown)

    def _shown(self, width: int) -> str:
        """What the rule matched, cut to a width. Only the part that is shown is looked at."""
        start, end = self.byte_start, self.byte_end
        text = repr(self._match._text.part(start, min(end, start + 4 * width)))
        is_cut = len(text) > width or end - start > 4 * width
        return text[: width - 3] + "..." if is_cut else text


class _Answer(Generic[AnyText]):
    """What matches and failures have in common.

    An answer can be pickled: it is sent with its grammar, its text and its nodes. It never changes, so a copy is the
    answer itself.
    """

    def __init__(self, grammar: Grammar, request: Request, raw: RawAnswer) -> None:
        self.grammar = grammar
        self._request = request
        self._raw = raw
        self._text: Text[AnyText] = request.text
        # How errors call the text.
        self.name = request.name
        # The rules whose nodes are left out of the tree.
        self.hidden: FrozenSet[str] = request.hidden
        # The whole text as bytes.
        self.data: bytes = request.text.data
        # The number of the record that the text is, from 1, if it is a record of a stream.
        self.record: Optional[int] = request.text.record
        # The line where the text begins: of a record in its stream, otherwise 1.
        self.line: int = request.text.line
        # The greatest offset in bytes at which a terminal failed, or where the parse began if none failed.
        self.byte_far: int = raw.furthest
        # The number of steps of the parse.
        self.steps: int = raw.steps
        # The terminals that failed at `far`, as their offsets in the grammar file.
        self.expected_spans: List[Tuple[int, int]] = raw.expected

    @property
    def far(self) -> int:
        """The greatest position at which a terminal failed, or where the parse began if none failed."""
        return self._text.position(self.byte_far)

    @property
    def expected(self) -> List[str]:
        """The terminals that failed at `far`, as they are written in the grammar file, each once."""
        items = (self._written(start, end) for start, end in self.expected_spans)
        return _each_once("the end" if item == "[]" else item for item in items)

    def line_column(self, position: int) -> Tuple[int, int]:
        """The line and the column of a position of the text, both from 1. LF, CR LF and CR end lines.

        Position and column count characters if the text was given as `str`, and bytes otherwise. The first use takes
        time linear in the text. Raises `ValueError` if the text has no such position.
        """
        return self._text.line_column(position)

    def error(self, name: Optional[str] = None) -> ParseError:
        """The error that `Grammar.parse` raises if the text isn't matched as a whole.

        It is at the furthest failure outside predicates, or at the end of the match if that is further. The parse that
        finds it counts predicates as items, and takes more steps than `Grammar.match`. If it takes more than the limit
        of steps, the error is at the furthest failure of this answer, which predicates may have moved. `name` is how it
        calls the text, by default the name that the parse was given.
        Raises `ValueError` if the text is matched as a whole.
        """
        if self._end() == len(self.data):
            raise ValueError("the text is matched as a whole")
        request = self._request
        try:
            raw = self.grammar._explain(self.data, request.first, request.options)
        except StepLimitError:
            return self._furthest_error(name or self.name)
        items = [_item(self._written(start, end)) for start, end in raw.expected]
        expected = _end_first(items + ["the end"] * raw.end_expected)
        return self._error_at(request.first + raw.position, raw.sentence, expected, name or self.name)

    def _furthest_error(self, name: str) -> ParseError:
        """The error at the furthest failure, or at the end of the match if that is further."""
        end = self._end()
        offset = self.byte_far if end is None else max(self.byte_far, end)
        expected = self.expected if offset == self.byte_far else []
        expected = _end_first(expected + ["the end"] * (offset == end))
        return self._error_at(offset, sentence_of(self.data, offset, expected), expected, name)

    def _error_at(self, offset: int, sentence: str, expected: List[str], name: str) -> ParseError:
        """An error at an offset in bytes."""
        return ParseError(sentence, self._text, offset, name, expected, self._length(), self.far)

    def _end(self) -> Optional[int]:
        """The offset in bytes after what matched; `None` if nothing did."""
        return None

    def _length(self) -> Optional[int]:
        """The length of what matched; `None` if nothing did."""
        return None

    def _written(self, start: int, end: int) -> str:
        """A part of the grammar file."""
        return self.grammar.source[start:end].decode("utf-8", "replace")

    def _spans_json(self) -> str:
        return ",".join(f"[{start},{end}]" for start, end in self.expected_spans)

    def __reduce__(self) -> Tuple[Any, ...]:
        summary, nodes = self._raw[:4], bytes(self._raw.nodes)
        return answer_of, (type(self), self.grammar, self._request, summary, nodes)

    def __copy__(self: OneAnswer) -> OneAnswer:
        return self

    def __deepcopy__(self: OneAnswer, memo: Any) -> OneAnswer:
        return self


def answer_of(
    kind: Type[OneAnswer],
    grammar: Grammar,
    request: Request,
    summary: Tuple[int, int, int, List[Tuple[int, int]]],
    nodes: bytes,
) -> OneAnswer:
    """An answer that was pickled, with its packed nodes as bytes."""
    return kind(grammar, request, RawAnswer(*summary, memoryview(nodes).cast("I")))


class Failure(_Answer[AnyText]):
    """No part of the text from the position of the parse on is matched. A failure is false in conditions.

    Besides what `help` shows below, it has `grammar`, `name`, `data`, `record`, `line`, `byte_far`, `steps`, `hidden`
    and `expected_spans`, which are those of a `Match`.
    """

    def __bool__(self) -> Literal[False]:
        return False

    def to_json(self) -> str:
        """The line that `pegtool parse` prints. Its offsets count bytes."""
        return f'{{"expected":[{self._spans_json()}],"far":{self.byte_far},"result":"failed"}}'

    def __repr__(self) -> str:
        return f"<Failure at {self.far}>"


class Match(_Answer[AnyText]):
    """A part of the text is matched, from `start` to `end`. A match is true in conditions.

    `rows` has all nodes, and `root` is the node of the start rule. Positions and lengths count characters if the text
    was given as `str`, and bytes otherwise; those that begin with `byte_` count bytes.

    Besides what `help` shows below, it has `grammar`; `name`, which is how errors call the text; `data`, the whole text
    as bytes; `record` and `line`, the number of the record that the text is, if it is one, and the line where the text
    begins; `byte_start`, `byte_end`, `byte_consumed` and `byte_far`; `steps`, the number of steps of the parse;
    `hidden`, the rules whose nodes are left out; and `expected_spans`, the terminals that failed at `far`, as pairs of
    offsets in the grammar file.
    """

    def __init__(self, grammar: Grammar, request: Request, raw: RawAnswer) -> None:
        super().__init__(grammar, request, raw)
        # The offset in bytes where the parse began.
        self.byte_start: int = request.first
        # The length of what matched, in bytes.
        self.byte_consumed: int = raw.consumed
        # The offset in bytes after what matched.
        self.byte_end: int = request.first + raw.consumed
        self._words = raw.nodes
        self._parent_numbers: Optional[array.array[int]] = None
        # The numbers of the children of the nodes that were asked for.
        self._child_numbers: Dict[int, array.array[int]] = {}

    def __bool__(self) -> Literal[True]:
        return True

    @property
    def root(self) -> Node[AnyText]:
        """The node of the start rule. Raises `ValueError` if the parse made no tree."""
        self._need_tree()
        return Node(self, 0)

    @property
    def rows(self) -> Rows:
        """All nodes in preorder."""
        return Rows(self)

    @property
    def start(self) -> int:
        """The position where the parse began: the option `pos`, by default 0."""
        return self._text.position(self.byte_start)

    @property
    def end(self) -> int:
        """The position after what matched."""
        return self._text.position(self.byte_end)

    @property
    def consumed(self) -> int:
        """The length of what matched."""
        return self.end - self.start

    @property
    def text(self) -> AnyText:
        """What matched: `str` if the text was given as `str`, otherwise `bytes`."""
        return self._text.part(self.byte_start, self.byte_end)

    @property
    def is_whole(self) -> bool:
        """Whether all of the text is matched, from `start` on."""
        return self.byte_end == len(self.data)

    def records(self, rule: str, field: str, *fields: str) -> Iterator[Tuple[Optional[AnyText], ...]]:
        """For each node of a rule, in preorder, a tuple with a text for each field. A field is a rule, too: its text is
        the text of its first node below the other node, or `None` if there is none.

        >>> from pegtool import Grammar
        >>> pairs = Grammar("Pairs <- Pair*  Pair <- Key '=' Value? ';'  Key <- [a-z]+  Value <- [0-9]+")
        >>> list(pairs.parse("a=1;b=;").records("Pair", "Key", "Value"))
        [('a', '1'), ('b', None)]

        No object is made for a node, so this takes less time than `find`. Raises `NoSuchRuleError` if no rule has a
        name, and `ValueError` if the parse made no tree.
        """
        self._need_tree()
        numbers = numbers_of(self._words, self._number_of(rule))
        columns = [self._column(numbers, self._number_of(name)) for name in (field, *fields)]
        return zip(*columns)

    def _column(self, records: List[int], rule: int) -> Iterator[Optional[AnyText]]:
        """For each record, which is a node, the text of the first node of a rule below it."""
        words, part = self._words, self._text.part
        past = len(words) // WORDS
        numbers = iter(numbers_of(words, rule))
        following = next(numbers, past)
        for record in records:
            while following <= record:
                following = next(numbers, past)
            if following < record + words[WORDS * record + SIZE]:
                yield part(words[WORDS * following + START], words[WORDS * following + END])
            else:
                yield None

    def to_json(self, rows: bool = False) -> str:
        """The line that `pegtool parse` prints, with `rows` that of `pegtool parse --rows`. Its offsets count bytes.

        Raises `ValueError` if the tree has too many levels to be nested.
        """
        members = [f'"consumed":{self.byte_consumed},"expected":[{self._spans_json()}],"far":{self.byte_far}']
        members.append('"result":"matched"')
        if self._request.tree:
            members.append(self._rows_json() if rows else self._tree_json())
        return f"{{{','.join(members)}}}"

    def _rows_json(self) -> str:
        rows = (f'[{row.level},"{row.rule}",{row.start},{row.end}]' for row in self.rows)
        return f'"rows":[{",".join(rows)}]'

    def _tree_json(self) -> str:
        pieces: List[str] = []
        open_rows: List[Row] = []
        for row in self.rows:
            if row.level > MAX_LEVELS:
                raise ValueError(f"the tree has more than {MAX_LEVELS} levels; use rows=True")
            while len(open_rows) >= row.level:
                pieces.append(_closed(open_rows.pop()))
            pieces.append("," if pieces and pieces[-1].endswith("}") else "")
            pieces.append('{"children":[')
            open_rows.append(row)
        pieces.extend(_closed(row) for row in reversed(open_rows))
        return '"tree":' + "".join(pieces)

    def _end(self) -> Optional[int]:
        return self.byte_end

    def _length(self) -> Optional[int]:
        return self.consumed

    def _need_tree(self) -> None:
        """Raises `ValueError` if the parse made no tree."""
        if not self._request.tree:
            raise ValueError("the parse made no tree")

    def _number_of(self, rule: str) -> int:
        """The number of a rule. Raises `NoSuchRuleError` if no rule has the name."""
        rules = self.grammar.rules
        if rule not in rules:
            raise NoSuchRuleError(f"no rule has the name {rule}")
        return rules.index(rule)

    def _children_of(self, number: int) -> array.array[int]:
        """The numbers of the children of a node."""
        found = self._child_numbers.get(number)
        if found is None:
            found = self._child_numbers[number] = array.array("Q", (child.number for child in Node(self, number)))
        return found

    def _parents(self) -> array.array[int]:
        if self._parent_numbers is None:
            parents = array.array("Q", [0])
            above: List[int] = []
            for number, level in enumerate(self._words[LEVEL::WORDS]):
                del above[level - 1 :]
                if above:
                    parents.append(above[-1])
                above.append(number)
            self._parent_numbers = parents
        return self._parent_numbers

    def __repr__(self) -> str:
        return f"<Match of {self.byte_consumed} bytes, {len(self.rows)} nodes>"


def _each_once(items: Iterable[str]) -> List[str]:
    """The items without repetitions."""
    return list(dict.fromkeys(items))


def _end_first(items: Iterable[str]) -> List[str]:
    """The items without repetitions, and the end before the others, as in a message."""
    return _each_once(sorted(items, key=lambda item: item != "the end"))


def _item(written: str) -> str:
    """What an item expects, as in a message: `!e` expects no e, and `!.` the end."""
    if not written.startswith("!"):
        return written
    operand = BLANKS.sub("", written[1:], count=1)
    return "the end" if operand == "." else f"no {operand}"


def _closed(row: Row) -> str:
    """The end of a nested node."""
    return f'],"end":{row.end},"rule":"{row.rule}","start":{row.start}}}'
