"""Grammars: grammar files that were accepted, and parses by them."""

from __future__ import annotations

import json
import operator
import os
import threading
from typing import Any, Dict, FrozenSet, Iterable, Iterator, List, Optional, Tuple, Union, overload

from ._arrays import Columns, RecordArrays, arrays_of
from ._errors import GrammarError, NoSuchRuleError, StepLimitError, TextTooLongError
from ._library import (
    FAILED,
    NO_SUCH_START,
    OK,
    REFUSED,
    STEP_LIMIT,
    TEXT_TOO_LONG,
    ExplainerHandle,
    GrammarHandle,
    Options,
    ParserHandle,
    ParsingHandle,
    RawExplanation,
    RecordTable,
    Shared,
)
from ._match import Failure, Match, Request
from ._packed import shifted
from ._records import RecordAnswer, Stream, answer_to, answers_of, texts_of
from ._text import Buffer, RecordText, Text, text_of

# The capacity of the memo that pegtool uses if none is given.
DEFAULT_MEMO = 4096

# The greatest number of memo entries, and of steps, that can be asked for.
MAX_MEMO = 1_000_000
MAX_STEPS = 1_000_000_000_000

# The greatest number of parsers with hidden rules that a grammar keeps.
MOST_PARSERS = 8


class Grammar:
    """The parser of a grammar file.

    >>> grammar = Grammar("Sum <- Number ('+' Number)*  Number <- [0-9]+")
    >>> grammar.parse("1+22").root.children
    [<Number 0..1>, <Number 2..4>]

    `source` is the grammar file, as bytes or as `str`, which is encoded as UTF-8. `name` is how messages call it.
    `hide` has names of rules whose nodes are left out of trees, if a parse doesn't say otherwise. Raises `GrammarError`
    if the file is refused, and `NoSuchRuleError` if no rule has a name of `hide`.

    A grammar may be used by several threads at once: it is compiled once, and they share it. A grammar can be pickled:
    it is sent as its source, and compiled again. It never changes, so a copy is the grammar itself.
    """

    def __init__(self, source: Union[str, Buffer], *, name: str = "<grammar>", hide: Iterable[str] = ()) -> None:
        self._text = text_of(source)
        # The grammar file, as bytes.
        self.source: bytes = self._text.data
        # How messages call the grammar file.
        self.name = name
        # The compiled grammar.
        self._shared = Shared(GrammarHandle(), self.source)
        if self._shared.status == REFUSED:
            refusal = self._handle()
            raise GrammarError(json.loads(refusal.refusal()), refusal.message(), self._text, self.name)
        # The grammar as it is compiled for explanations, from the first error on.
        self._explaining: Optional[Shared[ExplainerHandle]] = None
        self._lock = threading.RLock()
        # The parsers that don't make the nodes of some rules, by these rules; the one that was asked for last is last.
        self._parsers: Dict[FrozenSet[str], Shared[ParserHandle]] = {}
        # For sets of hidden rules that were asked for, the rules whose nodes never have children.
        self._leaves: Dict[FrozenSet[str], FrozenSet[str]] = {}
        # The names of the rules, in order.
        self.rules: Tuple[str, ...] = self._handle().rules()
        # The rules whose nodes are left out of trees, if a parse doesn't say otherwise.
        self.hide: FrozenSet[str] = self.known_rules(hide, "hide")

    @classmethod
    def from_file(cls, path: Union[str, os.PathLike[str]], *, hide: Iterable[str] = ()) -> Grammar:
        """The grammar in a file. Raises `OSError` if it can't be read, and `GrammarError` if it is refused."""
        with open(path, "rb") as file:
            return cls(file.read(), name=os.fsdecode(path), hide=hide)

    @overload
    def parse(
        self,
        data: Union[str, Text[str]],
        start: Optional[str] = None,
        *,
        pos: int = 0,
        memo: int = DEFAULT_MEMO,
        steps: Optional[int] = None,
        show: Optional[Iterable[str]] = None,
        hide: Optional[Iterable[str]] = None,
        tree: bool = True,
        name: str = "<text>",
    ) -> Match[str]: ...

    @overload
    def parse(
        self,
        data: Union[Buffer, Text[bytes]],
        start: Optional[str] = None,
        *,
        pos: int = 0,
        memo: int = DEFAULT_MEMO,
        steps: Optional[int] = None,
        show: Optional[Iterable[str]] = None,
        hide: Optional[Iterable[str]] = None,
        tree: bool = True,
        name: str = "<text>",
    ) -> Match[bytes]: ...

    def parse(
        self,
        data: Any,
        start: Optional[str] = None,
        *,
        pos: int = 0,
        memo: int = DEFAULT_MEMO,
        steps: Optional[int] = None,
        show: Optional[Iterable[str]] = None,
        hide: Optional[Iterable[str]] = None,
        tree: bool = True,
        name: str = "<text>",
    ) -> Match[Any]:
        """Parses a whole text. Returns the match.

        >>> Grammar("Word <- [a-z]+").parse("ab1")
        Traceback (most recent call last):
        ...
        pegtool._errors.ParseError: <text>:1:3: expected the end or [a-z], found '1'
        ab1
          ^

        `data` is `str`, `bytes`, another buffer or a `Text`. `start` is the name of the start rule, by default the
        first one. The other options are given by name:

        `pos` is the position where the parse begins; it takes the text from there to the end. `memo` is the capacity of
        the memo, which changes no result. `steps` limits the parse, and the second one that finds what was expected.
        `name` is how errors call the text.

        `show` has names of rules: the tree has the root and the nodes of these rules. `hide` has names of rules: the
        tree has the root and all other nodes. The children of a node that is left out take its place. Without both,
        `hide` of the grammar counts. `tree=False` makes no nodes at all.

        Raises `ParseError` if the text isn't matched as a whole. Raises `NoSuchRuleError` if no rule has the name of
        the start or a name of `show` or `hide`, `StepLimitError` if more steps are needed, `TextTooLongError` for a
        text over the limit, `MemoryError` if memory runs out, and `ValueError` if the text has no such position or if
        both `show` and `hide` are given.
        """
        answer: Union[Match[Any], Failure[Any]] = self.match(
            data, start, pos=pos, memo=memo, steps=steps, show=show, hide=hide, tree=tree, name=name
        )
        if isinstance(answer, Failure) or not answer.is_whole:
            raise answer.error()
        return answer

    @overload
    def match(
        self,
        data: Union[str, Text[str]],
        start: Optional[str] = None,
        *,
        pos: int = 0,
        memo: int = DEFAULT_MEMO,
        steps: Optional[int] = None,
        show: Optional[Iterable[str]] = None,
        hide: Optional[Iterable[str]] = None,
        tree: bool = True,
        name: str = "<text>",
    ) -> Union[Match[str], Failure[str]]: ...

    @overload
    def match(
        self,
        data: Union[Buffer, Text[bytes]],
        start: Optional[str] = None,
        *,
        pos: int = 0,
        memo: int = DEFAULT_MEMO,
        steps: Optional[int] = None,
        show: Optional[Iterable[str]] = None,
        hide: Optional[Iterable[str]] = None,
        tree: bool = True,
        name: str = "<text>",
    ) -> Union[Match[bytes], Failure[bytes]]: ...

    def match(
        self,
        data: Any,
        start: Optional[str] = None,
        *,
        pos: int = 0,
        memo: int = DEFAULT_MEMO,
        steps: Optional[int] = None,
        show: Optional[Iterable[str]] = None,
        hide: Optional[Iterable[str]] = None,
        tree: bool = True,
        name: str = "<text>",
    ) -> Union[Match[Any], Failure[Any]]:
        """Parses a prefix of a text. Returns a `Match`, which is true, or a `Failure`, which is false.

        >>> Grammar("Word <- [a-z]+").match("ab1")
        <Match of 2 bytes, 1 nodes>
        >>> Grammar("Word <- [a-z]+").match("1")
        <Failure at 0>

        The options and the other errors are those of `parse`. With `pos` the prefix begins there. `bytes` and a `Text`
        aren't copied, so texts with many records can be parsed record by record. `str` is encoded in each call.
        """
        options = options_of(start, memo, steps)
        hidden = self._hidden(show, hide)
        text = text_of(data)
        first = text.offset(operator.index(pos))
        return self._answer(Request(text, first, options, hidden, tree, name))

    def lines(
        self,
        stream: Stream,
        start: Optional[str] = None,
        *,
        null: bool = False,
        crlf: bool = False,
        memo: int = DEFAULT_MEMO,
        steps: Optional[int] = None,
        show: Optional[Iterable[str]] = None,
        hide: Optional[Iterable[str]] = None,
        tree: bool = True,
        name: Optional[str] = None,
    ) -> Iterator[RecordAnswer]:
        """Parses each record of a stream, such as the lines of a log, as a text of its own. Iterates over what `match`
        gives for each of them.

        >>> import io
        >>> numbers = Grammar("Number <- [0-9]+")
        >>> for answer in numbers.lines(io.BytesIO(b"12\\nx\\n3")):
        ...     print(answer.record, answer)
        1 <Match of 2 bytes, 1 nodes>
        2 <Failure at 0>
        3 <Match of 1 bytes, 1 nodes>

        `stream` is a file that is open for bytes, or another object with its method `read`. It is read in blocks, and
        may have any length: one block and one record are in memory. A record ends at a line feed, with `null` at a zero
        byte. With `crlf` a carriage return before the line feed isn't part of it. The last record may lack its end.

        `answer.record` is the number of the record, and `answer.line` the line of the stream where it begins, both from
        1. Positions are in the record, and lines are those of the stream, in errors, too. `name` is how errors call the
        stream, by default its own name. A record that is over a limit gives a `Refusal`, which is false like a
        `Failure`. The other options and errors are those of `match`; the errors of options are raised at once.
        """
        options, hidden, called = self._record_options(stream, start, memo, steps, show, hide, name)
        texts = texts_of(stream, end_of_records(null, crlf), crlf)
        return answers_of(texts, lambda text: self._answer(Request(text, 0, options, hidden, tree, called)))

    def line_arrays(
        self,
        stream: Stream,
        start: Optional[str] = None,
        *,
        null: bool = False,
        crlf: bool = False,
        memo: int = DEFAULT_MEMO,
        steps: Optional[int] = None,
        show: Optional[Iterable[str]] = None,
        hide: Optional[Iterable[str]] = None,
        tree: bool = True,
        name: Optional[str] = None,
    ) -> Iterator[RecordArrays]:
        """Parses the records of a stream as `lines` does, and gives them as columns of numbers, many records at once.

        >>> import io
        >>> numbers = Grammar("Number <- [0-9]+")
        >>> for block in numbers.line_arrays(io.BytesIO(b"12\\nx\\n3\\n")):
        ...     print(list(block.statuses), list(block.starts), list(block.ends))
        [0, 1, 0] [0, 5] [2, 6]

        No object is made for a record or a node. `numpy.asarray` takes the columns without copies. The options and the
        errors are those of `lines`.
        """
        options, hidden, called = self._record_options(stream, start, memo, steps, show, hide, name)
        omitted = hidden if tree else frozenset(self.rules)

        def parse(data: bytes, records: RecordTable, room: int) -> Columns:
            status, parsed, nodes, wanted = self._selecting(omitted).parse_records(data, records, options, room)
            if status != OK:
                raise fault(status, options)
            if not tree:
                parsed, nodes = parsed.without_nodes(), nodes.part(0, 0)
            return Columns(data, parsed, nodes, wanted)

        def answer(text: RecordText) -> RecordAnswer:
            return answer_to(text, lambda one: self._answer(Request(one, 0, options, hidden, tree, called)))

        return arrays_of(stream, end_of_records(null, crlf), crlf, parse, answer)

    def _record_options(
        self,
        stream: Stream,
        start: Optional[str],
        memo: int,
        steps: Optional[int],
        show: Optional[Iterable[str]],
        hide: Optional[Iterable[str]],
        name: Optional[str],
    ) -> Tuple[Options, FrozenSet[str], str]:
        """The options of the parses of a stream's records, the rules that are hidden, and how errors call the stream.
        Raises the errors of options."""
        options = options_of(start, memo, steps)
        if start is not None:
            self.known_rules([start], "start")
        hidden = self._hidden(show, hide)
        return options, hidden, name_of(stream) if name is None else name

    def _answer(self, request: Request) -> Union[Match[Any], Failure[Any]]:
        """The answer to a parse. Raises the error of a parse that has none."""
        first, options = request.first, request.options
        parser = self._parser(request.hidden, request.tree)
        status, raw = parser.parse(request.text.data, first, options, request.tree)
        if raw is None:
            raise fault(status, options)
        raw = shifted(raw, first)
        if status == FAILED:
            return Failure(self, request, raw)
        return Match(self, request, raw)

    def code(self) -> Any:
        """What `pegtool code` prints, as JSON is read: the instructions that the grammar compiles to.

        >>> Grammar("S <- 'a'").code()
        {'code': [['end'], ['test', 0, [[97, 97]]], ['ret']], 'entries': [1]}
        """
        return json_of(*self._handle().code())

    def table(self) -> List[Dict[str, Any]]:
        """What the expression of each rule can do, as in the line of `pegtool table`.

        >>> Grammar("S <- 'a'?").table()
        [{'fails': False, 'nothing': True, 'rule': 'S', 'something': True}]
        """
        found: List[Dict[str, Any]] = json_of(*self._handle().table())["table"]
        return found

    def warnings(self, start: Optional[str] = None, *, proved: bool = False) -> List[Dict[str, Any]]:
        """The warnings about the grammar, as in the line of `pegtool lint`.

        >>> [warning["kind"] for warning in Grammar("S <- 'a' / 'ab'").warnings()]
        ['Shadowed']

        Texts are parsed from the rule `start`, by default from the first one. With `proved` there are only warnings of
        proved kinds. Raises `NoSuchRuleError` if no rule has the name of the start.
        """
        options = options_of(start, 0, None)
        status, line = self._handle().warnings(options.start, proved)
        if status == NO_SUCH_START:
            raise fault(status, options)
        found: List[Dict[str, Any]] = json_of(status, line)["warnings"]
        return found

    def profile(
        self,
        data: Union[str, Buffer, Text[Any]],
        start: Optional[str] = None,
        *,
        memo: int = 0,
        steps: Optional[int] = None,
    ) -> Dict[str, Any]:
        """How often the parse of a text calls each rule, and at how many positions: what `pegtool profile` prints, as
        JSON is read.

        >>> Grammar("S <- 'a' S / 'b'").profile("aab")["rules"]
        [{'again': 0, 'calls': 3, 'places': 3, 'rule': 'S'}]

        The parse takes a prefix of the text. It has no memo unless `memo` gives a capacity, so that all calls are
        counted. If it takes more steps than `steps`, its `result` is `stopped`, and the calls made so far are counted.
        Raises `NoSuchRuleError` if no rule has the name of the start, `TextTooLongError` for a text over the limit, and
        `MemoryError` if memory runs out.
        """
        options = options_of(start, memo, steps)
        parser = self._selecting(frozenset(self.rules))
        status, line = parser.profile(text_of(data).data, options)
        if status != OK:
            raise fault(status, options)
        found: Dict[str, Any] = json.loads(line)
        return found

    def is_leaf(self, rule: str, hidden: Iterable[str] = ()) -> bool:
        """Whether nodes of a rule never have children: the rule calls no other outside predicates, or only hidden rules
        that never have children that aren't hidden. The first use with some hidden rules takes time linear in the
        grammar file."""
        key = frozenset(hidden)
        if key not in self._leaves:
            from ._notation import leaves  # which is read by a grammar itself

            self._leaves[key] = leaves(self, key)
        return rule in self._leaves[key]

    def _hidden(self, show: Optional[Iterable[str]], hide: Optional[Iterable[str]]) -> FrozenSet[str]:
        """The names of the rules whose nodes are left out."""
        if show is not None and hide is not None:
            raise ValueError("show and hide can't be given together")
        if show is not None:
            return frozenset(self.rules) - self.known_rules(show, "show")
        return self.hide if hide is None else self.known_rules(hide, "hide")

    def known_rules(self, names: Iterable[str], option: str) -> FrozenSet[str]:
        """The names of rules that an option lists. Raises `NoSuchRuleError` if no rule has one of them."""
        if isinstance(names, (str, bytes)):
            raise TypeError(f"{option} is a list of names, and not {type(names).__name__}")
        wanted = list(names)
        for name in wanted:
            if name not in self.rules:
                raise NoSuchRuleError(f"no rule has the name {name}")
        return frozenset(wanted)

    def _explain(self, text: bytes, first: int, options: Options) -> RawExplanation:
        """Where a text doesn't match as a whole, from an offset on."""
        status, raw = self._explainer().explain(text, first, options)
        if raw is None:
            raise fault(status, options)
        return raw

    def _handle(self) -> GrammarHandle:
        """The handle of the compiled grammar that this thread uses."""
        return self._shared.handle()

    def _parser(self, hidden: FrozenSet[str], tree: bool) -> ParsingHandle:
        """The handle of the parser without the nodes of hidden rules, or without any, that this thread uses."""
        if tree and not hidden:
            return self._handle()
        return self._selecting(hidden if tree else frozenset(self.rules))

    def _selecting(self, omitted: FrozenSet[str]) -> ParserHandle:
        """The handle of the parser without the nodes of some rules that this thread uses."""
        with self._lock:
            shared = self._parsers.pop(omitted, None)
            if shared is None:
                shown = bytes(rule not in omitted for rule in self.rules)
                shared = Shared(ParserHandle(shown), self.source)
                while len(self._parsers) >= MOST_PARSERS:
                    del self._parsers[next(iter(self._parsers))]
            self._parsers[omitted] = shared
        return shared.handle()

    def _explainer(self) -> ExplainerHandle:
        """The handle of the explainer that this thread uses."""
        with self._lock:
            if self._explaining is None:
                self._explaining = Shared(ExplainerHandle(), self.source)
        return self._explaining.handle()

    def __reduce__(self) -> Tuple[Any, ...]:
        return grammar_of, (self._text.given, self.name, self.hide)

    def __copy__(self) -> Grammar:
        return self

    def __deepcopy__(self, memo: Any) -> Grammar:
        return self

    def __repr__(self) -> str:
        return f"<Grammar {self.name}, {len(self.rules)} rules>"


def grammar_of(source: Union[str, bytes], name: str, hide: FrozenSet[str]) -> Grammar:
    """A grammar that was pickled."""
    return Grammar(source, name=name, hide=hide)


def end_of_records(null: bool, crlf: bool) -> bytes:
    """The byte that ends a record. Raises `ValueError` if both options are given."""
    if null and crlf:
        raise ValueError("null and crlf can't be given together")
    return b"\0" if null else b"\n"


def name_of(stream: Stream) -> str:
    """The name of a stream, if it has one that is a text."""
    name = getattr(stream, "name", None)
    return name if isinstance(name, str) else "<text>"


def json_of(status: int, line: bytes) -> Any:
    """The JSON of a line. Raises `MemoryError` if there is none."""
    if status != OK:
        raise MemoryError("no memory for a line")
    return json.loads(line)


def options_of(start: Optional[str], memo: int, steps: Optional[int]) -> Options:
    """The options of a parse. Raises `TypeError` or `ValueError` for a value that isn't one."""
    if start is not None and not isinstance(start, str):
        raise TypeError(f"start is the name of a rule, and not {type(start).__name__}")
    if start == "":
        raise NoSuchRuleError("no rule has an empty name")
    memo = operator.index(memo)
    if not 0 <= memo <= MAX_MEMO:
        raise ValueError(f"memo must be from 0 to {MAX_MEMO}")
    limit = 0 if steps is None else operator.index(steps)
    if steps is not None and not 1 <= limit <= MAX_STEPS:
        raise ValueError(f"steps must be from 1 to {MAX_STEPS}")
    return Options((start or "").encode("utf-8"), memo, limit)


def fault(status: int, options: Options) -> Exception:
    """The error of a parse that has no answer."""
    if status == NO_SUCH_START:
        return NoSuchRuleError(f"no rule has the name {options.start.decode('utf-8')}")
    if status == STEP_LIMIT:
        return StepLimitError("the parse takes more steps than the limit allows")
    if status == TEXT_TOO_LONG:
        return TextTooLongError("the text is too long")
    return MemoryError("no memory for the parse")
