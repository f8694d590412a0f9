"""The C library of pegtool: the declarations of include/peg.h, and a handle of a grammar for each thread."""

from __future__ import annotations

import array
import ctypes
import os
import threading
from ctypes import POINTER, byref, c_char_p, c_size_t, c_uint8, c_uint32, c_uint64, c_void_p
from ctypes.util import find_library
from typing import (
    TYPE_CHECKING,
    Any,
    Callable,
    ClassVar,
    Dict,
    Generic,
    Iterator,
    List,
    NamedTuple,
    Optional,
    Tuple,
    TypeVar,
)

if TYPE_CHECKING:
    # Arrays have a type parameter from Python 3.12 on.
    Numbers = array.array[int]

# The number of the binary interface that this module is written for.
ABI = 1

OK, FAILED, REFUSED, NO_SUCH_START, WRONG_HANDLE, OUT_OF_MEMORY, STEP_LIMIT, TEXT_TOO_LONG, OUT_OF_RANGE = range(9)


class Handle(ctypes.Structure):
    """A grammar or a match; null at first."""

    _fields_ = [("opaque", c_void_p)]


class PegNode(ctypes.Structure):
    """A node of a parse tree: 24 bytes."""

    _fields_ = [
        ("rule", c_uint32),
        ("start", c_uint32),
        ("end", c_uint32),
        ("level", c_uint32),
        ("size", c_uint64),
    ]


class PegSpan(ctypes.Structure):
    """The start and the end of a part of a grammar file."""

    _fields_ = [("start", c_uint32), ("end", c_uint32)]


class PegSummary(ctypes.Structure):
    """The summary of an answer."""

    _fields_ = [
        ("matched", c_uint32),
        ("consumed", c_uint32),
        ("furthest", c_uint32),
        ("nodes", c_uint64),
        ("expected", c_uint64),
        ("steps", c_uint64),
    ]


class PegMismatch(ctypes.Structure):
    """Where a text doesn't match as a whole."""

    _fields_ = [("position", c_uint32), ("end_expected", c_uint32), ("expected", c_uint64)]


class PegProgress(ctypes.Structure):
    """How many records a call parsed."""

    _fields_ = [("records", c_uint64), ("nodes", c_uint64), ("wanted", c_uint64)]


# The result and the arguments of each function. A text is a `c_void_p`, which takes an address inside of `bytes`.
DECLARATIONS: Dict[str, Tuple[Any, ...]] = {
    "peg_grammar_read": (c_uint32, c_char_p, c_size_t, POINTER(Handle)),
    "peg_grammar_share": (c_uint32, POINTER(Handle), POINTER(Handle)),
    "peg_grammar_free": (None, POINTER(Handle)),
    "peg_grammar_refusal": (c_size_t, POINTER(Handle), POINTER(c_uint8), c_size_t),
    "peg_grammar_message": (c_size_t, POINTER(Handle), POINTER(c_uint8), c_size_t),
    "peg_rule_count": (c_uint32, POINTER(Handle), POINTER(c_uint32)),
    "peg_rule_name": (c_size_t, POINTER(Handle), c_uint32, POINTER(c_uint8), c_size_t),
    "peg_code": (c_uint32, POINTER(Handle), POINTER(Handle)),
    "peg_table": (c_uint32, POINTER(Handle), POINTER(Handle)),
    "peg_lint": (c_uint32, POINTER(Handle), c_char_p, c_size_t, c_uint32, POINTER(Handle)),
    "peg_line_free": (None, POINTER(Handle)),
    "peg_line_text": (c_size_t, POINTER(Handle), POINTER(c_uint8), c_size_t),
    "peg_parse": (
        c_uint32,
        POINTER(Handle),
        c_void_p,
        c_size_t,
        c_char_p,
        c_size_t,
        c_uint32,
        c_uint64,
        POINTER(Handle),
    ),
    "peg_parser_read": (c_uint32, c_char_p, c_size_t, c_char_p, c_size_t, POINTER(Handle)),
    "peg_parser_share": (c_uint32, POINTER(Handle), POINTER(Handle)),
    "peg_parser_free": (None, POINTER(Handle)),
    "peg_parser_parse": (
        c_uint32,
        POINTER(Handle),
        c_void_p,
        c_size_t,
        c_char_p,
        c_size_t,
        c_uint32,
        c_uint64,
        POINTER(Handle),
    ),
    "peg_parser_records": (
        c_uint32,
        POINTER(Handle),
        c_void_p,
        c_size_t,
        c_char_p,
        c_size_t,
        c_uint32,
        c_uint64,
        c_void_p,
        c_size_t,
        c_void_p,
        c_size_t,
        POINTER(PegProgress),
    ),
    "peg_parser_profile": (
        c_uint32,
        POINTER(Handle),
        c_void_p,
        c_size_t,
        c_char_p,
        c_size_t,
        c_uint32,
        c_uint64,
        POINTER(Handle),
    ),
    "peg_match_free": (None, POINTER(Handle)),
    "peg_match_summary": (c_uint32, POINTER(Handle), POINTER(PegSummary)),
    "peg_match_nodes": (c_size_t, POINTER(Handle), c_size_t, POINTER(PegNode), c_size_t),
    "peg_match_expected": (c_size_t, POINTER(Handle), c_size_t, POINTER(PegSpan), c_size_t),
    "peg_explainer_read": (c_uint32, c_char_p, c_size_t, POINTER(Handle)),
    "peg_explainer_share": (c_uint32, POINTER(Handle), POINTER(Handle)),
    "peg_explainer_free": (None, POINTER(Handle)),
    "peg_explainer_explain": (
        c_uint32,
        POINTER(Handle),
        c_char_p,
        c_size_t,
        c_void_p,
        c_size_t,
        c_char_p,
        c_size_t,
        c_uint32,
        c_uint64,
        POINTER(Handle),
    ),
    "peg_explanation_free": (None, POINTER(Handle)),
    "peg_explanation_message": (c_size_t, POINTER(Handle), POINTER(c_uint8), c_size_t),
    "peg_explanation_mismatch": (c_uint32, POINTER(Handle), POINTER(PegMismatch)),
    "peg_explanation_expected": (c_size_t, POINTER(Handle), c_size_t, POINTER(PegSpan), c_size_t),
    "peg_abi": (c_uint32,),
    "peg_version": (c_size_t, POINTER(c_uint8), c_size_t),
}


def candidates() -> Iterator[str]:
    """The paths where the library is looked for, in order. The system is asked last, since that may run a linker."""
    if "PEGTOOL_LIBRARY" in os.environ:
        yield os.environ["PEGTOOL_LIBRARY"]
        return
    here = os.path.dirname(os.path.abspath(__file__))
    beside = [os.path.join(here, name) for name in ("libpeg.so.1", "libpeg.so")]
    built = os.path.join(here, os.pardir, os.pardir, "out", "lib", "libpeg.so")
    installed = os.path.join(here, os.pardir, os.pardir, os.pardir, "libpeg.so.1")
    yield from (path for path in (*beside, built, installed) if os.path.exists(path))
    found = find_library("peg")
    if found:
        yield found


def load() -> ctypes.CDLL:
    """Loads the library. Raises `ImportError` if there is none, or if it is another one, too old, or has another binary
    interface."""
    for path in candidates():
        try:
            library = ctypes.CDLL(path)
        except OSError as error:
            raise ImportError(f"{path} can't be loaded: {error}") from error
        if not hasattr(library, "peg_abi"):
            raise ImportError(f"{path} is another library: it has no peg_abi")
        if library.peg_abi() != ABI:
            raise ImportError(f"{path} has the binary interface {library.peg_abi()}, and not {ABI}")
        for name, (result, *arguments) in DECLARATIONS.items():
            function = getattr(library, name, None)
            if function is None:
                raise ImportError(f"{path} is too old: it has no {name}")
            function.restype, function.argtypes = result, arguments
        return library
    raise ImportError("libpeg.so isn't found; `make lib` builds it, and PEGTOOL_LIBRARY names another place")


LIBRARY = load()


def copied(copy: Callable[[Any, int], Any]) -> bytes:
    """The bytes of a call that copies them to a buffer and returns how many there are."""
    length = copy((c_uint8 * 1)(), 0)
    buffer = (c_uint8 * max(length, 1))()
    copy(buffer, length)
    return bytes(buffer[:length])


def version() -> str:
    """The version of the library."""
    return copied(LIBRARY.peg_version).decode("ascii")


def address(data: bytes, offset: int) -> int:
    """The address of a byte of some bytes. They must be kept while it is used."""
    return (ctypes.cast(c_char_p(data), c_void_p).value or 0) + offset


class Table:
    """Packed rows of words of 32 bits, each of which has the same number of words."""

    __slots__ = ("words",)

    # The number of words in a row.
    WIDTH: ClassVar[int]

    def __init__(self, words: memoryview) -> None:
        self.words = words

    def __len__(self) -> int:
        """The number of rows."""
        return len(self.words) // self.WIDTH

    def column(self, number: int) -> memoryview:
        """The words with this number in all rows."""
        return self.words[number :: self.WIDTH]

    def part(self: AnyTable, first: int, last: int) -> AnyTable:
        """The rows from one number up to another, without copies."""
        return type(self)(self.words[first * self.WIDTH : last * self.WIDTH])

    def address(self) -> int:
        """The address of the first row, if there is one. The table must be kept while it is used."""
        return ctypes.addressof(c_uint32.from_buffer(self.words))


AnyTable = TypeVar("AnyTable", bound=Table)


class RecordTable(Table):
    """Records of a text: where they are, and what their parses gave."""

    __slots__ = ()

    WIDTH = 7
    START, END, STATUS, CONSUMED, FURTHEST, FIRST, NODES = range(WIDTH)

    @classmethod
    def of_spans(cls, starts: Numbers, ends: Numbers) -> RecordTable:
        """The records with these spans."""
        table = cls(zeros(cls.WIDTH * len(starts)))
        table.column(cls.START)[:] = memoryview(starts)
        table.column(cls.END)[:] = memoryview(ends)
        return table

    def without_nodes(self) -> RecordTable:
        """The same records, as if they had no nodes."""
        for number in (self.FIRST, self.NODES):
            self.column(number)[:] = zeros(len(self))
        return self


class NodeTable(Table):
    """Packed nodes. The upper word of a size is always 0 here: such a tree doesn't fit into the memory."""

    __slots__ = ()

    WIDTH = 6
    RULE, START, END, LEVEL, SIZE = range(5)


def zeros(count: int) -> memoryview:
    """This many words that are 0."""
    return memoryview(array.array("I", bytes(4 * count)))


class ReadHandle:
    """A handle of what was read from a grammar file. One call at a time uses it. Any thread may drop the last
    reference."""

    # How the names of its calls begin.
    calls: ClassVar[str]

    def __init__(self) -> None:
        self.raw = Handle()

    def __del__(self) -> None:
        if LIBRARY is not None:  # the interpreter isn't ending
            getattr(LIBRARY, f"{self.calls}_free")(byref(self.raw))

    def read(self, file: bytes) -> int:
        """Reads a grammar file. Returns the status."""
        status: int = getattr(LIBRARY, f"{self.calls}_read")(file, len(file), *self._words(), byref(self.raw))
        if status == OUT_OF_MEMORY:
            raise MemoryError("no memory for a grammar")
        return status

    def _words(self) -> Tuple[Any, ...]:
        """More arguments of the call that reads a grammar file."""
        return ()

    def share(self: AnyHandle) -> AnyHandle:
        """Another handle that shares what this one holds, in constant time."""
        other = type(self)()
        if getattr(LIBRARY, f"{self.calls}_share")(byref(self.raw), byref(other.raw)) != OK:
            raise MemoryError("no memory for a handle")
        return other


AnyHandle = TypeVar("AnyHandle", bound=ReadHandle)


class ParsingHandle(ReadHandle):
    """A handle that parses texts."""

    # The name of its call for a parse.
    parse_call: ClassVar[str]

    def parse(
        self, text: bytes, first: int, options: Options, with_nodes: bool
    ) -> Tuple[int, Optional[RawAnswer]]:
        """Parses a text from an offset. Returns the status, and the answer if there is one."""
        found = Handle()
        try:
            status = getattr(LIBRARY, self.parse_call)(
                byref(self.raw), address(text, first), len(text) - first, *options.words(), byref(found)
            )
            return status, raw_answer(found, with_nodes) if status in (OK, FAILED) else None
        finally:
            LIBRARY.peg_match_free(byref(found))


class ParserHandle(ParsingHandle):
    """A handle of a parser that makes the root and the nodes of some rules. `shown` has a byte for each rule, which is
    0 if its nodes aren't made."""

    calls = "peg_parser"
    parse_call = "peg_parser_parse"

    def __init__(self, shown: bytes = b"") -> None:
        super().__init__()
        self._shown = shown

    def _words(self) -> Tuple[Any, ...]:
        return self._shown, len(self._shown)

    def parse_records(
        self, text: bytes, records: RecordTable, options: Options, room: int
    ) -> Tuple[int, RecordTable, NodeTable, int]:
        """Parses records of a text, with room for some nodes. Returns the status, the records that were parsed, their
        nodes, and how many nodes the record after them has, if there was no room for them."""
        nodes = NodeTable(zeros(NodeTable.WIDTH * room))
        progress = PegProgress()
        status: int = LIBRARY.peg_parser_records(
            byref(self.raw),
            address(text, 0),
            len(text),
            *options.words(),
            records.address(),
            len(records),
            nodes.address(),
            room,
            byref(progress),
        )
        parsed, used = records.part(0, progress.records), nodes.part(0, progress.nodes)
        return status, parsed, used, progress.wanted

    def profile(self, text: bytes, options: Options) -> Tuple[int, bytes]:
        """The line of the profile of a text's parse, after the status."""
        words = options.words()
        return line_of(
            lambda out: LIBRARY.peg_parser_profile(byref(self.raw), address(text, 0), len(text), *words, out)
        )


class GrammarHandle(ParsingHandle):
    """A handle of a grammar, or of a refusal."""

    calls = "peg_grammar"
    parse_call = "peg_parse"

    def refusal(self) -> bytes:
        """The line of JSON that says why the file was refused."""
        return copied(lambda out, length: LIBRARY.peg_grammar_refusal(byref(self.raw), out, length))

    def message(self) -> bytes:
        """The message that says why the file was refused, after the name of the file."""
        return copied(lambda out, length: LIBRARY.peg_grammar_message(byref(self.raw), out, length))

    def rules(self) -> Tuple[str, ...]:
        """The names of the rules, in order."""
        count = c_uint32()
        LIBRARY.peg_rule_count(byref(self.raw), byref(count))
        return tuple(self._name(rule) for rule in range(count.value))

    def _name(self, rule: int) -> str:
        return copied(lambda out, length: LIBRARY.peg_rule_name(byref(self.raw), rule, out, length)).decode("ascii")

    def code(self) -> Tuple[int, bytes]:
        """The line of the grammar's code, after the status."""
        return line_of(lambda out: LIBRARY.peg_code(byref(self.raw), out))

    def table(self) -> Tuple[int, bytes]:
        """The line of what the rules can do, after the status."""
        return line_of(lambda out: LIBRARY.peg_table(byref(self.raw), out))

    def warnings(self, start: bytes, proved: bool) -> Tuple[int, bytes]:
        """The line of the warnings, after the status."""
        return line_of(lambda out: LIBRARY.peg_lint(byref(self.raw), start, len(start), proved, out))


class ExplainerHandle(ReadHandle):
    """A handle of a grammar that is compiled for explanations."""

    calls = "peg_explainer"

    def explain(self, text: bytes, first: int, options: Options) -> Tuple[int, Optional[RawExplanation]]:
        """Explains where a text doesn't match from an offset. Returns the status, and the explanation if there is
        one."""
        found = Handle()
        try:
            status = LIBRARY.peg_explainer_explain(
                byref(self.raw), b"", 0, address(text, first), len(text) - first, *options.words(), byref(found)
            )
            return status, raw_explanation(found) if status == FAILED else None
        finally:
            LIBRARY.peg_explanation_free(byref(found))


def line_of(make: Callable[[Any], Any]) -> Tuple[int, bytes]:
    """The bytes of a line that a call stores in a handle, after its status. There are none if it stores none."""
    line = Handle()
    try:
        status = make(byref(line))
        return status, copied(lambda out, length: LIBRARY.peg_line_text(byref(line), out, length))
    finally:
        LIBRARY.peg_line_free(byref(line))


class Shared(Generic[AnyHandle]):
    """What was read once from a grammar file, and the handles of the threads that use it.

    A handle of a thread is freed when the thread ends, and those that are left with this object.
    """

    def __init__(self, first: AnyHandle, file: bytes) -> None:
        # It is only shared, which is a call that uses it. A finalizer may ask for a handle while a thread has the lock.
        self._first = first
        self._lock = threading.RLock()
        self._threads = threading.local()
        self.status = first.read(file)

    def handle(self) -> AnyHandle:
        """The handle of the current thread."""
        handle: Optional[AnyHandle] = getattr(self._threads, "handle", None)
        if handle is None:
            with self._lock:
                handle = self._first.share()
            self._threads.handle = handle
        return handle


class Options(NamedTuple):
    """The options of a parse, as the library takes them: the name of the start rule, empty for the first one; the
    capacity of the memo; and the limit of steps, 0 for none."""

    start: bytes
    memo: int
    steps: int

    def words(self) -> Tuple[bytes, int, int, int]:
        """The arguments of a call: the name and its length, the memo and the steps."""
        return self.start, len(self.start), self.memo, self.steps


class RawExplanation(NamedTuple):
    """What an explanation handle holds, copied. Offsets in the text count from where the parse began."""

    # The message, after the name of the text.
    message: str
    # The sentence of the message, which says what is expected and what is found.
    sentence: str
    position: int
    # The spans of the expected items in the grammar file.
    expected: List[Tuple[int, int]]
    # Whether the end of the text is expected, too.
    end_expected: bool


def raw_explanation(found: Handle) -> RawExplanation:
    """Copies what an explanation handle holds."""
    copy = copied(lambda out, length: LIBRARY.peg_explanation_message(byref(found), out, length))
    # The name is empty, so the message is ":LINE:COLUMN: SENTENCE", two lines, and a note for some grammars.
    message = copy.decode("utf-8", "backslashreplace")
    sentence = message.partition(": ")[2].partition("\n")[0]
    mismatch = PegMismatch()
    LIBRARY.peg_explanation_mismatch(byref(found), byref(mismatch))
    spans = (PegSpan * mismatch.expected)()
    if mismatch.expected:
        LIBRARY.peg_explanation_expected(byref(found), 0, spans, mismatch.expected)
    return RawExplanation(message, sentence, mismatch.position, pairs_of(spans), bool(mismatch.end_expected))


class RawAnswer(NamedTuple):
    """What a match handle holds, copied. Offsets in the text count from where the parse began."""

    consumed: int
    furthest: int
    steps: int
    # The spans of the expected terminals in the grammar file.
    expected: List[Tuple[int, int]]
    # The packed nodes.
    nodes: memoryview


def raw_answer(found: Handle, with_nodes: bool) -> RawAnswer:
    """Copies what a match handle holds, with the nodes or without."""
    summary = PegSummary()
    LIBRARY.peg_match_summary(byref(found), byref(summary))
    count = summary.nodes if with_nodes else 0
    nodes = (PegNode * count)()
    if count:
        LIBRARY.peg_match_nodes(byref(found), 0, nodes, count)
    spans = (PegSpan * summary.expected)()
    if summary.expected:
        LIBRARY.peg_match_expected(byref(found), 0, spans, summary.expected)
    words = memoryview(nodes).cast("B").cast("I")
    return RawAnswer(summary.consumed, summary.furthest, summary.steps, pairs_of(spans), words)


def pairs_of(spans: Any) -> List[Tuple[int, int]]:
    """Spans as pairs of offsets."""
    return [(span.start, span.end) for span in spans]
