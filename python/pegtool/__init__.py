"""Parse texts by parsing expression grammars, with the proved parser of pegtool.

    >>> import pegtool
    >>> grammar = pegtool.Grammar('''
    ...     Pairs <- Pair ("," Pair)* !.
    ...     Pair  <- Key "=" Value
    ...     Key   <- [a-z]+
    ...     Value <- [0-9]+
    ... ''')
    >>> match = grammar.parse("a=1,bc=22")
    >>> [(pair.find("Key").text, int(pair.find("Value").text)) for pair in match.root]
    [('a', 1), ('bc', 22)]

Positions count from 0: characters of a `str`, and bytes of other texts. Success, consumed length, tree and furthest
failure are those of Ford's relation ("Parsing Expression Grammars", POPL 2004) for the grammar as written: that is
proved of the library that this package calls. This package itself is tested.
"""

from ._arrays import RecordArrays
from ._errors import (
    GrammarError,
    NodeError,
    NoSuchRuleError,
    ParseError,
    PegError,
    StepLimitError,
    TextError,
    TextTooLongError,
    VisitError,
)
from ._grammar import DEFAULT_MEMO, Grammar
from ._library import version
from ._match import Failure, Match, Node, Row, Rows
from ._records import Refusal
from ._text import Text
from ._version import __version__
from ._visitor import Transformer, Visitor

__all__ = [
    "DEFAULT_MEMO",
    "Failure",
    "Grammar",
    "GrammarError",
    "Match",
    "Node",
    "NodeError",
    "NoSuchRuleError",
    "ParseError",
    "PegError",
    "RecordArrays",
    "Refusal",
    "Row",
    "Rows",
    "StepLimitError",
    "Text",
    "TextError",
    "TextTooLongError",
    "Transformer",
    "VisitError",
    "Visitor",
    "__version__",
    "version",
]
