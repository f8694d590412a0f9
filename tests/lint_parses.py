"""Compares the proved warnings of `pegtool lint` with parses of 200 random texts by each grammar. The parses use the
Python package and the library that `make lib` builds.

A part with a warning is replaced by what the warning says of it, and no parse may change: an alternative that is never
tried or never taken, an item that stops its sequence, a part that never matches and a predicate that always fails by
`[]`, an item that takes nothing by an and-predicate, an operator without effect by `''` or its part, a reversed range
by nothing. An unused rule has no node."""
import pathlib
import re
import sys

sys.path.insert(0, str(pathlib.Path(__file__).resolve().parent.parent / "python"))
import pegtool  # noqa: E402

from lint_finder import PROVED  # noqa: E402

BYTES = b"aaaaabbbbbccccc^ \n]\xc3\xa9"
TEXTS = 200
FAILING = {"NeverMatches", "NeverTried", "AlwaysFails", "SameAlternative", "Shadowed", "NeverStops", "NeverFollows"}


def parser(grammar):
    """The parser of a grammar, or `None` if it is refused."""
    try:
        return pegtool.Grammar(grammar)
    except pegtool.GrammarError:
        return None


def result(grammar, text):
    """The bytes consumed and the nodes of the tree, `False` after a failure, and `None` if there is no result."""
    if grammar is None:
        return None
    try:
        answer = grammar.match(text, steps=200000)
    except pegtool.StepLimitError:
        return None
    return isinstance(answer, pegtool.Match) and (answer.consumed, list(answer.rows))


def replacements(grammar, warning):
    """The grammars in which the part with the warning is replaced. One of them has the same parses."""
    start, end = warning["start"], warning["end"]
    part_text = grammar[start:end]
    others = []
    if warning["kind"] in FAILING:
        others = [b"[]"]
    elif warning["kind"] == "ReversedRange":
        # Without the range, a dash after it would make a range with the byte before it.
        others = [b""] if grammar[end : end + 1] != b"-" else []
    elif warning["kind"] == "TakesNothing":
        # A call has a node even if it matches no byte.
        others = [b"&(" + part_text + b")"] if not re.search(rb"[A-Z]", part_text) else []
    elif warning["kind"] == "NoEffect":
        others = [b"''", part_text[:-1]] if part_text.endswith(b"?") else [b"''"]
    return [grammar[:start] + other + grammar[end:] for other in others]


def faults(chance, grammar, warnings):
    """The warnings that a parse of a random text contradicts."""
    written = parser(grammar)
    changed = [[parser(other) for other in replacements(grammar, warning)] for warning in warnings]
    for _ in range(TEXTS):
        text = bytes(chance.choice(BYTES) for _ in range(chance.randrange(8)))
        wanted = result(written, text)
        if wanted is None:
            continue
        for warning, others in zip(warnings, changed):
            if warning["kind"] == "UnusedRule":
                if wanted and any(row.rule == warning["rule"] for row in wanted[1]):
                    yield warning, text
                continue
            found = [result(other, text) for other in others]
            if found and None not in found and wanted not in found:
                yield warning, text


def contradictions(chance, grammars):
    """Prints the contradictions of grammars with their warnings, and returns how many there are."""
    failed, tried = 0, 0
    for grammar, warnings in grammars:
        proved = [warning for warning in warnings if warning["kind"] in PROVED]
        tried += bool(proved)
        for warning, text in faults(chance, grammar, proved) if proved else ():
            failed += 1
            print(f"contradicted on {text!r}: {warning}\n{grammar.decode('utf-8', 'backslashreplace')}")
    print(f"parses: {tried} grammars with {TEXTS} texts each, {failed} contradictions")
    return failed
