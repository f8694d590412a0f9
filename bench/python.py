#!/usr/bin/env python3
"""Parses JSON with the Python package and with other parsers for Python. Parsimonious and Arpeggio get the grammar
examples/json.peg, written in their notations; Lark gets a grammar of its own for the same texts. Prints the CPU seconds
for each megabyte until all nodes are at hand, and the seconds of walks over all nodes. What isn't installed is left out.
The others parse a shorter text, since they are slow. Then parses the lines of a log by examples/log.peg, as records of
a file object: as columns of numbers, and as an object for each line. Prints the CPU microseconds of a line."""

import io
import json
import os
import re
import sys
import time

TOP = os.path.dirname(os.path.dirname(os.path.abspath(__file__)))
sys.path[:0] = [os.path.join(TOP, "python"), os.path.join(TOP, "bench")]

import pegtool  # noqa: E402
from pegtool import _notation as notation  # noqa: E402
from texts import json_text, log_text  # noqa: E402

RUNS = 3
BYTES = 1_000_000
FEWER_BYTES = 20_000
LOG_BYTES = 10_000_000
FIELDS = ["Host", "Request", "Status"]

LARK = r"""
    value: object | array | string | number | "true" | "false" | "null"
    object: "{" [member ("," member)*] "}"
    member: string ":" value
    array: "[" [value ("," value)*] "]"
    string: ESCAPED_STRING
    number: SIGNED_NUMBER
    %import common.ESCAPED_STRING
    %import common.SIGNED_NUMBER
    %import common.WS
    %ignore WS
"""


RECORD = r"""
    Record <- Host ' ' Identity ' ' User ' [' Time '] ' Request ' ' Status ' ' Size (' ' Referrer ' ' Agent)? End
"""


def best(call):
    """The least CPU seconds of some calls, and the result of the last one."""
    times, result = [], None
    for _ in range(RUNS):
        begin = time.process_time()
        result = call()
        times.append(time.process_time() - begin)
    return min(times), result


def written(expression, regex):
    """An expression in the notation of another parser; `regex` writes a regular expression."""
    if isinstance(expression, notation.Name):
        return expression.rule
    if isinstance(expression, notation.Sequence):
        return "(" + " ".join(written(item, regex) for item in expression.items) + ")"
    if isinstance(expression, notation.Choice):
        return "(" + " / ".join(written(item, regex) for item in expression.items) + ")"
    if isinstance(expression, notation.Predicate):
        return expression.sign + written(expression.part, regex)
    if isinstance(expression, notation.Repeat):
        part = written(expression.part, regex)
        if (expression.least, expression.most) in ((0, 1), (0, None), (1, None)):
            return part + {(0, 1): "?", (0, None): "*", (1, None): "+"}[expression.least, expression.most]
        return "(" + " ".join([part] * expression.least + [part + "?"] * (expression.most - expression.least)) + ")"
    if expression.text == ".":
        return regex(r"[\s\S]")
    if expression.text[0] == "[":
        return regex("[" + re.sub(r"^\^", r"\\^", expression.text[1:-1]) + "]")
    return regex("".join(re.escape(c) if c != "\\" else c for c in expression.text[1:-1]))


def in_notation(grammar, regex):
    """The rules of a grammar, each as `name = expression`."""
    rules = notation.expressions(grammar)
    return "\n".join(f"{name} = {written(expression, regex)}" for name, expression in rules.items()) + "\n"


def others(grammar, text):
    """The parsers that are installed, each as a name and a call that parses a text."""
    try:
        from parsimonious.grammar import Grammar

        parsimonious = Grammar(in_notation(grammar, lambda pattern: '~r"' + pattern.replace('"', r"\x22") + '"'))
        yield "Parsimonious", lambda: parsimonious.parse(text)
    except ImportError:
        pass
    try:
        from arpeggio.cleanpeg import ParserPEG

        rules = in_notation(grammar, lambda pattern: "r'" + pattern.replace("'", r"\x27") + "'")
        arpeggio = ParserPEG(rules, grammar.rules[0], skipws=False)
        yield "Arpeggio", lambda: arpeggio.parse(text)
    except ImportError:
        pass
    try:
        from lark import Lark

        lark = Lark(LARK, start="value", parser="lalr")
        yield "Lark (LALR)", lambda: lark.parse(text)
    except ImportError:
        pass


def touch(match):
    """Reads three members of each node."""
    for node in match.root.walk():
        node.rule, node.start, node.end


def log_grammar():
    """The grammar of a line of a log. In examples/log.peg a line has its end, and a record has none."""
    with open(os.path.join(TOP, "examples", "log.peg"), encoding="utf-8") as file:
        return pegtool.Grammar(file.read() + RECORD)


def spans_of_arrays(grammar, data):
    """The number of nodes of the lines of a log, whose records, rules and spans are read as columns."""
    count = 0
    for block in grammar.line_arrays(io.BytesIO(data), "Record", show=FIELDS):
        columns = block.records, block.rules, block.starts, block.ends
        count += max(map(len, columns))
    return count


def spans_of_lines(grammar, data):
    """The same by an object for each line."""
    return sum(len(answer.rows) for answer in grammar.lines(io.BytesIO(data), "Record", show=FIELDS) if answer)


def print_records():
    """The table of the records of a log in the common format: the lines have neither a referrer nor an agent."""
    data, grammar = re.sub(rb' "-" "[^"\n]*"\n', b"\n", log_text(LOG_BYTES)), log_grammar()
    lines = data.count(b"\n")
    print(f"\n| {lines:,} lines of {len(data) / lines:.0f} bytes, with the spans of three rules | µs a line |")
    print("|---|---|")
    for name, call in (("`Grammar.line_arrays`", spans_of_arrays), ("`Grammar.lines`", spans_of_lines)):
        seconds, nodes = best(lambda: call(grammar, data))
        assert nodes == lines * (1 + len(FIELDS)), nodes
        print(f"| {name} | {seconds / lines * 10**6:.2f} |")


def main():
    data = json_text(BYTES)
    grammar = pegtool.Grammar.from_file(os.path.join(TOP, "examples", "json.peg"))
    seconds, match = best(lambda: grammar.parse(data))
    print(f"{len(data):,} bytes, {len(match.rows):,} nodes\n")
    print("| Parser | Seconds for each MB |")
    print("|---|---|")
    print(f"| pegtool | {seconds / (len(data) / 1e6):.3f} |")
    fewer = json_text(FEWER_BYTES)
    for name, call in others(grammar, fewer.decode("ascii")):
        print(f"| {name} | {best(call)[0] / (len(fewer) / 1e6):.2f} |")
    print("\n| All nodes of the match | Seconds |")
    print("|---|---|")
    line = match.to_json(rows=True)
    walks = {
        "`match.root.walk()`": lambda: sum(1 for _ in match.root.walk()),
        "the same, with `rule`, `start` and `end` of each": lambda: touch(match),
        "`list(match.rows)`": lambda: list(match.rows),
        "`json.loads` of the line of `pegtool parse --rows`": lambda: json.loads(line),
    }
    for name, call in walks.items():
        print(f"| {name} | {best(call)[0]:.2f} |")
    print_records()


if __name__ == "__main__":
    main()
