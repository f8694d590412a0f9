#!/usr/bin/env python3
"""Draws the crates that the program uses, from crates.txt, with what each of them turns into what. `tools/crates.py`
prints the drawing, `--write` puts it into docs/ARCHITECTURE.md, and `--check` compares it with the one there.

A crate is an `o`. The line below it leads down to its direct dependents: `+`, or `'` for the last one. `|` between
dashes is a line that only crosses. Transitive dependencies have no line."""
import os
import re
import sys

TOP = os.path.dirname(os.path.dirname(os.path.abspath(__file__)))
DOCUMENT = f"{TOP}/docs/ARCHITECTURE.md"
PLACE = re.compile(r"^```crates\n(.*?)^```$", re.M | re.S)

PURPOSE = {
    "peg_bytes": "lines and columns, spans, sets of bytes",
    "peg_tree": "trees as lists of nodes, outcomes",
    "peg_semantics": "Ford's definitions, no code",
    "peg_grammar": "definitions -> a grammar",
    "peg_metagrammar": "the notation as a grammar",
    "peg_lexer": "a grammar file -> tokens",
    "peg_bootstrap": "a tree of the notation -> definitions",
    "peg_notation": "tokens -> definitions",
    "peg_core": "a grammar -> core forms",
    "peg_check": "core forms -> table, checked grammar",
    "peg_code": "a checked grammar -> a program",
    "peg_runs": "Ford's records as runs of code, no code",
    "peg_shortcut": "a program, a byte -> a shortcut",
    "peg_nodes": "the nodes of a run, with links to stored results",
    "peg_memo": "the nodes of a run and the results of rules at positions",
    "peg_memo_policy": "a program -> a memo of the results that pay, as links",
    "peg_io": "files and streams -> bytes, and back",
    "peg_machine": "a program, a text -> outcome, tree, furthest failure",
    "peg_lint": "a grammar, its file -> warnings",
    "peg_parser": "a grammar file -> a parser or a refusal; a text -> an answer",
    "peg_diagnostics": "a grammar -> grammars that show blame and alternatives",
    "peg_blame": "a parser, a text -> the furthest failure outside predicates",
    "peg_spacing": "a grammar -> the rules that are spacing",
    "peg_messages": "a failure or a refusal -> a message",
    "peg_explain": "a parser, a text -> a message, or none",
    "peg_explain_files": "names of files -> messages, a verdict",
    "peg_explain_records": "names of texts -> the messages of their records, a verdict",
    "peg_test_files": "names of folders -> messages, counts, a verdict",
    "peg_lint_files": "the name of a grammar file -> messages of its warnings, a verdict",
    "peg_coverage": "a grammar, texts -> the rules and alternatives that they use",
    "peg_coverage_files": "names of texts -> what they use",
    "peg_profile": "a parser, a text -> the calls of each rule",
    "peg_listings": "code, a table, warnings -> JSON",
    "peg_json": "an answer or a refusal -> a line of JSON, a status",
    "peg_cli": "arguments -> a command",
    "peg_records": "a stream -> its records, such as the lines of a log",
    "peg_record_files": "names of texts -> the lines of their records, the worst outcome",
    "peg_replies": "a command, a grammar file, a text -> a line of JSON, a status",
    "peg_tool": "arguments, files by name -> output, a status",
    "pegtool": "the program",
}


def crates():
    """Each crate that the program uses, in the order of crates.txt, with the crates that it uses."""
    with open(f"{TOP}/crates.txt", encoding="utf-8") as file:
        pairs = (line.split(":") for line in file if ":" in line and not line.startswith("#"))
        used = {name: libraries.split() for name, libraries in pairs}
    found, coming = set(), ["pegtool"]
    while coming:
        name = coming.pop()
        if name in used and name not in found:
            found.add(name)
            coming.extend(used[name])
    return {name: {other for other in used[name] if other in used} for name in used if name in found}


def nearest(used):
    """The same without the crates that are used through another one, too."""
    below = {}
    for name, others in used.items():
        below[name] = others.union(*(below[other] for other in others))
    return {name: others - set().union(*(below[other] for other in others)) for name, others in used.items()}


def drawing():
    """The lines of the drawing."""
    used = nearest(crates())
    last = {other: name for name, others in used.items() for other in others}
    lanes, lines = [], []
    for name, others in used.items():
        ends = {other for other in others if last[other] == name}
        ways = [lane for lane, other in enumerate(lanes) if other in others]
        free = [lane for lane, other in enumerate(lanes) if other is None or other in ends] + [len(lanes)]
        own = free[0]
        row = [" " if other is None else "|" for other in lanes] + [" "] * (own + 1 - len(lanes))
        gaps = [" "] * len(row)
        for way in ways:
            for lane in range(min(way, own), max(way, own)):
                gaps[lane] = "-"
                row[lane] = "-" if row[lane] == " " else row[lane]
        for way in ways:
            row[way] = "'" if lanes[way] in ends else "+"
        row[own] = "o"
        lanes = [None if other in ends else other for other in lanes] + [None] * (own + 1 - len(lanes))
        lanes[own] = name if name in last else None
        lines.append(("".join(char + gap for char, gap in zip(row, gaps)).rstrip(), name))
    width = max(len(line) for line, _ in lines)
    longest = max(len(name) for _, name in lines)
    return "".join(f"{line:{width}}  {name:{longest}}  {PURPOSE[name]}\n" for line, name in lines)


def main(words):
    strangers = sorted(PURPOSE.keys() ^ crates().keys())
    if strangers:
        print(f"crates: the descriptions are of other crates than the program uses: {', '.join(strangers)}")
        return 1
    if words not in ([], ["--check"], ["--write"]):
        print("crates: the argument must be none, --check or --write")
        return 3
    with open(DOCUMENT, encoding="utf-8") as file:
        text = file.read()
    if not words:
        print(drawing(), end="")
    elif words == ["--write"]:
        with open(DOCUMENT, "w", encoding="utf-8") as file:
            file.write(PLACE.sub(lambda _: f"```crates\n{drawing()}```", text))
    else:
        same = PLACE.findall(text) == [drawing()]
        print(f"crates: {len(crates())} crates, {'the drawing is up to date' if same else 'the drawing is out of date'}")
        return 0 if same else 1
    return 0


sys.exit(main(sys.argv[1:]))
