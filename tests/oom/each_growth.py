#!/usr/bin/env python3
"""Fails each allocation of runs of the built program in turn. Each run must end with status 5, print nothing and report
`pegtool: out of memory` on standard error, or print the same line with the same status as with enough memory. A run of
`explain` with status 5 may have printed the whole messages of its first texts, and one of `parse --lines` the lines of
its first records. The argument is the program, by default the one that `make run` builds. Needs a C compiler for the
library that fails allocations. tests/oom/README.md lists the calls that these runs reach."""
import concurrent.futures
import os
import pathlib
import re
import sys
import tempfile

from refusing import build_library, refused_runs, run

TOP = pathlib.Path(__file__).resolve().parent.parent.parent
OUT_OF_MEMORY = b"pegtool: out of memory\n"

# Without a memo each level of a nested text doubles the steps: a refused growth of the memo costs a result, and never
# the rest of the memo.
PREFIX = b"A <- '(' A ')' 'x' / '(' A ')' 'y' / 'a'\n"
# 17,788 bytes of text: there is a table of shortcuts, and each is met often enough to be found. Long words are few
# results to keep.
LIST = b"S <- I (',' I)*\nI <- '(' S? ')' / N / W\nN <- [0-9]+\nW <- [a-z]+\n"
LIST_TEXT = (b"first" * 20 + b",(22,()," + b"third" * 20 + b")," + b"4444" * 9 + b",") * 72 + b"last"

FILES = {
    "chain.peg": b"S <- 'a' S / 'b'\n",
    "chain.txt": b"aab",
    "counts.peg": b"D <- &(A !'b') 'a'* B !.\nA <- 'a' A 'b' / ''\nB <- 'b' B 'c' / ''\n",
    "counts.txt": b"aabbcc",
    "byte.peg": b"B <- .\n",
    "byte.txt": b"\xff",
    "repeats.peg": b"D <- N ('/' N){1,2} !.\nN <- [0-9]{1,3} ''{2}\n",
    "repeats.txt": b"24/12",
    "cycle.peg": b"A <- B 'x'\nB <- 'y'? A\n",
    "loop.peg": b"A <- ('a'*)*\n",
    "plus.peg": b"A <- ('')+\n",
    "star.peg": b"A <- (('')?)*\n",
    "warned.peg": b"S <- 'a' / 'ab' / T* / 'c'\nT <- 'x'+ 'x' / 'y' / 'y'\nU <- (T / 'z')?\n",
    "habits.peg": b"S <- [^a] [z-a] [\\]] 'b*' T\nT <- [+-*/] / 'x' 'y'?\n",
    "twice.peg": b"A <- B\nA <- 'x'\n",
    "missing.peg": b"A <- B\n",
    "open.peg": b"A <- [a-]\n",
    "escape.peg": b"A <- '\\q'\n",
    "count.peg": b"A <- 'x'{0}\n",
    "unclosed.peg": b"A <- ('x'\n",
    "none.peg": b"",
    "prefix.peg": PREFIX,
    "prefix.txt": b"(a)y",
    "deep.txt": b"(" * 30 + b"a" + b")y" * 30,
    "list.peg": LIST,
    "list.txt": LIST_TEXT,
    "nested.peg": b"A <- " + b"(" * 201 + b"'a'" + b")" * 201 + b"\n",
    "large.peg": b"A <- " + b"(" * 24 + b"'a'+" + b")+" * 24 + b"\n",
    "long.peg": b" " * 1_048_577,
    "levels.txt": b"a" * 70 + b"b",
    "words.peg": b"Query <- 'SELECT ' Name ' FROM ' Name\nName <- !Word [a-z]+ / !Word [A-Z]+\nWord <- 'FROM' ![A-Z]\n",
    "words.txt": b"SELECT FROM b",
    "empty.txt": b"",
    "records.txt": b"aab\n\nab\r\n" + b"a" * 70 + b"b\naab",
}
REFUSED = ["cycle", "loop", "plus", "star", "twice", "missing", "open", "escape", "count", "unclosed", "none", "nested",
           "large", "long"]

# The arguments of each run. A word that ends with .peg or .txt is a file. NAMES stands for a list of texts, and TEXTS for a
# folder with two texts.
COMMANDS = [
    "parse chain.peg chain.txt",
    "parse chain.peg chain.txt --rows",
    "parse counts.peg counts.txt",
    "parse counts.peg chain.txt",
    "parse repeats.peg repeats.txt",
    "parse prefix.peg prefix.txt --all",
    "parse prefix.peg deep.txt --rows --memo 1",
    "parse prefix.peg deep.txt --rows --memo 4096",
    "parse prefix.peg deep.txt --no-tree",
    "parse prefix.peg deep.txt --steps 100",
    "parse list.peg list.txt --rows --all --memo 0",
    "parse list.peg list.txt --rows --all",
    "parse chain.peg levels.txt",
    "parse counts.peg counts.txt --show A --rows",
    "parse counts.peg counts.txt --show A,B",
    "parse counts.peg counts.txt --hide A,B",
    "parse counts.peg counts.txt --show A,C",
    "parse counts.peg counts.txt --text",
    "parse counts.peg counts.txt --text --rows --show B",
    "parse byte.peg byte.txt --text",
    "parse byte.peg byte.txt --text --rows",
    "parse chain.peg chain.txt --start T",
    "parse repeats.peg repeats.txt --start N",
    "parse cycle.peg chain.txt",
    "parse chain.peg --lines records.txt chain.txt records.txt",
    "parse chain.peg --lines records.txt --crlf --rows --failed --all",
    "parse chain.peg --lines records.txt --null --show S --text",
    "parse chain.peg --lines records.txt --start T",
    "parse cycle.peg --lines",
    *(f"check {name}.peg" for name in ["chain", "counts", "repeats", *REFUSED]),
    *(f"{command} {name}.peg" for command in ["code", "table"] for name in ["chain", "counts", "repeats", "open", "missing"]),
    *(f"lint {name}.peg" for name in ["chain", "warned", "habits", "open", "cycle"]),
    "lint warned.peg --start T",
    "lint warned.peg --start V",
    "lint habits.peg --proved",
    *(f"lint {name}.peg --human" for name in ["chain", "warned", "habits", "open", "cycle", "missing"]),
    "lint warned.peg --human --start V",
    *(f"explain {name}.peg" for name in ["chain", *REFUSED]),
    "explain counts.peg counts.txt chain.txt",
    "explain counts.peg chain.txt --rules",
    "explain counts.peg chain.txt --terminals",
    "explain chain.peg missing.name --files-from NAMES",
    "explain chain.peg repeats.txt counts.txt --files-from NAMES",
    "explain chain.peg --start T",
    "explain chain.peg repeats.txt --quiet",
    "explain prefix.peg deep.txt --steps 100",
    "explain words.peg words.txt empty.txt --rules",
    "explain byte.peg empty.txt byte.txt",
    "test chain.peg TEXTS",
    "test missing.peg TEXTS",
    "test chain.peg TEXTS --start T",
    "profile chain.peg chain.txt",
    "profile counts.peg chain.txt",
    "profile chain.peg chain.txt --start T",
    "profile prefix.peg deep.txt --steps 100",
    "profile counts.peg --coverage counts.txt chain.txt",
    "profile warned.peg --coverage chain.txt prefix.txt",
    "profile chain.peg --coverage chain.txt",
    "profile prefix.peg --coverage deep.txt --steps 100",
    "profile cycle.peg --coverage chain.txt",
    "profile chain.peg --coverage --lines records.txt chain.txt records.txt",
    "profile chain.peg --coverage --lines records.txt --crlf --steps 40 --memo 0",
    "profile chain.peg --coverage --lines records.txt --start T",
    "profile cycle.peg --coverage --lines",
    "--help",
    "parse --help",
    "tables",
    "parse chain.peg",
]


class Case:
    """A run of the program with its arguments."""

    def __init__(self, folder: str, number: int, label: str, stdin: bytes = b"") -> None:
        self.label, self.stdin = label or "no arguments", stdin
        self.met = f"{folder}/met-{number}"
        names = {**{name: f"{folder}/{name}" for name in FILES}, "NAMES": f"{folder}/names", "TEXTS": f"{folder}/texts"}
        self.arguments = [names.get(word, word) for word in label.split()]

    def may_print(self, printed: bytes, wanted: bytes) -> bool:
        """Whether a run that is out of memory may print this: nothing, for `explain` the messages of the first texts,
        and for `parse --lines` the lines of the first records. A message of `explain` ends with the line of its caret."""
        last_line = rb"^ *\^\n" if self.label.startswith("explain") else rb"^.*\n"
        ends = [end.end() for end in re.finditer(last_line, wanted, re.MULTILINE)]
        prints_records = self.label.startswith("parse") and "--lines" in self.label
        is_early = self.label.startswith("explain") or prints_records
        return printed == b"" or (is_early and printed in [wanted[:end] for end in ends])

    def judge(self, program: str, library: str) -> list[str]:
        """Fails each allocation in turn. Returns what is wrong, and a last line with the number of allocations."""
        wanted = run([program, *self.arguments], self.stdin)
        reports, count = [], 0
        for number, got in refused_runs(library, self.met, [program, *self.arguments], self.stdin):
            count = max(count, number)
            is_reported = (number > 0 and (got.status, got.messages) == (5, OUT_OF_MEMORY)
                           and self.may_print(got.output, wanted.output))
            if not is_reported and (got.status, got.output) != (wanted.status, wanted.output):
                reports.append(f"{self.label}, allocation {number}: WRONG, status {got.status}: {got.output[:200]!r}")
        return [*reports, f"{self.label}: {count} allocations"]


def main() -> int:
    program = os.path.realpath(sys.argv[1] if len(sys.argv) > 1 else TOP / "crates/pegtool/out/pegtool")
    with tempfile.TemporaryDirectory() as folder:
        library = build_library(folder)
        for name, content in FILES.items():
            pathlib.Path(folder, name).write_bytes(content)
        pathlib.Path(folder, "names").write_text(f"{folder}/chain.txt\n{folder}/repeats.txt\n", encoding="utf-8")
        pathlib.Path(folder, "texts").mkdir()
        pathlib.Path(folder, "texts/match_a").write_bytes(b"aab")
        pathlib.Path(folder, "texts/no_match_b").write_bytes(b"b")
        stored = (TOP / "crates/pegtool/stdin").read_bytes()
        cases = [Case(folder, 0, "", stored), *(Case(folder, at, label) for at, label in enumerate(COMMANDS, 1))]
        with concurrent.futures.ThreadPoolExecutor(os.cpu_count()) as pool:
            reports = list(pool.map(lambda case: case.judge(program, library), cases))
    for line in (line for lines in reports for line in lines):
        print(line)
    faults = sum(len(lines) - 1 for lines in reports)
    print(f"failed allocations: {len(cases)} command lines, {faults} faults")
    return 1 if faults else 0


if __name__ == "__main__":
    sys.exit(main())
