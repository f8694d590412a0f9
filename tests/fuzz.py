#!/usr/bin/env python3
"""Compares whole lines of `check`, `table` and `parse` with those that reference.py computes from Ford's definitions.

    tests/fuzz.py PROGRAM SEED COUNT   random grammar files with texts, the same for the same seed
    tests/fuzz.py PROGRAM --examples   each grammar of examples/ with each of its texts

Prints each difference with its input, and counts. A text is parsed with several capacities of the memo."""
import concurrent.futures
import dataclasses
import os
import pathlib
import random
import subprocess
import sys
import tempfile
import threading

from reference import Grammar, Parse, Refused, check_line, parse_line, table_line

EXAMPLES = pathlib.Path(__file__).resolve().parent.parent / "examples"
MEMOS = [0, 1, 2, 7, 4096]
STEPS = 1_000_000  # a run that takes more is skipped
NAMES = ["S A B C D E F G H".split(), "a aa a_ aA _ __ a1 a10 aaa".split(),
         "Start Statement_1 Statement_2 Expression Expressions _9 Z z Name0123456789abcdefghijklmnopqrstuvwxyz".split()]
LITERALS = ["'a'", '"b"', "'ab'", "'abc'", "''", '""', r"'\x61'", r"'\141'", r"'\n'", r"'\377'", "'c'", r"'\''", "'a b'"]
CLASSES = ["[a]", "[a-c]", "[^a]", "[]", "[z-a]", r"[\]a]", r"[\x61-\x63]", "[-a]", "[a-b0]", r"[\n\t]", "[b]", "."]
COUNTS = ["{1}", "{2}", "{3}", "{0,1}", "{0,2}", "{1,2}", "{2,4}", "{0,5}", "{02}", "{00,001}", "{3,3}"]
BAD_COUNTS = ["{0}", "{00,0}", "{2,1}", "{256}", "{0,999}", "{1,18446744073709551617}"]
SPACES = [" ", " ", " ", "", "\n", "\t", "\r\n", "\r", "# a comment\n", "  "]


class Writer:
    """Writes a random grammar file. A call is mostly of a later rule, since a call of an earlier one may be a left
    cycle."""

    def __init__(self, chance: random.Random) -> None:
        self.chance = chance
        self.names = chance.choice(NAMES)
        self.count = chance.randint(1, 6)
        self.rule = 0

    def one_in(self, count: int) -> bool:
        return self.chance.randrange(count) == 0

    def space(self) -> str:
        return self.chance.choice(SPACES) if self.one_in(3) else ""

    def called(self) -> str:
        if self.one_in(200):
            return self.chance.choice(self.names)
        later = self.count - self.rule - 1
        if not later or self.one_in(4):
            return self.names[self.chance.randrange(self.count)]
        return self.names[self.rule + 1 + self.chance.randrange(later)]

    def terminal(self) -> str:
        return self.chance.choice(LITERALS if self.one_in(2) else CLASSES)

    def primary(self, levels: int) -> str:
        kind = self.chance.randrange(6)
        if kind < 3 or kind == 5 and not levels:
            return self.terminal()
        if kind < 5:
            return self.called() + " "
        return f"({self.space()}{self.choice(levels - 1)}){self.space()}"

    def item(self, levels: int) -> str:
        prefix = self.chance.choice("&!") + self.space() if self.one_in(8) else ""
        suffix = ""
        if self.one_in(3):
            suffix = self.chance.choice([*"?*+", self.chance.choice(BAD_COUNTS if self.one_in(80) else COUNTS)])
        return f"{prefix}{self.primary(levels)}{suffix}{self.space()}"

    def sequence(self, levels: int) -> str:
        first = self.chance.choice(["'a'", "[a-c]", "'b'", "."]) if self.one_in(3) else ""
        count = self.chance.choice([0, 1, 1, 1, 1, 2, 2, 2, 2, 3, 3])
        return first + "".join(self.item(levels) for _ in range(count))

    def choice(self, levels: int) -> str:
        return "/".join(self.sequence(levels) + self.space() for _ in range(self.chance.choice([1, 1, 1, 2, 2, 3])))

    def file(self) -> bytes:
        rules = []
        for self.rule in range(self.count):
            rules.append(f"{self.names[self.rule]}{self.space()}<-{self.space()}{self.choice(3)}")
        if self.one_in(100):
            rules.append(f"{self.names[0]} <- 'a'")
        return (self.space() + "\n".join(rules) + "\n").encode()


def broken(chance: random.Random, content: bytes) -> bytes:
    """The content with a few bytes removed, inserted or exchanged."""
    found = bytearray(content)
    for _ in range(chance.randint(1, 3)):
        at = chance.randint(0, len(found))
        match chance.randrange(3):
            case 0:
                del found[at : at + 1]
            case 1:
                found.insert(at, chance.choice(b"aabbcc\n0'\"[](){}<-!&/\\#\x00\xff"))
            case _ if found:
                found[at % len(found)] = chance.choice(b"abc\n0'[(<#\\\xff")
    return bytes(found)


def random_text(chance: random.Random, grammar: Grammar) -> bytes:
    """A text that the grammar is likely to match: a walk over its expressions."""
    text = bytearray()
    left = 400

    def walk(expr, levels) -> None:
        nonlocal left
        left -= 1
        if left <= 0 or levels == 0 or len(text) >= 40:
            return
        match expr.kind:
            case "literal":
                text.extend(expr.value)
            case "class" | "any":
                allowed = sorted(expr.value) if expr.kind == "class" else range(256)
                likely = [byte for byte in b"abc" if byte in allowed]
                if allowed:
                    text.append(chance.choice(likely or allowed))
            case "name":
                walk(grammar.rules[expr.value], levels - 1)
            case "choice":
                walk(chance.choice(expr.parts), levels)
            case "not":
                pass
            case "sequence" | "and":
                for part in expr.parts:
                    walk(part, levels)
            case _:
                for _ in range(chance.randint(1, 3)):
                    walk(expr.parts[0], levels)

    walk(grammar.rules[grammar.names[0]], 24)
    if chance.randrange(12) == 0 and text:
        at = chance.randrange(len(text))
        text[at:at] = bytes([text[at]]) * chance.randint(1, 80)
    return bytes(text)


@dataclasses.dataclass
class Counts:
    """What was compared."""

    cases: int = 0
    refused: int = 0
    runs: int = 0
    skipped: int = 0
    differences: int = 0

    def add(self, other: "Counts") -> None:
        for field in dataclasses.fields(self):
            setattr(self, field.name, getattr(self, field.name) + getattr(other, field.name))


class Case:
    """A grammar file and texts, whose lines are compared with the program's."""

    def __init__(self, program: str, folder: str, label: str, file: bytes) -> None:
        self.program, self.folder, self.label, self.file = program, folder, label, file
        self.counts = Counts(cases=1)
        self.grammar_path = f"{folder}/{label}.peg"
        self.text_path = f"{folder}/{label}.text"
        pathlib.Path(self.grammar_path).write_bytes(file)

    def run(self, *arguments: str) -> tuple[str, int]:
        done = subprocess.run([self.program, *arguments], stdin=subprocess.DEVNULL, stdout=subprocess.PIPE,
                              stderr=subprocess.DEVNULL, check=False)
        self.counts.runs += 1
        return done.stdout.decode("utf-8", "backslashreplace"), done.returncode

    def compare(self, wanted: tuple[str, int], text: bytes, *arguments: str) -> None:
        """Runs the program, and prints the case if the line or the status isn't as wanted."""
        printed = self.run(*arguments)
        if printed == wanted:
            return
        if printed == ('{"refusal":"StepLimit"}\n', 6):
            self.counts.skipped += 1
            return
        self.counts.differences += 1
        print(f"{self.label}: {' '.join(arguments)}\n  file {self.file!r}\n  text {text!r}\n  wanted {wanted}\n"
              f"  printed {printed}")

    def judge(self) -> Grammar | None:
        """Compares `check`, `table` and, of a refused file, `parse`. Returns the grammar if it is accepted."""
        wanted = check_line(self.file)
        self.compare(wanted, b"", "check", self.grammar_path)
        self.compare(table_line(self.file), b"", "table", self.grammar_path)
        if wanted[1]:
            self.counts.refused += 1
            self.compare(wanted, b"", "parse", self.grammar_path, "/dev/null")
            return None
        return Grammar(self.file)

    def text(self, chance: random.Random, grammar: Grammar, text: bytes) -> None:
        """Compares the parses of a text, one for each capacity of the memo, with random rules shown or hidden."""
        pathlib.Path(self.text_path).write_bytes(text)
        answer = Parse(grammar, text).answer(grammar.names[0])
        for memo in MEMOS:
            is_whole, form = chance.random() < 0.5, chance.choice(["--rows", "--rows", "", "", "--no-tree"])
            listed = [name for name in grammar.names if chance.random() < 0.5]
            shown, lists = None, []
            if listed and chance.random() < 0.6:
                is_hidden = chance.random() < 0.5
                shown = set(grammar.names) - set(listed) if is_hidden else set(listed)
                lists = ["--hide" if is_hidden else "--show", ",".join(listed)]
            options = [form] * bool(form) + ["--all"] * is_whole + lists
            self.compare(parse_line(answer, text, form, is_whole, shown), text, "parse", self.grammar_path,
                         self.text_path, "--memo", str(memo), "--steps", str(STEPS), *options)


def run_random(program: str, folder: str, seed: int, number: int) -> Counts:
    """The case of a seed with a number: a random file, and two texts if it is accepted."""
    chance = random.Random(f"{seed} {number}")
    file = Writer(chance).file()
    if chance.randrange(10) == 0:
        file = broken(chance, file)
    case = Case(program, folder, f"{seed}-{number}", file)
    grammar = case.judge()
    if grammar:
        case.text(chance, grammar, random_text(chance, grammar))
        case.text(chance, grammar, broken(chance, random_text(chance, grammar)))
    return case.counts


def run_example(program: str, folder: str, grammar_path: pathlib.Path, text_path: pathlib.Path) -> Counts:
    """The case of an example: a grammar and one of its texts."""
    label = f"{grammar_path.stem}-{text_path.stem}"
    case = Case(program, folder, label, grammar_path.read_bytes())
    grammar = case.judge()
    if grammar:
        case.text(random.Random(label), grammar, text_path.read_bytes())
    return case.counts


def tasks(program: str, folder: str, arguments: list[str]):
    """The cases to run, as functions without arguments."""
    if arguments == ["--examples"]:
        for grammar in sorted(EXAMPLES.rglob("*.peg")):
            for text in sorted(grammar.with_suffix("").glob("*")):
                if text.is_file():
                    yield lambda grammar=grammar, text=text: run_example(program, folder, grammar, text)
        return
    seed, count = map(int, arguments)
    for number in range(count):
        yield lambda number=number: run_random(program, folder, seed, number)


def guarded(task) -> Counts:
    """The counts of a case. A reference that recurses too deeply skips it."""
    try:
        return task()
    except RecursionError:
        return Counts(cases=1, skipped=1)


def main() -> int:
    if len(sys.argv) < 3:
        print(__doc__)
        return 2
    program = os.path.realpath(sys.argv[1])
    total = Counts()
    with tempfile.TemporaryDirectory() as folder:
        with concurrent.futures.ThreadPoolExecutor(os.cpu_count()) as pool:
            for counts in pool.map(guarded, tasks(program, folder, sys.argv[2:])):
                total.add(counts)
    print(f"fuzz: {total.cases} grammars, {total.refused} refused, {total.runs} runs, {total.skipped} skipped, "
          f"{total.differences} differences")
    return 1 if total.differences or not total.runs else 0


if __name__ == "__main__":
    sys.setrecursionlimit(60_000)
    threading.stack_size(512 * 1024 * 1024)
    sys.exit(main())
