#!/usr/bin/env python3
"""Runs the built program over each grammar of examples/ and its texts, and compares statuses and lines.

    tests/examples.py PROGRAM

A text whose name begins with `match` must match (status 0), and any other must fail (status 1). Each line must be JSON,
and a parse has the same line from files, from one joined input and without a memo. What needs no loop is in
tests/cases/examples."""
import concurrent.futures
import json
import os
import pathlib
import subprocess
import sys

EXAMPLES = pathlib.Path(__file__).resolve().parent.parent / "examples"


class Example:
    """A grammar of examples/ with the folder of its texts, and the faults that are found of it."""

    def __init__(self, program: str, grammar: pathlib.Path):
        self.program = program
        self.grammar = grammar
        self.texts = sorted(grammar.with_suffix("").iterdir()) if grammar.with_suffix("").is_dir() else []
        self.is_profiled = grammar.parent == EXAMPLES  # a recipe may need the memo, which a profile hasn't
        self.faults: list[str] = []
        self.runs = 0

    def line(self, wanted: int | None, *words: object, joined: bytes = b"") -> bytes:
        """The printed line of a run, after its status is compared. Without a wanted status it may be 0 or 1."""
        arguments = [str(word) for word in words]
        done = subprocess.run([self.program, *arguments], input=joined, capture_output=True, check=False)
        self.runs += 1
        name = " ".join(arguments) or f"joined input of {self.grammar}"
        if done.returncode not in ((0, 1) if wanted is None else (wanted,)) or done.stderr:
            self.faults.append(f"status {done.returncode} and not {wanted}: {name} {done.stderr.decode()}")
        try:
            json.loads(done.stdout)
        except ValueError:
            self.faults.append(f"no JSON: {name}")
        return done.stdout

    def expect(self, holds: bool, fault: str) -> None:
        """Notes a fault of the grammar unless a condition holds."""
        if not holds:
            self.faults.append(f"{fault}: {self.grammar}")

    def parse(self, text: pathlib.Path) -> None:
        """Parses a text from files, as one input and without a memo, and profiles it if it matches."""
        wanted = 0 if text.name.startswith("match") else 1
        parsed = self.line(wanted, "parse", self.grammar, text)
        joined = self.grammar.read_bytes() + b"%%\n" + text.read_bytes()
        self.expect(self.line(wanted, joined=joined) == parsed, f"another line of the joined input: {text.name}")
        self.expect(self.line(wanted, "parse", self.grammar, text, "--memo", 0) == parsed, f"by the memo: {text.name}")
        self.line(wanted, "parse", self.grammar, text, "--all")
        self.line(wanted, "parse", self.grammar, text, "--rows")
        if wanted == 0 and self.is_profiled:
            profile = self.line(0, "profile", self.grammar, text)
            self.expect(profile.split(b",")[0] == parsed.split(b",")[0], f"another end of the profile: {text.name}")

    def check(self) -> "Example":
        """Runs each command on the grammar and on its texts."""
        for command in ("table", "check", "code"):
            self.line(0, command, self.grammar)
        has_mistakes = self.grammar.name == "mistakes.peg"
        warnings = self.line(int(has_mistakes), "lint", self.grammar)
        self.expect((warnings == b'{"warnings":[]}\n') != has_mistakes, "not the warnings that are wanted")
        for text in self.texts:
            self.parse(text)
        if self.is_profiled:
            matching = sum(text.name.startswith("match") for text in self.texts)
            line = self.line(None, "profile", self.grammar, "--coverage", *self.texts)
            self.expect(line.startswith(b'{"matched":%d,' % matching), f"not {matching} matches of the coverage")
        return self


def main() -> int:
    program = os.path.realpath(sys.argv[1])
    grammars = sorted(EXAMPLES.glob("**/*.peg"))
    with concurrent.futures.ThreadPoolExecutor(os.cpu_count()) as pool:
        examples = list(pool.map(lambda grammar: Example(program, grammar).check(), grammars))
    for fault in (fault for example in examples for fault in example.faults):
        print(fault)
    faults = sum(len(example.faults) for example in examples)
    print(f"examples: {sum(example.runs for example in examples)} runs of {len(grammars)} grammars, {faults} faults")
    return 1 if faults or not grammars else 0


if __name__ == "__main__":
    sys.exit(main())
