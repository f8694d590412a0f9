#!/usr/bin/env python3
"""Runs the cases of tests/cases and the commands that the documents show, and compares what they print.

    tests/cases.py PROGRAM [FILE..]

PROGRAM is the built `pegtool`. Without files, all case files and documents run, several at a time.

A case file has the form that the tool cram reads. Lines without indentation are text: a sentence above each case says
why the answer is right. An indented line `  $ COMMAND` is a command for bash, and `  > MORE` goes on with it. The
indented lines below it are its whole output, standard error included. A last line `  [N]` is an exit status other than
0. A last line that ends with ` (no-eol)` has no line end. In README.md and docs/*.md a command is in a block indented by
four spaces, and its output ends at an empty line; a status is compared only if it is shown.

The commands of a file run in one new folder, with the program as `pegtool` in PATH, the examples in `examples`, no
standard input and `LC_ALL=C.UTF-8`. Output is compared byte for byte. Nothing here writes expected output."""
import argparse
import collections
import concurrent.futures
import dataclasses
import difflib
import os
import pathlib
import re
import shutil
import subprocess
import sys
import tempfile

TOP = pathlib.Path(__file__).resolve().parent.parent
SECONDS = 120  # for each command
TOOLS = ("jq", "parallel")  # a command that needs one that isn't here is skipped
STATUS = re.compile(r"\[(\d+)\]")
NO_END = " (no-eol)"
COMMAND = re.compile(r"\s*\$ ")


class Malformed(Exception):
    """A case file that isn't of the form."""


@dataclasses.dataclass
class Case:
    """A command with the number of its line, the sentence above it, the output that is wanted and the status. A status
    of None isn't compared."""

    line: int
    sentence: str
    command: str
    output: list[str]
    status: int | None = 0

    def take_status(self) -> None:
        """Takes a last line `[N]` of the output as the status."""
        if self.output and (found := STATUS.fullmatch(self.output[-1])):
            self.output.pop()
            self.status = int(found[1])

    def wanted(self) -> str:
        """The whole output."""
        text = "".join(f"{line}\n" for line in self.output)
        return text.removesuffix(NO_END + "\n") if text.endswith(NO_END + "\n") else text


def read_cases(text: str) -> list[Case]:
    """The cases of a case file."""
    cases: list[Case] = []
    sentence: list[str] = []
    is_open = False  # the last line belongs to a case
    for number, line in enumerate(text.split("\n"), 1):
        if not line.strip():
            is_open = is_open and line.startswith("  ")
            if is_open:
                cases[-1].output.append(line[2:])
        elif not line.startswith(" "):
            sentence = [line] if is_open or not sentence or cases and cases[-1].sentence == " ".join(sentence) \
                else [*sentence, line]
            is_open = False
        elif line.startswith("  $ "):
            if not sentence:
                raise Malformed(f"{number}: no sentence above the case")
            cases.append(Case(number, " ".join(sentence), line[4:], []))
            is_open = True
        elif not line.startswith("  ") or not is_open:
            raise Malformed(f"{number}: neither text, command nor output: {line}")
        elif line.startswith("  > ") and not cases[-1].output:
            cases[-1].command += "\n" + line[4:]
        else:
            cases[-1].output.append(line[2:])
    for case in cases:
        case.take_status()
    return cases


def read_document(text: str) -> list[Case]:
    """The cases of a document."""
    cases: list[Case] = []
    is_open = False
    for number, line in enumerate(text.split("\n"), 1):
        if line.startswith("    $ "):
            cases.append(Case(number, "document", line[6:], [], None))
            is_open = True
        elif line.startswith("    ") and is_open:
            cases[-1].output.append(line[4:])
        else:
            is_open = False
    for case in cases:
        case.take_status()
    return cases


def run(case: Case, folder: str, environment: dict[str, str]) -> list[str]:
    """The lines that report what is wrong with a case; none if it passes."""
    try:
        done = subprocess.run(["bash", "-c", case.command], cwd=folder, env=environment, stdin=subprocess.DEVNULL,
                              stdout=subprocess.PIPE, stderr=subprocess.STDOUT, timeout=SECONDS, check=False)
    except subprocess.TimeoutExpired:
        return [f"not ended after {SECONDS} seconds"]
    faults = []
    printed = done.stdout.decode("utf-8", "backslashreplace")
    wanted = case.wanted()
    if printed != wanted:
        lines = difflib.unified_diff(wanted.splitlines(), printed.splitlines(), "wanted", "printed", lineterm="", n=2)
        faults += lines or ["wanted"]
        if printed.endswith("\n") != wanted.endswith("\n"):
            faults.append("only one of the two ends with a line end")
    if case.status is not None and done.returncode != case.status:
        faults.append(f"status {done.returncode} and not {case.status}")
    return faults


@dataclasses.dataclass
class Result:
    """What the run of a file found."""

    ran: int = 0
    # How many commands were skipped for each tool that isn't here.
    skipped: collections.Counter[str] = dataclasses.field(default_factory=collections.Counter)
    faults: list[str] = dataclasses.field(default_factory=list)


def run_file(path: pathlib.Path, program: str) -> Result:
    """Runs the cases of a file, one after the other, in a new folder."""
    name = os.path.relpath(path, TOP)
    result = Result()
    try:
        text = path.read_text(encoding="utf-8")
        cases = read_document(text) if path.suffix == ".md" else read_cases(text)
    except (Malformed, UnicodeDecodeError) as fault:
        result.faults.append(f"{name}:{fault}")
        return result
    if path.suffix != ".md" and not cases:
        result.faults.append(f"{name}: no case")
    with tempfile.TemporaryDirectory() as folder, tempfile.TemporaryDirectory() as links:
        os.symlink(program, f"{links}/pegtool")
        os.symlink(TOP / "examples", f"{folder}/examples")
        environment = {**os.environ, "PATH": f"{links}:{os.environ['PATH']}", "LC_ALL": "C.UTF-8", "TOP": str(TOP)}
        for case in cases:
            if tool := missing_tool(case.command):
                result.skipped[tool] += 1
                continue
            result.ran += 1
            if found := run(case, folder, environment):
                result.faults.append("\n".join([f"{name}:{case.line}: {case.command}", *(f"    {line}" for line in found)]))
    lines = sum(bool(COMMAND.match(line)) for line in text.split("\n"))
    cases_met = result.ran + result.skipped.total()
    if path.suffix != ".md" and cases_met != lines:
        result.faults.append(f"{name}: {lines} commands, but {cases_met} cases")
    return result


def missing_tool(command: str) -> str | None:
    """A tool that a command needs and that isn't here."""
    words = set(re.findall(r"\w+", command))
    return next((tool for tool in TOOLS if tool in words and not shutil.which(tool)), None)


def all_files() -> list[pathlib.Path]:
    """The case files and the documents."""
    return [*sorted((TOP / "tests/cases").rglob("*.t")), TOP / "README.md", *sorted((TOP / "docs").glob("*.md"))]


def main() -> int:
    parser = argparse.ArgumentParser(description="Runs case files and documents.")
    parser.add_argument("program", help="the built pegtool")
    parser.add_argument("files", nargs="*", type=pathlib.Path, help="case files or documents; all, if none is named")
    options = parser.parse_args()
    program = os.path.realpath(options.program)
    files = [path.resolve() for path in options.files] or all_files()
    with concurrent.futures.ThreadPoolExecutor(os.cpu_count()) as pool:
        results = list(pool.map(lambda path: run_file(path, program), files))
    for fault in (fault for result in results for fault in result.faults):
        print(fault)
    ran = sum(result.ran for result in results)
    skipped = sum((result.skipped for result in results), collections.Counter())
    faults = sum(len(result.faults) for result in results)
    for tool, count in sorted(skipped.items()):
        print(f"SKIPPED: {count} commands need {tool}")
    print(f"cases: {ran} commands of {len(files)} files, {skipped.total()} skipped, {faults} faults")
    return 1 if faults or not ran else 0


if __name__ == "__main__":
    sys.exit(main())
