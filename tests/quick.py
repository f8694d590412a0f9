#!/usr/bin/env python3
"""Runs several hundred cases of tests/cases on the program without proofs, by `rt try`, which builds the program once.

    tests/quick.py [COUNT]

A case is taken if it needs one file: `pegtool` with a grammar and a text on standard input, a command on a grammar
alone, or `pegtool parse GRAMMAR TEXT` without options, which is then run as the former. Of these, COUNT are taken,
evenly from all files. The cases of tests/cases that need more are run by `tests/cases.py` on a built program."""
import dataclasses
import os
import pathlib
import re
import shlex
import subprocess
import sys
import tempfile

from cases import TOP, Case, read_cases

COUNT = 270
MOST_BYTES = 100_000  # of a file
SEPARATOR = b"%%\n"
ON_GRAMMAR = {"check", "table", "code", "lint"}
SHELL = re.compile(r"[|<>;&$`\n]|\bcd\b")
WRITES = re.compile(r">(?! ?/dev/null|&)")
LINE = re.compile(r"^case=(\d+) run=\w+ (?:status=(\d+) )?.*\boutput=(\w+)")


@dataclasses.dataclass
class Quick:
    """A case for `rt try`: standard input, the arguments, and the case that it is taken from with its file."""

    stdin: bytes
    arguments: list[str]
    case: Case
    file: pathlib.Path


def shell(command: str, folder: str) -> bytes | None:
    """The output of a command that doesn't need the program; None if it reports something."""
    done = subprocess.run(["bash", "-c", command], cwd=folder, stdin=subprocess.DEVNULL, capture_output=True, timeout=60,
                          check=False)
    return None if done.stderr else done.stdout


def small(path: pathlib.Path) -> bytes:
    """The content of a small file. Raises OSError for any other."""
    if not path.is_file() or path.stat().st_size > MOST_BYTES:
        raise OSError
    return path.read_bytes()


def of_words(words: list[str], folder: str) -> tuple[bytes, list[str]] | None:
    """The standard input and the arguments that stand for a command on files of a folder. Messages for people have the
    name of the file, which is another one here."""
    if "--human" in words:
        return None
    try:
        contents = [small(pathlib.Path(folder, word)) for word in words[1:3]]
    except OSError:
        return None
    if words[0] in ON_GRAMMAR and contents:
        return contents[0], [words[0], "{}", *words[2:]]
    if words[0] == "parse" and len(words) == 3:
        grammar, text = contents
        if grammar.endswith(b"\n") and SEPARATOR not in grammar:
            return grammar + SEPARATOR + text, []
    return None


def quick_case(case: Case, folder: str) -> tuple[bytes, list[str]] | None:
    """The standard input and the arguments of a case, if it needs one file."""
    before, sign, last = case.command.rpartition("pegtool")
    if not sign or SHELL.search(last) or "pegtool" in before:
        return None
    try:
        words = shlex.split(last)
    except ValueError:  # quotes that `before` opens
        return None
    if not before and words:
        return of_words(words, folder)
    if not before.rstrip().endswith("|"):
        return None
    stdin = shell(before.rstrip()[:-1], folder)
    if stdin is None:
        return None
    if words and words[0] in ON_GRAMMAR and words[1:2] == ["/dev/stdin"]:
        return stdin, [words[0], "{}", *words[2:]]
    return None if words else (stdin, [])


def quick_cases(path: pathlib.Path) -> list[Quick]:
    """The cases of a file that need one file. Its other commands without the program are run, since they write files."""
    found = []
    with tempfile.TemporaryDirectory() as folder:
        os.symlink(TOP / "examples", f"{folder}/examples")
        for case in read_cases(path.read_text(encoding="utf-8")):
            if "pegtool" not in case.command:
                shell(case.command, folder)
            elif taken := quick_case(case, folder):
                if not case.wanted().startswith(("pegtool: ", "error: ")):
                    found.append(Quick(*taken, case, path))
            elif WRITES.search(case.command):
                break  # the cases below may need what this command writes
    return found


def write(quick: Quick, folder: str, name: str) -> None:
    """Writes a case in the form of `rt try --cases`."""
    pathlib.Path(folder, name).write_bytes(quick.stdin)
    pathlib.Path(folder, f"{name}.stdout").write_text(quick.case.wanted(), encoding="utf-8")
    if quick.arguments:
        pathlib.Path(folder, f"{name}.args").write_text("".join(f"{word}\n" for word in quick.arguments),
                                                        encoding="utf-8")


def main() -> int:
    count = int(sys.argv[1]) if len(sys.argv) > 1 else COUNT
    every = [quick for path in sorted((TOP / "tests/cases").rglob("*.t")) for quick in quick_cases(path)]
    taken = [every[at * len(every) // count] for at in range(count)] if len(every) > count else every
    with tempfile.TemporaryDirectory() as folder:
        for number, quick in enumerate(taken):
            write(quick, folder, str(number))
        done = subprocess.run(["rt", "try", "--cases", folder], cwd=TOP / "crates/pegtool", stdin=subprocess.DEVNULL,
                              stdout=subprocess.PIPE, stderr=subprocess.STDOUT, text=True, errors="replace", check=False)
    ended = {int(found[1]): found for line in done.stdout.split("\n") if (found := LINE.match(line))}
    faults = 0
    for number, quick in enumerate(taken):
        found = ended.get(number)
        if not found or found[2] != str(quick.case.status) or found[3] != "expected":
            line = found[0] if found else "did not run"
            faults += 1
            print(f"{os.path.relpath(quick.file, TOP)}:{quick.case.line}: {quick.case.command}\n    {line}")
    if not ended:
        print(done.stdout[-4000:])
    print(f"quick: {len(taken)} of {len(every)} cases that need one file, {faults} faults")
    return 1 if faults or not taken else 0


if __name__ == "__main__":
    sys.exit(main())
