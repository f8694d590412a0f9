#!/usr/bin/env python3
"""Tests the warnings of `pegtool lint`: none is missing, none is printed twice, and none is false.

    tests/lint.py PROGRAM SEED COUNT           the lists of warnings, and then parses
    tests/lint.py PROGRAM SEED COUNT --lists   the lists alone, which needs no library

The lists that the program prints are compared with those of lint_finder.py: for the grammars of examples/ and of
tests/cases/lint, and for random grammars until COUNT of them had warnings. Of the kinds that lint_finder.py doesn't
look for, it is only tested that none is printed twice. Each kind has to occur among the random grammars. The proved
warnings about the COUNT grammars are then compared with parses, by lint_parses.py."""
import argparse
import collections
import dataclasses
import json
import os
import pathlib
import random
import re
import subprocess
import sys
import tempfile

from lint_finder import KINDS, MAY_BE_MISSED, PROVED, Finder, written_order
from lint_grammars import random_grammar
from quick import quick_cases
from reference import check_line, line_of

TOP = pathlib.Path(__file__).resolve().parent.parent


@dataclasses.dataclass
class Options:
    """The options of a run: the start rule, and whether the proved kinds alone are asked for."""

    start: "str | None" = None
    is_proved: bool = False

    def arguments(self):
        """The options as arguments."""
        return [*(["--start", self.start] if self.start else []), *(["--proved"] if self.is_proved else [])]


def read_options(arguments):
    """The options that the arguments of a command have."""
    start = arguments[arguments.index("--start") + 1] if "--start" in arguments else None
    return Options(start, "--proved" in arguments)


def differences(wanted, printed):
    """The lines that say how the printed warnings differ from those that are wanted."""
    found = [warning for warning in printed if warning["kind"] not in MAY_BE_MISSED]
    wanted_lines, found_lines = (collections.Counter(map(line_of, some)) for some in (wanted, found))
    yield from (f"missing: {line}" for line in wanted_lines - found_lines)
    yield from (f"extra: {line}" for line in found_lines.keys() - wanted_lines.keys())
    yield from (f"twice: {line}" for line, count in collections.Counter(map(line_of, printed)).items() if count > 1)
    if printed != sorted(printed, key=written_order):
        yield "not in the order of the starts, the kinds and the ends\n"


class Lists:
    """Compares the lists of warnings of the program and of lint_finder.py."""

    def __init__(self, program, folder):
        self.program = program
        self.path = os.path.join(folder, "grammar.peg")
        self.lists = 0
        self.refused = 0
        self.differing = 0

    def run(self, file, options):
        """The line and the status of `pegtool lint`."""
        pathlib.Path(self.path).write_bytes(file)
        done = subprocess.run([self.program, "lint", self.path, *options.arguments()], stdin=subprocess.DEVNULL,
                              stdout=subprocess.PIPE, check=False)
        return done.stdout.decode("utf-8", "backslashreplace"), done.returncode

    def compare(self, file, options=Options()):
        """Compares the list of a grammar file, and prints what differs. Returns the printed warnings."""
        line, status = self.run(file, options)
        if check_line(file)[1]:
            self.refused += 1
            self.report(file, options, [] if (line, status) == check_line(file) else [f"refused otherwise: {line}"])
            return []
        self.lists += 1
        if status not in (0, 1):
            self.report(file, options, [f"status {status}: {line}"])
            return []
        printed = json.loads(line)["warnings"]
        found = Finder(file, options.start).warnings()
        wanted = [warning for warning in found if warning["kind"] in PROVED or not options.is_proved]
        faults = list(differences(wanted, printed))
        self.report(file, options, faults if status == bool(printed) else [*faults, f"status {status}\n"])
        return printed

    def report(self, file, options, faults):
        """Prints what differs, with the grammar."""
        if faults:
            self.differing += 1
            print(" ".join(["lint", *options.arguments()]), file.decode("utf-8", "backslashreplace"), "".join(faults),
                  sep="\n")


def written_grammars():
    """The grammars of examples/ and of the cases of `lint`, the latter with their options."""
    for path in sorted((TOP / "examples").rglob("*.peg")):
        yield path.read_bytes(), Options()
    for path in sorted((TOP / "tests/cases/lint").glob("*.t")):
        for case in quick_cases(path):
            if case.arguments[:1] == ["lint"]:
                yield case.stdin, read_options(case.arguments)


def random_options(chance, file):
    """Some options for a second list: another start rule, or the proved kinds alone."""
    names = re.findall(rb"\b([A-Z])\b", file)
    return Options(chance.choice(names).decode() if chance.randrange(2) else None, chance.randrange(2) == 0)


def grammars_with_warnings(chance, lists, count):
    """Compares the lists of random grammars, and yields those with warnings until there were enough."""
    while count:
        file = random_grammar(chance)
        if warnings := lists.compare(file):
            count -= 1
            yield file, warnings
            if chance.randrange(5) == 0:
                lists.compare(file, random_options(chance, file))


def compare_lists(chance, program, count):
    """Compares all lists. Returns COUNT random grammars with their warnings, and the number of lists that differ."""
    with tempfile.TemporaryDirectory() as folder:
        lists = Lists(program, folder)
        for file, options in written_grammars():
            lists.compare(file, options)
        written = lists.lists
        tried = list(grammars_with_warnings(chance, lists, count))
    print(f"lists: {written} of written grammars, {lists.lists - written} of random grammars, {lists.refused} refused, "
          f"{lists.differing} differ")
    return tried, lists.differing


def count_kinds(tried):
    """Prints how many warnings of each kind the grammars have. Returns the number of kinds that none has."""
    kinds = collections.Counter(warning["kind"] for _, warnings in tried for warning in warnings)
    print(f"kinds: {', '.join(f'{kind} {kinds[kind]}' for kind in KINDS)}")
    lacking = [kind for kind in KINDS if not kinds[kind]]
    for kind in lacking:
        print(f"no random grammar has the kind {kind}")
    return len(lacking)


def main():
    parser = argparse.ArgumentParser(description="Tests the warnings of pegtool lint.")
    parser.add_argument("program", help="the built pegtool")
    parser.add_argument("seed", type=int, help="what the random grammars and texts depend on")
    parser.add_argument("count", type=int, help="the number of random grammars with warnings")
    parser.add_argument("--lists", action="store_true", help="compare the lists alone, which needs no library")
    options = parser.parse_args()
    chance = random.Random(options.seed)
    tried, differing = compare_lists(chance, os.path.realpath(options.program), options.count)
    faults = differing + count_kinds(tried)
    if not options.lists:
        from lint_parses import contradictions  # which needs the library
        faults += contradictions(chance, tried)
    return 1 if faults else 0


if __name__ == "__main__":
    sys.exit(main())
