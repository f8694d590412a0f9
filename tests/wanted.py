#!/usr/bin/env python3
"""Compares what the built program says with what tests/wanted wants it to say. The argument is the path of the program.
Prints two tables in Markdown, of faulty texts and of mistakes in grammars, and the counts at the end. What isn't as
wanted is no fault: the status is 1 only if a file of the folder is malformed, or if a grammar isn't accepted, has a
warning or doesn't match its correct text. tests/wanted/README.md describes the files."""
import json
import os
import re
import subprocess
import sys
import tempfile

TOP = os.path.dirname(os.path.dirname(os.path.abspath(__file__)))
FOLDER = os.path.join(TOP, "tests", "wanted")
BYTES = re.compile("⟨((?:[0-9A-F]{2})+)⟩")
PLACE = re.compile(r"([1-9]\d*:[1-9]\d*): ")
OPENED = re.compile(r"opened at [1-9]\d*:[1-9]\d*")
EXPECTED = re.compile(r"[1-9]\d*:[1-9]\d*: expected .+, found .+")
MISTAKE = re.compile(r"(explain|lint) ([1-9]\d*:[1-9]\d*): (.+)")
KIND = re.compile(r"[A-Z][A-Za-z]+: .+")
NOTE = re.compile(r"note: .* at ([1-9]\d*:[1-9]\d*) .+")


class Malformed(Exception):
    """A file of the folder isn't in the form that its README describes."""


class Case:
    """A faulty text or a grammar with a mistake: its title, its bytes, and the lines that are wanted for it."""

    __slots__ = ("title", "text", "wanted")

    def __init__(self, title, text, wanted):
        self.title = title
        self.text = text
        self.wanted = wanted


def decoded(lines):
    """The bytes of a text whose lines are given, each with a line end but a last one that ends with ⟨end⟩."""
    text = "".join(line + "\n" for line in lines)
    if text.endswith("⟨end⟩\n"):
        text = text[: -len("⟨end⟩\n")]
    parts = BYTES.split(text)
    if any("⟨" in part or "⟩" in part for part in parts[::2]):
        raise Malformed("⟨⟩ holds pairs of hexadecimal digits, or end in the last line")
    return b"".join(bytes.fromhex(part) if odd % 2 else part.encode() for odd, part in enumerate(parts))


def case_of(section):
    """The case of a section, without the sign of its title."""
    title, *lines = section.rstrip("\n").split("\n")
    text = [line[4:] for line in lines if line.startswith("    ")]
    wanted = [line[2:] for line in lines[len(text) :]]
    if not title or not text or not wanted:
        raise Malformed(f"{title}: a section has a title, a text and what is wanted")
    if any(not line.startswith("    ") for line in lines[: len(text)]):
        raise Malformed(f"{title}: the text comes first, and each of its lines has four blanks before it")
    if any(not line.startswith("> ") for line in lines[len(text) :]):
        raise Malformed(f"{title}: each line after the text begins with > and a blank")
    return Case(title, decoded(text), wanted)


def sections(content):
    """The first line of a file's content, and its cases."""
    head, *parts = content.split("\n## ")
    if not parts or "\n" in head.strip("\n"):
        raise Malformed("a file has a line at its start, and sections")
    return head.strip("\n"), [case_of(part) for part in parts]


def has_position(text, place):
    """Whether a text has a line and a column; so has the end of a line. LF, CR LF and CR end lines."""
    line, column = map(int, place.split(":"))
    lines = re.split(b"\r\n|\r|\n", text)
    return line <= len(lines) and column <= len(lines[line - 1]) + 1


def check_positions(case):
    """Checks that a text has each position that its wanted lines name."""
    for place in re.findall(r"\b\d+:\d+\b", "\n".join(case.wanted)):
        if not has_position(case.text, place):
            raise Malformed(f"{case.title}: the text has no {place}")


def check_text(case):
    """Checks what is wanted for a faulty text: a message, and perhaps a note on an opening."""
    first, *rest = case.wanted
    if not EXPECTED.fullmatch(first) or len(rest) > 1 or not all(OPENED.fullmatch(line) for line in rest):
        raise Malformed(f"{case.title}: wanted is LINE:COLUMN: expected .., found .., perhaps opened at LINE:COLUMN")


def check_mistake(case):
    """Checks what is wanted for a mistake: a message of explain and perhaps a note, or a warning of lint."""
    first, *rest = case.wanted
    found = MISTAKE.fullmatch(first)
    if not found or len(rest) > 1 or not all(NOTE.fullmatch(line) for line in rest):
        raise Malformed(f"{case.title}: wanted is explain or lint, LINE:COLUMN: .., perhaps a note with a position")
    if found.group(1) == "lint" and (rest or not KIND.fullmatch(found.group(3))):
        raise Malformed(f"{case.title}: wanted of lint is KIND: ..")


def position(line):
    """The line and column that begin a message, or None."""
    found = PLACE.match(line)
    return found.group(1) if found else None


def mark_of_text(wanted, printed):
    """How lines of a message are like the wanted ones: same, place (the position alone) or other."""
    if printed and wanted[0] == printed[0] and all(line in printed for line in wanted[1:]):
        return "same"
    if printed and position(wanted[0]) == position(printed[0]):
        return "place"
    return "other"


def mark_of_mistake(wanted, reports):
    """How reports, each with a command, a position and words, are like what is wanted for a mistake: same, found (a
    report at the position of the mistake) or not found. That position is in the note, or in the first line if there is
    no note."""
    command, place, words = MISTAKE.fullmatch(wanted[0]).groups()
    if command == "lint":
        words = words.split(":")[0]
    notes = wanted[1:]
    if (command, place, words) in reports and all(("note", "", note) in reports for note in notes):
        return "same"
    cause = NOTE.fullmatch(notes[0]).group(1) if notes else place
    if any(cause == at or re.search(rf"\b{cause}\b", said) for _, at, said in reports):
        return "found"
    return "not found"


def run(*words):
    """The exit status of a command, and what it prints."""
    done = subprocess.run(words, stdout=subprocess.PIPE, stderr=subprocess.DEVNULL, check=False)
    return done.returncode, done.stdout.decode(errors="replace")


def message_lines(printed, name):
    """The lines that explain prints for a file, without the file's name."""
    return [line[len(name) + 1 :] if line.startswith(name + ":") else line for line in printed.splitlines()]


def reports_of(program, grammar):
    """What explain and lint say of a grammar, each with a command, a position and words. Words of lint are the kind."""
    _, printed = run(program, "explain", grammar)
    reports = []
    for line in message_lines(printed, grammar):
        place = position(line)
        if place:
            reports.append(("explain", place, line[len(place) + 2 :]))
        elif line.startswith("note: "):
            reports.append(("note", "", line))
    status, printed = run(program, "lint", grammar)
    if status < 2:
        for found in json.loads(printed)["warnings"]:
            reports.append(("lint", f"{found['line']}:{found['column']}", found["kind"]))
    return reports


def grammar_of(head):
    """The path of the grammar that the first line of a file of texts names."""
    if not head.startswith("Grammar: "):
        raise Malformed("the first line is Grammar: and the grammar's name")
    return os.path.join(TOP, head[len("Grammar: ") :])


def fault_of_grammar(program, grammar):
    """What is wrong with a grammar of texts: an empty string if it is accepted and matches the text beside it."""
    if run(program, "check", grammar)[0] != 0:
        return "isn't accepted"
    if os.path.dirname(grammar) != os.path.join(FOLDER, "grammars"):
        return ""
    if run(program, "lint", grammar)[0] != 0:
        return "has a warning"
    if run(program, "explain", grammar, grammar[: -len(".peg")] + ".txt") != (0, ""):
        return "doesn't match its correct text"
    return ""


def row(*cells):
    """A row of a table in Markdown."""
    return "| " + " | ".join(cell.replace("|", "\\|") for cell in cells) + " |"


def code(text):
    """A text as code in Markdown."""
    return f"`{text}`" if "`" not in text else f"`` {text} ``"


def written(folder, text):
    """The name of a new file with this text."""
    name = os.path.join(folder, "text")
    with open(name, "wb") as file:
        file.write(text)
    return name


def compare_text(program, grammar, case, folder):
    """The mark of a faulty text, and its row of the table."""
    name = written(folder, case.text)
    status, printed = run(program, "explain", grammar, name)
    lines = message_lines(printed, name)
    mark = mark_of_text(case.wanted, lines)
    today = lines[0] if lines else f"nothing, status {status}"
    label = os.path.basename(grammar)[: -len(".peg")] + ": " + case.title
    return mark, row(mark, label, code("; ".join(case.wanted)), code(today))


def fault_of_mistake(program, case, folder):
    """What is wrong with the grammar of a mistake: an empty string if it is accepted or lint isn't asked about it."""
    refused = run(program, "check", written(folder, case.text))[0] != 0
    return "isn't accepted" if refused and case.wanted[0].startswith("lint ") else ""


def compare_mistake(program, case, folder):
    """The mark of a mistake in a grammar, and its row of the table."""
    reports = reports_of(program, written(folder, case.text))
    mark = mark_of_mistake(case.wanted, reports)
    said = "; ".join(f"{command} {place}: {words}" if place else words for command, place, words in reports)
    return mark, row(mark, case.title, code("; ".join(case.wanted)), code(said or "nothing"))


def files(kind):
    """The names and contents of the files of a folder, in order."""
    place = os.path.join(FOLDER, kind)
    for name in sorted(os.listdir(place)):
        with open(os.path.join(place, name), encoding="utf-8", newline="") as file:
            yield f"{kind}/{name}", file.read()


def texts():
    """The grammar and the case of each faulty text."""
    for name, content in files("texts"):
        try:
            head, cases = sections(content)
            grammar = grammar_of(head)
            for case in cases:
                check_text(case)
                check_positions(case)
                yield grammar, case
        except Malformed as fault:
            raise Malformed(f"{name}: {fault}") from None


def mistakes():
    """The case of each mistake in a grammar."""
    for name, content in files("mistakes"):
        try:
            _, cases = sections(content)
            for case in cases:
                check_mistake(case)
                check_positions(case)
                yield case
        except Malformed as fault:
            raise Malformed(f"{name}: {fault}") from None


def counts(marks, kinds):
    """How often each kind of mark is among marks, in words."""
    return f"{len(marks)}: " + ", ".join(f"{marks.count(kind)} {kind}" for kind in kinds)


def faults_of(program, all_texts, all_mistakes, folder):
    """What is wrong with the grammars of texts and of mistakes."""
    grammars = sorted({grammar for grammar, _ in all_texts})
    found = [(os.path.relpath(grammar, TOP), fault_of_grammar(program, grammar)) for grammar in grammars]
    found += [(case.title, fault_of_mistake(program, case, folder)) for case in all_mistakes]
    return [f"{name}: {fault}" for name, fault in found if fault]


def compare(program):
    """Prints the tables and the counts. The result is the list of faults of the grammars."""
    all_texts, all_mistakes = list(texts()), list(mistakes())
    with tempfile.TemporaryDirectory() as folder:
        faults = faults_of(program, all_texts, all_mistakes, folder)
        of_texts = [compare_text(program, grammar, case, folder) for grammar, case in all_texts]
        of_mistakes = [compare_mistake(program, case, folder) for case in all_mistakes]
    for title, compared in [("Faulty text", of_texts), ("Mistake in a grammar", of_mistakes)]:
        print(row("Mark", title, "Wanted", "Printed today"), "|---|---|---|---|", sep="\n")
        print("\n".join(line for _, line in compared), end="\n\n")
    print("texts", counts([mark for mark, _ in of_texts], ["same", "place", "other"]))
    print("mistakes", counts([mark for mark, _ in of_mistakes], ["same", "found", "not found"]))
    return faults


def main():
    if len(sys.argv) != 2:
        print("usage: tests/wanted.py PROGRAM", file=sys.stderr)
        return 2
    try:
        faults = compare(os.path.realpath(sys.argv[1]))
    except Malformed as fault:
        faults = [str(fault)]
    for fault in faults:
        print(f"wanted: {fault}")
    return 1 if faults else 0


if __name__ == "__main__":
    sys.exit(main())
