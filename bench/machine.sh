#!/usr/bin/env bash
# Runs the machine on texts and grammars that grow by factors of ten. Prints the steps, the nodes, the milliseconds of the
# run alone, and the peak memory of the whole process.
set -eu
cd "$(dirname "$0")/../crates/peg_bench"
rt run > /dev/null
exec python3 - << 'PYTHON'
import os
import re
import subprocess
import tempfile


def written(case, size, paths):
    """Writes a case's grammar and text, in a process of its own, so that this one stays small."""
    child = os.fork()
    if child == 0:
        for path, content in zip(paths, case(size)):
            with open(path, "wb") as file:
                file.write(content)
        os._exit(0)
    os.waitpid(child, 0)


def run(case, size):
    """Microseconds, steps, rows, and bytes of memory at the peak; of three runs the fastest."""
    with tempfile.TemporaryDirectory() as folder:
        paths = [os.path.join(folder, name) for name in ("grammar", "text")]
        written(case, size, paths)
        best = None
        for _ in range(3):
            program = subprocess.Popen(["./out/peg_bench", "run", *paths], stdout=subprocess.PIPE)
            printed = program.stdout.read().decode()
            _, _, used = os.wait4(program.pid, 0)
            steps, rows, time = map(int, re.fullmatch(r"(\d+) steps, (\d+) rows, (\d+) us\n", printed).groups())
            this = (time, steps, rows, used.ru_maxrss * 1024)
            best = this if best is None or this < best else best
    return best


def numbers(count):
    """A list of numbers in JSON, of about that many bytes."""
    return b"[" + b", ".join(b"%d" % (n * 7919 % 1000003) for n in range(count // 8)) + b"]"


RIGHT = b"S <- 'a' S / 'b'\n"
NESTED = b"S <- '(' S ')' / 'x'\n"
JSON = b"""File <- Space Value !.
Value <- List / Number
List <- '[' Space (Value (',' Space Value)*)? ']' Space
Number <- '-'? ([1-9] [0-9]* / '0') Space
Space <- [ \\t\\r\\n]*
"""


CSV = b"""File <- Record (End Record)* !.
Record <- Field (',' Field)*
Field <- '"' ('""' / !'"' .)* '"' / (![,"\\n] .)*
End <- '\\n'
"""


def fields(count):
    """Lines of CSV, of about that many bytes."""
    line = b'%d,a plain field,"a ""quoted"" one, with a comma",,%d'
    return b"\n".join(line % (n, n * 7919 % 1000003) for n in range(count // 56))


def alternatives(count):
    return b"S <- ." + b"/." * (count - 1) + b"\n"


def falling(count):
    """A star over rules whose terminals fail from the last to the first at each place, and then any byte."""
    uses = b" / ".join(b"R%d" % n for n in reversed(range(count)))
    return b"S <- (" + uses + b" / .)*\n" + b"".join(b"R%d <- 'a'\n" % n for n in range(count))


def falling_at_one_place(count):
    """A rule that fails, over rules whose terminals fail from the last to the first: all of it 100 times at one position."""
    uses = b" / ".join(b"R%d" % n for n in reversed(range(count)))
    rules = b"".join(b"R%d <- 'a'\n" % n for n in range(count))
    return b"S <-" + b" !X" * 100 + b"\nX <- " + uses + b"\n" + rules


CASES = [
    ("one star over any byte", lambda n: (b"S <- .* !.\n", b"z" * n), (10**6, 67_108_864)),
    ("numbers in JSON", lambda n: (JSON, numbers(n)), (10**6, 64 * 10**6)),
    ("fields in CSV", lambda n: (CSV, fields(n)), (10**6, 60 * 10**6)),
    ("right recursion, levels", lambda n: (RIGHT, b"a" * n + b"b"), (10**5, 10**7)),
    ("nested parentheses, levels", lambda n: (NESTED, b"(" * n + b"x" + b")" * n), (10**5, 10**7)),
    ("failure through active calls, levels", lambda n: (RIGHT, b"a" * n), (10**5, 10**7)),
    ("alternatives that fail", lambda n: (alternatives(n), b""), (3_000, 300_000)),
    ("failing terminals at each of 1,000 positions", lambda n: (falling(n), b"z" * 1000), (100, 10_000)),
    ("failing terminals, 100 times at one position", lambda n: (falling_at_one_place(n), b"z"), (100, 10_000)),
]

print("| Case | Size | Steps | Nodes | Milliseconds | Nanoseconds a step | MiB |")
print("|---|---|---|---|---|---|---|")
for name, case, sizes in CASES:
    for size in sizes:
        time, steps, rows, memory = run(case, size)
        cells = f"{time / 1000:,.1f} | {time * 1000 / steps:.1f} | {memory / 2**20:.0f}"
        print(f"| {name} | {size:,} | {steps:,} | {rows:,} | {cells} |")
PYTHON
