#!/usr/bin/env bash
# Compares `pegtool parse --lines` of a long log from a pipe with a parse of each record. The log is made by a script and
# is in no file: lines of a web server, one in a hundred of which is cut. Each line that is printed must be that which the
# C library gives for the record, by the Python package, and some must be those of the program. Prints the number of
# records, of those that match, and the peak memory of the program. The arguments are the program and the millions of
# bytes (2000 if there is none). It needs the C library that `make lib` builds.
set -eu
program=$(realpath -- "${1:-$(dirname "$0")/../crates/pegtool/out/pegtool}")
millions=${2:-2000}
cd "$(dirname "$0")"
PYTHONPATH=../python exec python3 -B - "$program" "$millions" << 'PYTHON'
import itertools
import multiprocessing
import os
import random
import subprocess
import sys
import tempfile
import threading

from pegtool import Grammar
from runs import peak_so_far
from texts import log_text

PROGRAM, MILLIONS = sys.argv[1], int(sys.argv[2])
OPTIONS = ["--start", "Entry", "--no-tree"]
WAITING = 16  # blocks whose lines are in memory
BY_PROGRAM = 10_000  # the first records, which the program also parses one in a run
BASE = log_text(10**6).splitlines()
with open("../examples/log.peg", encoding="ascii") as file:
    SOURCE = file.read().replace(" LineEnd\n", " End\n", 1)  # a record has no line end
GRAMMAR = Grammar(SOURCE)


def records(number):
    """The records of a block of a megabyte, which differ from block to block. One in a hundred is cut."""
    dice = random.Random(number)
    for at, line in enumerate(BASE):
        record = b"%d.%s" % (number, line)
        yield record[: dice.randrange(len(record))] if at % 100 == 0 else record


def line_of(record):
    """The line that the library gives for a record, without its number."""
    return GRAMMAR.match(record, start="Entry", tree=False).to_json()


def compare(job):
    """Compares the lines of a block with those of the library. Returns how many records match."""
    number, lines = job
    matches = 0
    for count, (record, line) in enumerate(zip(records(number), lines, strict=True), number * len(BASE) + 1):
        wanted = f'{{"record":{count},{line_of(record)[1:]}\n'
        if line.decode() != wanted:
            raise SystemExit(f"record {count}: {line} in place of {wanted}")
        matches += '"matched"' in wanted
    return matches


def feed(stream):
    """Writes all blocks, and closes the stream."""
    with stream:
        for number in range(MILLIONS):
            stream.write(b"\n".join(records(number)) + b"\n")


def blocks(process, peak, room):
    """The number and the lines of each block, when there is room for it. Notes the peak memory of the program so far."""
    for number in range(MILLIONS):
        room.acquire()
        yield number, list(itertools.islice(process.stdout, len(BASE)))
        peak[0] = max(peak[0], peak_so_far(process))


def check_by_program(grammar, text):
    """Compares the first records with those that the program parses alone."""
    for record in itertools.islice(itertools.chain.from_iterable(map(records, itertools.count())), BY_PROGRAM):
        with open(text, "wb") as file:
            file.write(record)
        ran = subprocess.run([PROGRAM, "parse", grammar, text, *OPTIONS], stdout=subprocess.PIPE, text=True)
        if ran.stdout != line_of(record) + "\n":
            raise SystemExit(f"{record}: {ran.stdout} in place of {line_of(record)}")


def main():
    with tempfile.TemporaryDirectory() as folder:
        grammar, text = os.path.join(folder, "grammar"), os.path.join(folder, "text")
        with open(grammar, "w", encoding="ascii") as file:
            file.write(SOURCE)
        peak, matches, room = [0], 0, threading.Semaphore(WAITING)
        words = [PROGRAM, "parse", grammar, "--lines", *OPTIONS]
        with multiprocessing.Pool() as pool:
            with subprocess.Popen(words, stdin=subprocess.PIPE, stdout=subprocess.PIPE) as process:
                threading.Thread(target=feed, args=(process.stdin,)).start()
                for found in pool.imap(compare, blocks(process, peak, room)):
                    matches += found
                    room.release()
                assert process.stdout.read() == b""
        check_by_program(grammar, text)
    count = MILLIONS * len(BASE)
    print(f"{count:,} records, {matches:,} of them match, {peak[0] / 2**20:.0f} MiB; "
          f"the lines are those of the library, the first {BY_PROGRAM:,} also those of the program")


main()
PYTHON
