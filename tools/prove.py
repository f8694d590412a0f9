#!/usr/bin/env python3
"""Proves and builds the libraries below a crate side by side, and then runs `rt` in the crate's folder.

`rt` proves one library after the other, and much of a proof runs on one core. So each of a few workers has a copy of the
crates, and proves there a library when those that it uses are proved. What it has built is copied into the repository,
and from there to the workers that need it, so that each library is proved once. The cores are shared among the libraries
with the longest chains of others above them; those with much shorter ones get what is left. What fails in a copy fails
again in the last run of `rt`, which says why. The arguments are the crate and those of `rt`.
"""

import os
import shutil
import subprocess
import sys
import tempfile
from concurrent.futures import FIRST_COMPLETED, ThreadPoolExecutor, wait
from pathlib import Path

TOP = Path(__file__).resolve().parent.parent
RT = TOP / "tools" / "rt.py"
BYTES_PER_WORKER = 3_300_000_000
# A library whose chain is a smaller share of the longest one isn't urgent: it is proved with a lower priority.
URGENT_SHARE = 0.6
# So that libraries of lower priority don't keep others waiting, there are more workers than cores.
WORKERS_PER_CORE = 1.5


def libraries_below(crate):
    """The libraries below a crate, each after those that it uses, with all libraries below it."""
    uses = {}
    for line in (TOP / "crates.txt").read_text(encoding="utf-8").splitlines():
        head, colon, names = line.partition("#")[0].partition(":")
        if colon:
            uses[head.split()[0]] = names.split()
    found = {}

    def add(name):
        for used in uses[name]:
            if used in uses and used not in found:
                add(used)
                direct = [low for low in uses[used] if low in uses]
                found[used] = list(dict.fromkeys(name for low in direct for name in [*found[low], low]))

    add(crate)
    return found


def chains(libraries):
    """The lines of code in the longest chain that begins with each library and goes up: a measure of its time."""
    lines = {}
    for name in reversed(libraries):
        own = sum(len(path.read_bytes().splitlines()) for path in (TOP / "crates" / name / "src").rglob("*.rt"))
        lines[name] = lines.get(name, 0) + own
        for low in libraries[name]:
            lines[low] = max(lines.get(low, 0), lines[name])
    return lines


def copied(folder):
    """A copy of the crates, in a new folder."""
    shutil.copytree(TOP / "crates", folder / "crates", ignore=shutil.ignore_patterns("out"))
    for name in ("crates.txt", "HANDLES"):
        shutil.copyfile(TOP / name, folder / name)
    return folder


def hand_over(part, crate, source, target):
    """Copies a part of what was built of a library, if it is there, in place of what the target has."""
    made, taken = (top / "crates" / crate / "out" / part for top in (source, target))
    if made.is_dir():
        shutil.rmtree(taken, ignore_errors=True)
        shutil.copytree(made, taken)


def prove(folder, crate, below, jobs):
    """Proves and builds a library in a copy, given the libraries below it and the number of jobs: none if it isn't urgent.
    Copies what was built into the repository. Returns whether the library is proved."""
    for low in below:
        if not (folder / "crates" / low / "out" / "rlib" / "stamp").exists():
            hand_over("rlib", low, TOP, folder)
    # A second job costs processor time: each has to load the libraries below.
    words = [RT, "lib", "--jobs", str(jobs)] if jobs else ["nice", RT, "lib", "--jobs", "1"]
    done = subprocess.run(words, cwd=folder / "crates" / crate, stdout=subprocess.DEVNULL, stderr=subprocess.DEVNULL)
    if done.returncode == 0:
        hand_over("incremental", crate, folder, TOP)
        hand_over("rlib", crate, folder, TOP)
    return done.returncode == 0


def prove_all(libraries, folders):
    """Proves libraries in copies of the crates, as many at a time as there are copies. Prints each one that is proved."""
    chain = chains(libraries)
    left = sorted(libraries, key=chain.get, reverse=True)
    free, proved, running = list(folders), set(), {}
    with ThreadPoolExecutor(len(folders)) as pool:
        while True:
            ready = [name for name in left if proved.issuperset(libraries[name])]
            begun = [*ready, *(name for name, _ in running.values())]
            urgent = [name for name in begun if chain[name] >= URGENT_SHARE * max(chain[other] for other in begun)]
            for name in ready[: len(free)]:
                left.remove(name)
                folder = free.pop()
                jobs = max(cores() // len(urgent), 1) if name in urgent else 0
                running[pool.submit(prove, folder, name, libraries[name], jobs)] = name, folder
            if not running:
                return
            for task in wait(running, return_when=FIRST_COMPLETED).done:
                name, folder = running.pop(task)
                free.append(folder)
                if task.result():
                    proved.add(name)
                    print(f"{name} is proved, {len(proved)} of {len(libraries)}", file=sys.stderr, flush=True)


def cores():
    """The number of cores that this process may use."""
    return len(os.sched_getaffinity(0))


def workers():
    """The number of workers: one and a half for each core, as long as there is memory for them."""
    with open("/proc/meminfo", encoding="utf-8") as file:
        kibibytes = next(int(line.split()[1]) for line in file if line.startswith("MemAvailable:"))
    fitting = kibibytes * 1024 // BYTES_PER_WORKER
    return max(min(int(cores() * WORKERS_PER_CORE), fitting), 1)


def main(crate, *words):
    libraries = libraries_below(crate)
    is_built = all((TOP / "crates" / name / "out" / "rlib" / "stamp").exists() for name in libraries)
    with tempfile.TemporaryDirectory() as work:
        # After an edit, the last run alone proves what changed.
        if not is_built:
            prove_all(libraries, [copied(Path(work) / str(number)) for number in range(workers())])
        return subprocess.run([RT, *words], cwd=TOP / "crates" / crate).returncode


if __name__ == "__main__":
    sys.exit(main(*sys.argv[1:]))
