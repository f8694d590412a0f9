#!/usr/bin/env python3
"""Fails each allocation of tests in Rattle in turn, for calls that no run of the program or of the C library makes. The
tests are those of `peg_library_tests`, which `rt ci` builds. Each run must pass, or end because it is out of memory: a
comparison that fails, or a crash, is a fault. The clauses that say what stays unchanged after a failure are listed in
tests/oom/README.md."""
import concurrent.futures
import os
import pathlib
import sys
import tempfile

from refusing import build_library, refused_runs, run

TOP = pathlib.Path(__file__).resolve().parent.parent.parent
PROGRAM = TOP / "crates/peg_library_tests/out/peg_library_tests_tests"
MOST = 5_000  # allocations of a test
STOPPED = b"test stopped at"


def tests_of(program: str) -> list[str]:
    """The names of a test program's tests."""
    lines = run([program, "--list"]).output.decode().split("\n")
    return [line.removesuffix(": test") for line in lines if line.endswith(": test")]


def judge(program: str, test: str, library: str, met: str) -> tuple[int, list[str]]:
    """Fails each allocation of a test. Returns how many there are, and what is wrong."""
    count, faults = 0, []
    for number, got in refused_runs(library, met, [program, test]):
        count = max(count, number)
        is_stopped = got.status < 0 or STOPPED in got.output + got.messages
        if is_stopped or number == 0 and got.status != 0:
            faults.append(f"{test}, allocation {number}: status {got.status}: {got.messages[-200:]!r}")
        if count > MOST:
            return count, [*faults, f"{test}: more than {MOST} allocations"]
    return count, faults


def main() -> int:
    program = str(PROGRAM)
    if not PROGRAM.exists():
        print(f"{PROGRAM.name}: not built; `rt ci` builds it")
        return 1
    tests = tests_of(program)
    with tempfile.TemporaryDirectory() as folder:
        library = build_library(folder)
        with concurrent.futures.ThreadPoolExecutor(os.cpu_count()) as pool:
            results = list(pool.map(lambda at: judge(program, tests[at], library, f"{folder}/met-{at}"),
                                    range(len(tests))))
    faults = 0
    for test, (count, wrong) in zip(tests, results):
        print("\n".join([f"{test}: {count} allocations", *wrong]))
        faults += len(wrong)
    allocations = sum(count for count, _ in results)
    print(f"failed allocations of tests: {len(tests)} tests, {allocations} allocations, {faults} faults")
    return 1 if faults or not tests else 0


if __name__ == "__main__":
    sys.exit(main())
