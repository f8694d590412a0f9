"""Runs a program so that one of its allocations fails: the Nth, for N from 1 until a run makes fewer."""
import os
import pathlib
import subprocess
from typing import Iterator, NamedTuple

LIBRARY_SOURCE = pathlib.Path(__file__).resolve().parent / "refuse.c"
MAX_ALLOCATIONS = 100_000


class Run(NamedTuple):
    """The status of a run, and what it wrote to standard output and to standard error."""

    status: int
    output: bytes
    messages: bytes


def build_library(folder: str) -> str:
    """Builds the library that refuses an allocation; it is loaded before a program."""
    path = f"{folder}/refuse.so"
    subprocess.run(["cc", "-shared", "-fPIC", "-O1", "-o", path, str(LIBRARY_SOURCE), "-ldl"], check=True)
    return path


def run(arguments: list[str], stdin: bytes = b"", environment: dict[str, str] | None = None) -> Run:
    done = subprocess.run(arguments, input=stdin, capture_output=True, env={**os.environ, **(environment or {})},
                          timeout=120, check=False)
    return Run(done.returncode, done.stdout, done.stderr)


def refused_runs(library: str, met: str, arguments: list[str], stdin: bytes = b"") -> Iterator[tuple[int, Run]]:
    """The runs in which an allocation failed, by the number of the allocation. The last item, number 0, is the run
    without a failure. `met` is the path of a file for this program alone."""
    for number in range(1, MAX_ALLOCATIONS):
        environment = {"LD_PRELOAD": library, "REFUSE_NTH": str(number), "REFUSE_MET": met}
        done = run(arguments, stdin, environment)
        if not os.path.exists(met):
            yield 0, done
            return
        os.remove(met)
        yield number, done
    raise RuntimeError(f"more than {MAX_ALLOCATIONS} allocations: {arguments}")
