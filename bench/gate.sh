#!/usr/bin/env bash
# Runs the gate from nothing: with `--anew` where the toolchain's `rt ci` can take proofs of earlier runs on this machine,
# and with no option where it never does. Prints for each crate the seconds that its proof, the proof of its tests and
# its wrong edits took, as wall-clock time and, in parentheses, processor time, and the peak memory of a check in MiB. It
# samples the provers once a second, so shorter ones are missed. What the gate prints is in out/gate.log.
set -u
cd "$(dirname "$0")/.." || exit 1
exec python3 - "$PWD" << 'PYTHON'
import os
import resource
import subprocess
import sys
import tempfile
import time

TICKS = os.sysconf("SC_CLK_TCK")
root = sys.argv[1]


def stat(pid):
    """The fields that the system gives for a process, after its name."""
    with open(f"/proc/{pid}/stat", encoding="utf-8") as file:
        return file.read().rpartition(")")[2].split()


def is_below(pid, gate):
    """Whether the gate started the process, or one that did."""
    while int(pid) > 1 and int(pid) != gate:
        pid = stat(pid)[1]
    return int(pid) == gate


def peak_memory(pid):
    """The most memory that a process had so far, in MiB."""
    with open(f"/proc/{pid}/status", encoding="utf-8") as file:
        return next((int(line.split()[1]) // 1024 for line in file if line.startswith("VmHWM:")), 0)


def provers(gate):
    """The gate's provers: the process, the crate, what is proved, the seconds of processor time and the memory so far."""
    for pid in filter(str.isdigit, os.listdir("/proc")):
        try:
            with open(f"/proc/{pid}/cmdline", "rb") as file:
                words = file.read().decode(errors="replace").split("\0")
            if not words[0].endswith("/rattle") or "--crate-name" not in words:
                continue
            if not is_below(pid, gate):
                continue
            folder = os.readlink(f"/proc/{pid}/cwd")
            fields = stat(pid)
            memory = peak_memory(pid)
        except OSError:
            continue
        crate = words[words.index("--crate-name") + 1]
        if not folder.startswith(f"{root}/"):
            kind = "edits"
        elif "--test" in words or "--tests" in words or any(word.endswith("_tests.o") for word in words):
            kind = "tests"
        else:
            kind = "proof"
        yield pid, crate, kind, (int(fields[11]) + int(fields[12])) / TICKS, memory


def options():
    """The options with which `rt ci` takes nothing from earlier runs: none if it has no such option."""
    with tempfile.TemporaryDirectory() as folder:
        tried = subprocess.run(["rt", "ci", "--anew"], cwd=folder, capture_output=True, text=True, check=False)
    return [] if "usage:" in tried.stdout + tried.stderr else ["--anew"]


def main():
    os.makedirs("out", exist_ok=True)
    with open("out/gate.log", "w+", encoding="utf-8", errors="replace") as log:
        gate = subprocess.Popen(["tests/gate.sh", *options()], stdout=log, stderr=subprocess.STDOUT)
        clock, used, peak = {}, {}, {}
        began = time.time()
        while gate.poll() is None:
            seen = set()
            for pid, crate, kind, seconds, memory in provers(gate.pid):
                seen.add((crate, kind))
                peak[crate] = max(peak.get(crate, 0), memory)
                used[pid, crate, kind] = seconds
            for key in seen:
                clock[key] = clock.get(key, 0) + 1
            time.sleep(1)
        log.seek(0)
        last = log.read().strip()
        scripts = [line for line in last.split("\n") if line.endswith(" seconds")]
    spent = {}
    for (_, crate, kind), seconds in used.items():
        spent[crate, kind] = spent.get((crate, kind), 0) + seconds
    kinds = ["proof", "tests", "edits"]
    print("| Crate | Proof | Tests | Edits | MiB |\n|---|---|---|---|---|")
    for crate in sorted({crate for crate, _ in spent}):
        cells = [f"{clock.get((crate, kind), 0)} ({spent.get((crate, kind), 0):.0f})" for kind in kinds]
        print(f"| {crate} | {' | '.join(cells)} | {peak[crate]} |")
    print("\n".join(scripts))
    all_used = resource.getrusage(resource.RUSAGE_CHILDREN)
    print(f"{time.time() - began:.0f} seconds of wall-clock time; processor time: {sum(spent.values()):.0f} seconds of the "
          f"provers that were seen, {all_used.ru_utime + all_used.ru_stime:.0f} of all processes")
    print("\n".join(last.split("\n")[-4:]))
    return gate.returncode


sys.exit(main())
PYTHON
