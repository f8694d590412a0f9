"""Runs of programs that are measured, for the scripts of this folder."""
import os
import subprocess
import sys


def written(path, make):
    """Writes a text in a child process, so that the memory of this one stays small."""
    child = os.fork()
    if child == 0:
        with open(path, "wb") as file:
            file.write(make())
        os._exit(0)
    os.waitpid(child, 0)


def used(words, path, ends=0):
    """The CPU seconds and the peak memory in bytes of one run, whose output goes to a file. It must end with a status."""
    with open(path, "wb") as file:
        process = subprocess.Popen(words, stdout=file)
        _, status, took = os.wait4(process.pid, 0)
    if os.waitstatus_to_exitcode(status) != ends:
        sys.exit(f"status {status}: {words}")
    return took.ru_utime + took.ru_stime, took.ru_maxrss * 1024


def peak_so_far(process):
    """The peak memory in bytes of a program that runs. What `os.wait4` reports is at least that of this process."""
    with open(f"/proc/{process.pid}/status", encoding="utf-8") as status:
        return next(int(line.split()[1]) * 1024 for line in status if line.startswith("VmHWM:"))


def piped(words, line, count):
    """The CPU seconds and the peak memory in bytes of one run, which must end with status 0. It gets a line this number of
    times from a pipe, and prints to nowhere."""
    lines = 2**16 // len(line)
    with subprocess.Popen(words, stdin=subprocess.PIPE, stdout=subprocess.DEVNULL) as process:
        for start in range(0, count, lines):
            process.stdin.write(line * min(lines, count - start))
        peak = peak_so_far(process)
        process.stdin.close()
        _, status, took = os.wait4(process.pid, 0)
        process.returncode = os.waitstatus_to_exitcode(status)
    if process.returncode != 0:
        sys.exit(f"status {status}: {words}")
    return took.ru_utime + took.ru_stime, peak
