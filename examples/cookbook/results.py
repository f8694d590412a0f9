#!/usr/bin/env python3
"""Counts the lines of a file that match a grammar, and those that don't: `results.py GRAMMAR FILE [WORKERS]`. With a
number of workers, Dask runs that number of processes, each on blocks of whole lines. The package pegtool must be
installed."""
import collections
import io
import sys

import pegtool

BLOCK = 1 << 20  # bytes


def results(grammar, data):
    """What the parse of each line gives."""
    answers = grammar.lines(io.BytesIO(data), tree=False)
    return ["matched" if answer and answer.is_whole else "failed" for answer in answers]


def counts(grammar, path):
    """The counts, in this process."""
    with open(path, "rb") as file:
        return collections.Counter(results(grammar, file.read()))


def counts_of_workers(grammar, path, workers):
    """The counts, with this number of processes."""
    import dask
    import dask.bag
    import dask.bytes
    import distributed

    _, (blocks,) = dask.bytes.read_bytes(path, delimiter=b"\n", blocksize=BLOCK, sample=False)
    bag = dask.bag.from_delayed([dask.delayed(results)(grammar, block) for block in blocks])
    with distributed.LocalCluster(n_workers=workers, threads_per_worker=1, dashboard_address=None) as cluster:
        with distributed.Client(cluster):
            return dict(bag.frequencies().compute())


if __name__ == "__main__":
    grammar = pegtool.Grammar.from_file(sys.argv[1])
    found = counts_of_workers(grammar, sys.argv[2], int(sys.argv[3])) if sys.argv[3:] else counts(grammar, sys.argv[2])
    for result in sorted(found):
        print(result, found[result])
