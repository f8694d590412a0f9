"""Records of a file, parsed by the processes of a Dask cluster on this machine."""

import os
import shutil
import subprocess
import sys
import tempfile
import unittest

TOP = os.path.abspath(os.path.join(os.path.dirname(__file__), os.pardir, os.pardir))
RECIPE = os.path.join(TOP, "examples", "cookbook", "results.py")
GRAMMAR = os.path.join(TOP, "examples", "json.peg")


def python_with_dask():
    """A Python that has Dask: this one, or that of the system."""
    for python in (sys.executable, shutil.which("python3", path="/usr/bin")):
        words = [python, "-c", "import dask.bag, distributed"]
        if python and subprocess.run(words, stderr=subprocess.DEVNULL, check=False).returncode == 0:
            return python
    return None


class Cluster(unittest.TestCase):
    def lines(self, python, *words):
        """The lines that the recipe prints."""
        environment = {**os.environ, "PYTHONPATH": os.path.join(TOP, "python")}
        done = subprocess.run([python, RECIPE, GRAMMAR, *words], env=environment, stdout=subprocess.PIPE, check=True)
        return done.stdout.decode("ascii").splitlines()

    def test_four_workers_count_what_one_process_counts(self):
        python = python_with_dask()
        if python is None:
            self.skipTest("no Python here has Dask")
        with tempfile.TemporaryDirectory() as folder:
            path = os.path.join(folder, "values.jsonl")
            with open(path, "wb") as file:
                # Three of five lines are JSON texts; 2.7 MB are three blocks.
                file.write(b'{"a":[1,2]}\n{"a":}\n[]\n\n"b"\n' * 100_000)
            wanted = ["failed 200000", "matched 300000"]
            self.assertEqual(self.lines(python, path), wanted)
            self.assertEqual(self.lines(python, path, "4"), wanted)


if __name__ == "__main__":
    unittest.main()
