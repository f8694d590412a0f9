"""Tests of bench/proof_times.py: the time between two files is that of the later module's function."""

import sys
import unittest
from pathlib import Path

sys.path.insert(0, str(Path(__file__).resolve().parent.parent.parent / "bench"))
import proof_times


class Times(unittest.TestCase):
    def test_parts_of_a_function_are_its_own(self):
        names = {
            "Rattle-peg_tree-proofs.levels.levels_in.Lts.oantt": "levels.levels_in",
            "Rattle-peg_tree-proofs.nested.nested.Carried-10-1-1-0.oantt": "nested.nested",
            "Rattle-peg_tree-proofs.write.write_bytes.Proof.decls.oantt": "write.write_bytes",
            "Rattle-peg_tree-proofs.NodeRows.decls.oantt": "NodeRows",
            "Rattle-peg_tree.oantt": None,
        }
        for name, function in names.items():
            self.assertEqual(proof_times.function_of(name), function)

    def test_the_first_module_has_no_time(self):
        files = [
            (12.0, "Rattle-peg_tree-proofs.b.g.Lts.oantt"),
            (10.0, "Rattle-peg_tree-proofs.a.f.Lts.oantt"),
            (12.5, "Rattle-peg_tree-proofs.b.g.Proof.oantt"),
            (11.0, "other"),
            (13.5, "Rattle-peg_tree-proofs.a.f.Proof.oantt"),
        ]
        self.assertEqual(proof_times.seconds_by_function(files), {"b.g": 2.5, "a.f": 1.0})


if __name__ == "__main__":
    unittest.main()
