"""The package as a whole: its version, and the parts of its wheel."""

import base64
import csv
import hashlib
import importlib.util
import inspect
import io
import os
import pathlib
import subprocess
import sys
import tempfile
import typing
import unittest
import zipfile

import pegtool

PYTHON = pathlib.Path(__file__).resolve().parent.parent
BACKEND = PYTHON / "backend" / "pegtool_build.py"


def backend():
    """The module that builds wheels."""
    spec = importlib.util.spec_from_file_location("pegtool_build", BACKEND)
    module = importlib.util.module_from_spec(spec)
    spec.loader.exec_module(module)
    return module


class Version(unittest.TestCase):
    def test_the_version_is_the_version_of_the_library(self):
        self.assertEqual(pegtool.__version__, pegtool.version())

    def test_the_command_line_prints_the_version(self):
        environment = {**os.environ, "PYTHONPATH": str(PYTHON)}
        words = [sys.executable, "-m", "pegtool", "--version"]
        printed = subprocess.run(words, env=environment, capture_output=True, text=True, check=True).stdout
        self.assertEqual(printed, f"pegtool {pegtool.__version__}\n")


class Annotations(unittest.TestCase):
    def test_annotations_can_be_read(self):
        kinds = (pegtool.Grammar, pegtool.Match, pegtool.Failure, pegtool.Node, pegtool.Text, pegtool.Rows)
        read = 0
        for kind in (*kinds, pegtool.Visitor, pegtool.Transformer):
            for name, member in inspect.getmembers(kind):
                function = member.fget if isinstance(member, property) else member
                if inspect.isroutine(function) and not name.startswith("_"):
                    read += bool(typing.get_type_hints(function))
        self.assertGreater(read, 40)


@unittest.skipUnless(backend().LIBRARY.exists(), "out/lib/libpeg.so.1 isn't built")
class Wheel(unittest.TestCase):
    def setUp(self):
        with tempfile.TemporaryDirectory() as folder:
            self.name = backend().build_wheel(folder)
            content = pathlib.Path(folder, self.name).read_bytes()
        self.wheel = zipfile.ZipFile(io.BytesIO(content))
        self.info = f"pegtool-{pegtool.__version__}.dist-info"

    def test_the_wheel_has_the_package_and_the_library(self):
        modules = {f"pegtool/{path.name}" for path in (PYTHON / "pegtool").glob("*.py")}
        described = {f"{self.info}/{name}" for name in ("METADATA", "WHEEL", "RECORD")}
        others = {"pegtool/py.typed", "pegtool/libpeg.so.1"}
        self.assertEqual(set(self.wheel.namelist()), modules | others | described)

    def test_each_file_has_its_sum_in_the_record(self):
        record = self.wheel.read(f"{self.info}/RECORD").decode("ascii")
        lines = {name: (digest, size) for name, digest, size in csv.reader(record.splitlines())}
        self.assertEqual(set(lines), set(self.wheel.namelist()))
        self.assertEqual(lines.pop(f"{self.info}/RECORD"), ("", ""))
        for name, (digest, size) in lines.items():
            content = self.wheel.read(name)
            kind, _, value = digest.partition("=")
            sum_of_content = base64.urlsafe_b64decode(value + "=" * (-len(value) % 4))
            self.assertEqual((kind, sum_of_content), ("sha256", hashlib.sha256(content).digest()), name)
            self.assertEqual(int(size), len(content), name)

    def test_the_tag_is_for_any_python_on_this_platform(self):
        described = self.wheel.read(f"{self.info}/WHEEL").decode("ascii").splitlines()
        self.assertIn("Root-Is-Purelib: false", described)
        (tag,) = (line for line in described if line.startswith("Tag: "))
        self.assertRegex(tag, r"^Tag: py3-none-[a-z0-9_]+$")
        self.assertTrue(self.name.endswith(f"-{tag[len('Tag: ') :]}.whl"))

    def test_there_is_no_source_distribution(self):
        module = backend()
        self.assertRaises(module.UnsupportedOperation, module.build_sdist, ".")


if __name__ == "__main__":
    unittest.main()
