"""The page that shows a parse, in a browser. Skipped where chromium isn't installed."""

import os
import shutil
import struct
import subprocess
import tempfile
import unittest

from pegtool import Grammar
from pegtool._view import page

CHROMIUM = shutil.which("chromium") or shutil.which("chromium-browser")
OPTIONS = ["--headless", "--no-sandbox", "--disable-gpu", "--hide-scrollbars"]

SUM = "Sum <- Product ('+' Product)*\nProduct <- Number ('*' Number)*\nNumber <- [0-9]+ / '(' Sum ')'\n"


def many_rules(count):
    """A grammar of a chain of rules."""
    lines = [f"Rule{n} <- 'a{n}' Rule{n + 1}? / [a-z]+ !'{n}'" for n in range(count - 1)]
    return "\n".join([*lines, f"Rule{count - 1} <- ."]) + "\n"


# A match, a failure, and a grammar of 60 rules.
PAGES = {"match": (SUM, "1+22*(3+4)"), "failure": (SUM, "1+22*(3+"), "rules": (many_rules(60), "a0a1a2x")}


@unittest.skipUnless(CHROMIUM, "chromium isn't installed")
class Browser(unittest.TestCase):
    def run_browser(self, folder, *words):
        command = [CHROMIUM, *OPTIONS, f"--user-data-dir={folder}/profile", *words]
        return subprocess.run(command, capture_output=True, check=True, timeout=120).stdout.decode("utf-8")

    def test_pages_are_shown(self):
        for name, (grammar, text) in PAGES.items():
            with self.subTest(name), tempfile.TemporaryDirectory() as folder:
                path, picture = os.path.join(folder, "page.html"), os.path.join(folder, "page.png")
                parser = Grammar(grammar, name=f"{name}.peg")
                with open(path, "w", encoding="utf-8") as file:
                    file.write(page(parser, parser.match(text), f"{name}.txt"))
                # The last line of the page's script sets this.
                self.assertIn('data-ready="yes"', self.run_browser(folder, "--dump-dom", f"file://{path}"))
                self.run_browser(folder, f"--screenshot={picture}", "--window-size=1200,900", f"file://{path}")
                with open(picture, "rb") as file:
                    head = file.read(24)
                self.assertEqual(struct.unpack(">II", head[16:24]), (1200, 900))


if __name__ == "__main__":
    unittest.main()
