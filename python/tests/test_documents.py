"""The examples in the package's comments, in docs/PYTHON.md, docs/TUTORIAL.md and README.md."""

import doctest
import os
import unittest

import pegtool
import pegtool._arrays
import pegtool._grammar
import pegtool._match
import pegtool._text
import pegtool._visitor

TOP = os.path.abspath(os.path.join(os.path.dirname(__file__), os.pardir, os.pardir))
GUIDES = [os.path.join(TOP, *name) for name in (("README.md",), ("docs", "PYTHON.md"), ("docs", "TUTORIAL.md"))]


def at_top(test):
    """The examples name files from the top of the repository."""
    os.chdir(TOP)


def load_tests(loader, tests, pattern):
    for module in (pegtool, pegtool._arrays, pegtool._grammar, pegtool._match, pegtool._text, pegtool._visitor):
        tests.addTests(doctest.DocTestSuite(module, optionflags=doctest.IGNORE_EXCEPTION_DETAIL))
    tests.addTests(
        doctest.DocFileSuite(
            *GUIDES,
            module_relative=False,
            optionflags=doctest.IGNORE_EXCEPTION_DETAIL,
            encoding="utf-8",
            setUp=at_top,
        )
    )
    return tests


if __name__ == "__main__":
    unittest.main()
