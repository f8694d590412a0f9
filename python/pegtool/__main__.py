"""The command line: `python -m pegtool view GRAMMAR TEXT -o page.html`, and `python -m pegtool --version`."""

import argparse
import sys
from typing import List, Optional

from ._errors import GrammarError, PegError
from ._grammar import Grammar
from ._version import __version__
from ._view import MAX_NODES, page


def arguments() -> argparse.ArgumentParser:
    """The parser of the arguments."""
    parser = argparse.ArgumentParser(
        prog="python -m pegtool", description="Parse texts by parsing expression grammars."
    )
    parser.add_argument("--version", action="version", version=f"pegtool {__version__}")
    commands = parser.add_subparsers(dest="command", required=True)
    view = commands.add_parser("view", help="make a page of HTML that shows a parse")
    view.add_argument("grammar", help="the grammar file")
    view.add_argument("text", help="the text")
    view.add_argument("-o", "--output", required=True, help="the page to write")
    view.add_argument("--start", help="the name of the start rule; the first rule if not given")
    shown = view.add_mutually_exclusive_group()
    shown.add_argument("--show", type=names, help="the rules whose nodes are shown, separated by commas")
    shown.add_argument("--hide", type=names, help="the rules whose nodes are left out, separated by commas")
    view.add_argument(
        "--max-nodes", type=int, default=MAX_NODES, help=f"the most nodes in the page; {MAX_NODES:,} if not given"
    )
    return parser


def names(words: str) -> List[str]:
    """The names of rules in an argument."""
    return words.split(",")


def main(words: Optional[List[str]] = None) -> int:
    """Runs a command. Returns 0 if the text is matched whole, 1 if not, 2 for a refused grammar, 3 for a start that no
    rule has and for other errors of this package, and 4 for file faults. Wrong arguments end the process with status
    2."""
    options = arguments().parse_args(words)
    try:
        grammar = Grammar.from_file(options.grammar)
        with open(options.text, "rb") as file:
            answer = grammar.match(file.read(), options.start, show=options.show, hide=options.hide)
        with open(options.output, "w", encoding="utf-8") as file:
            file.write(page(grammar, answer, options.text, options.max_nodes))
    except OSError as error:
        print(error, file=sys.stderr)
        return 4
    except GrammarError as error:
        print(error, file=sys.stderr)
        return 2
    except PegError as error:
        print(error, file=sys.stderr)
        return 3
    return 0 if answer and answer.is_whole else 1


if __name__ == "__main__":
    sys.exit(main())
