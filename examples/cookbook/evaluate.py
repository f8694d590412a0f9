#!/usr/bin/env python3
"""Works out a formula of ladder.peg from its tree: `evaluate.py TEXT`. The program is pegtool, or what PEGTOOL
names."""
import json
import operator
import os
import subprocess
import sys

GRAMMAR = os.path.join(os.path.dirname(os.path.abspath(__file__)), "ladder.peg")
SIGNS = {b"+": operator.add, b"-": operator.sub, b"*": operator.mul, b"/": operator.truediv}

text = open(sys.argv[1], "rb").read()


def value(node):
    """The value of a node, by the values of its children. Signs stand in the text where their nodes begin."""
    children = [child for child in node["children"] if child["rule"] not in ("Spacing", "End")]
    match node["rule"]:
        case "Number":
            return int(text[node["start"]:node["end"]])
        case "Sum" | "Product":  # to the left
            result = value(children[0])
            for sign, operand in zip(children[1::2], children[2::2]):
                result = SIGNS[text[sign["start"]:sign["start"] + 1]](result, value(operand))
            return result
        case "Power" if len(children) == 3:  # to the right, since its exponent is the rest
            return value(children[0]) ** value(children[2])
        case "Signed" if len(children) == 2:
            return -value(children[1])
    return value(children[0])


words = [os.environ.get("PEGTOOL", "pegtool"), "parse", GRAMMAR, sys.argv[1]]
answer = json.loads(subprocess.run(words, stdout=subprocess.PIPE).stdout)
print(value(answer["tree"]) if answer["result"] == "matched" else "no formula")
