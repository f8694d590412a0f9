#!/usr/bin/env python3
"""Prints the blocks of a text in the tokens of layout.peg: `blocks.py TEXT`. A line that is indented further than the
one before opens a block, and one that is indented less closes blocks; empty lines and comments do neither. The program
is pegtool, or what PEGTOOL names."""
import json
import os
import subprocess
import sys

GRAMMAR = os.path.join(os.path.dirname(os.path.abspath(__file__)), "layout.peg")

words = [os.environ.get("PEGTOOL", "pegtool"), "parse", GRAMMAR, sys.argv[1], "--rows"]
answer = json.loads(subprocess.run(words, stdout=subprocess.PIPE).stdout)
if answer["result"] != "matched":
    sys.exit("these are no tokens")
text = open(sys.argv[1], "rb").read()
widths, line = [0], []
for _, rule, start, end in answer["rows"]:
    if rule == "Indent":
        if end - start > widths[-1]:
            widths.append(end - start)
            line.append("{")
        while end - start < widths[-1]:
            widths.pop()
            line.append("}")
        if end - start != widths[-1]:
            sys.exit("a line is indented as no block is")
    elif rule == "Token":
        line.append(text[start:end].decode())
    elif rule == "LineEnd":
        print(*line)
        line = []
print(*line, *"}" * (len(widths) - 1))
