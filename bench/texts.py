"""Texts for the scripts of this folder, the same bytes each time."""
import json
import random

EXAMPLES = "../examples"


def json_text(count):
    """About the given number of bytes of JSON: a list of objects with numbers, texts, lists and constants."""
    dice = random.Random(1)
    parts, length = [], 0
    while length < count:
        entry = {
            "id": dice.randrange(10**6),
            "name": "".join(dice.choices("abcdefghij klmno\"\\", k=dice.randrange(4, 20))),
            "values": [dice.randrange(1000) / 8 for _ in range(dice.randrange(6))],
            "on": dice.choice([True, False, None]),
        }
        parts.append(json.dumps(entry))
        length += len(parts[-1]) + 2
    return ("[" + ", ".join(parts) + "]").encode()


def csv_text(count):
    dice = random.Random(2)
    lines, length = [], 0
    while length < count:
        line = ",".join(dice.choice(["%d" % dice.randrange(10**6), '"a ""quoted"" cell"', "word"]) for _ in range(8))
        lines.append(line)
        length += len(line) + 2
    return "\r\n".join(lines).encode()


def sums(count):
    """Sums and products of whole numbers, some in parentheses."""
    dice = random.Random(3)
    parts, length = [], 0
    while length < count:
        part = "%d" % dice.randrange(1000)
        if dice.randrange(3) == 0:
            part = "(%s %s %d)" % (part, dice.choice("+-*/"), dice.randrange(1, 100))
        parts.append(part)
        length += len(part) + 3
    return (" ".join(part + " " + dice.choice("+-*/") for part in parts) + " 1").encode()


def grammars(count):
    with open(f"{EXAMPLES}/json.peg", "rb") as file:
        rules = file.read()
    return rules * (count // len(rules) + 1)


def log_text(count):
    """Lines of a web server's log in the combined format."""
    dice = random.Random(4)
    lines, length = [], 0
    while length < count:
        host = ".".join(str(dice.randrange(256)) for _ in range(4))
        day, month, clock = dice.randrange(1, 29), dice.choice(["Jan", "Jun", "Oct", "Dec"]), dice.randrange(86_400)
        time = "%02d/%s/2026:%02d:%02d:%02d +0000" % (day, month, clock // 3600, clock // 60 % 60, clock % 60)
        page = "/" + "".join(dice.choices("abcdefgh/-_", k=dice.randrange(4, 40)))
        status, size = dice.choice([200, 200, 304, 404]), dice.randrange(10**5)
        rest = '"GET %s HTTP/1.1" %d %d "-" "Mozilla/5.0 (X11; Linux x86_64)"' % (page, status, size)
        lines.append("%s - - [%s] %s\n" % (host, time, rest))
        length += len(lines[-1])
    return "".join(lines).encode()
