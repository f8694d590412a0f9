"""Grammar files that a hostile sender might choose, of about the given number of bytes each, and the same bytes each time."""
import itertools

FIRST = "abcdefghijklmnopqrstuvwxyzABCDEFGHIJKLMNOPQRSTUVWXYZ_"
LATER = FIRST + "0123456789"
MASK = (1 << 64) - 1
MULTIPLIER = 0x9E3779B97F4A7C15
SEED = 0x243F6A8885A308D3


def names(length):
    """Names of the given length, in order."""
    return map("".join, itertools.product(FIRST, *[LATER] * (length - 1)))


def repeated(front, piece, back, size):
    """A start, a piece as often as it fits, and an end."""
    return (front + piece * ((size - len(front) - len(back)) // len(piece)) + back).encode()


def rules(size, step, last):
    """Rules of four letters that each call the rule at this distance after it; the last one is the given expression, if any."""
    count = size // 11
    these = list(itertools.islice(names(4), count))
    uses = [these[(at + step) % count] for at in range(count)]
    if last is not None:
        uses[-1 if step > 0 else 0] = last
    return "".join(f"{name}<-{use}\n" for name, use in zip(these, uses)).encode()


def small_rules(size, back=""):
    """Rules of no expression, each of five bytes."""
    count = (size - len(back)) // 6
    return ("".join(f"{name}<-" for name in itertools.islice(names(4), count)) + back).encode()


def alike(size):
    """Rules whose names of 64 bytes differ in the last three alone, each of which calls the next."""
    count = size // 131
    these = ["N" * 61 + tail for tail in itertools.islice(names(3), count)]
    return "".join(f"{a}<-{b}\n" for a, b in zip(these, these[1:] + ["."])).encode()


def multiplied(a, b):
    product = a * b
    return (product & MASK) ^ (product >> 64)


def word(text):
    return int.from_bytes(text.encode(), "little")


def colliding(size):
    """Rules whose names of 32 bytes have one hash under the standard library's hasher of fixed seed: what it makes of
    the first 16 bytes follows them, so that a factor is 0 whatever the last 8 are."""
    for number in itertools.count():
        front = "A%015d" % number
        made = multiplied(word(front[:8]) ^ (SEED + 32), word(front[8:]) ^ MULTIPLIER).to_bytes(8, "little")
        if all(chr(byte) in LATER for byte in made):
            break
    front += made.decode()
    return "".join(f"{front}{number:08}<-\n" for number in range(size // 35)).encode()


def different(size):
    """A choice of literals that all differ."""
    made, length, number = ["A<-'x'"], 6, 0
    while length + 10 < size:
        made.append(f"/'{number:x}'")
        length += len(made[-1])
        number += 1
    return "".join(made).encode() + b"\n"


KINDS = {
    "rules that each call the next": lambda n: rules(n, 1, "."),
    "rules that each call the one before": lambda n: rules(n, -1, "."),
    "a left cycle, forwards": lambda n: rules(n, 1, None),
    "a left cycle, backwards": lambda n: rules(n, -1, None),
    "rules of no expression": small_rules,
    "the same, a name twice at the end": lambda n: small_rules(n, "aaaa<-"),
    "the same, a name missing at the end": lambda n: small_rules(n, "zzzz<-none"),
    "the same, an empty loop at the end": lambda n: small_rules(n, "zzzz<-''*"),
    "names of 64 bytes with a common prefix of 61": alike,
    "names of 32 bytes with the same hash": colliding,
    "a name of half the file": lambda n: b"A" * (n // 2 - 2) + b"<-" + b"A" * (n // 2 - 2),
    "empty alternatives": lambda n: repeated("A<-", "/", "\n", n),
    "alternatives of a dot": lambda n: repeated("A<-.", "/.", "\n", n),
    "alternatives that are all the same": lambda n: repeated("A<-'b'", "/'a'", "\n", n),
    "alternatives of different literals": different,
    "a sequence of dots": lambda n: repeated("A<-", ".", "\n", n),
    "a sequence of fewer dots": lambda n: repeated("A<-", ".", "\n", n * 95 // 100),
    "a sequence of names": lambda n: repeated("A<-.", " A", "\n", n),
    "empty literals": lambda n: repeated("A<-", "''", "\n", n),
    "a literal": lambda n: repeated("A<-'", "a", "'\n", n * 95 // 100),
    "a literal that isn't closed": lambda n: repeated("A<-'", "a", "\n", n),
    "empty classes": lambda n: repeated("A<-", "[]", "\n", n),
    "a class": lambda n: repeated("A<-[", "ab-z", "]\n", n),
    "operators and dots": lambda n: repeated("A<-", "!.?", "\n", n),
    "stars of dots": lambda n: repeated("A<-", ".*", "\n", n),
    "pluses of dots": lambda n: repeated("A<-", ".+", "\n", n),
    "groups of 200 nested parentheses": lambda n: repeated("A<-", "(" * 200 + "." + ")" * 200, "\n", n),
    "opening parentheses": lambda n: repeated("A<-", "(", "", n),
    "groups of 200 nested pluses": lambda n: repeated("A<-", "(" * 200 + "." + ")+" * 200, "\n", n),
    "groups of 200 nested optionals": lambda n: repeated("A<-", "(" * 200 + "." + ")?" * 200, "\n", n),
    "counts of dots": lambda n: repeated("A<-", ".{0,255}", "\n", n),
    "a count of numbers of half the file": lambda n: b"A<-.{" + b"1" * (n // 2 - 5) + b"," + b"1" * (n // 2 - 5) + b"}\n",
    "counts of counts": lambda n: repeated("A<-", "(((.{255}){255}){255})", "\n", n),
    "counts of dots, an empty loop at the end": lambda n: repeated("A<-", ".{0,255}", " ''*\n", n),
    "counts of dots, a left cycle at the end": lambda n: repeated("A<-", ".{0,255}", "\nB<-B\n", n),
    "groups of 200 nested counts": lambda n: repeated("A<-", "(" * 200 + "." + "){2,3}" * 200, "\n", n),
    "counts of empty literals": lambda n: repeated("A<-", "''{255}", "\n", n),
    "the same, one iteration optional": lambda n: repeated("A<-", "''{254,255}", "\n", n),
    "the same, three of four iterations optional": lambda n: repeated("A<-", "''{1,4}", "\n", n),
    "the same, all iterations optional": lambda n: repeated("A<-", "''{0,255}", "\n", n),
    "counts of counts of empty literals": lambda n: repeated("A<-", "(((''{255}){255}){255})", "\n", n),
    "counts of sequences of empty literals": lambda n: repeated("A<-", "(''''){255}", "\n", n),
    "groups of 200 nested counts of empty ones": lambda n: repeated("A<-", "(" * 200 + "''" + "){255}" * 200, "\n", n),
    "comments": lambda n: repeated("", "#\n", "A<-.\n", n),
    "a comment": lambda n: repeated("A<-.#", "#", "\n", n),
    "spaces": lambda n: repeated("A<-.", " ", "\n", n),
}
