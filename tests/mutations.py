#!/usr/bin/env python3
"""mutations.py COUNT [SEED]: damaged texts of feeds, of coefficients and of scaling lists, and damaged bytes, through their readers.

Each gives a feed or one mistake with file, line and column; anything else, an exception of another kind above all, is shown with its text and fails. What is
accepted is written as text and read again, and has to be the same bytes.
"""
import pathlib
import random
import re
import sys

sys.path.insert(0, "bindings/python")
from foxentu import command, feedtext  # noqa: E402

TEXTS = [path.read_bytes() for path in sorted(pathlib.Path("examples").glob("*.txt"))]
TEXTS += [
    b"\xef\xbb\xbfparameters mode=skip qp=-12 extended=1 depth=10\r\nlist " + b"16 " * 63 + b"9\r\n dc=20 levels 4 -1 ..\r\nnolist # none\r\nshow edit 3 3 -2147483648 bytes 0x00 255\r\n",
    b"levels 8 " + b" ".join(b"%d" % (i - 30) for i in range(64)) + b"\nlevels 16 .. levels 32 7 ..\n",
    b"parameters depth=8 extended=0 qp_prime=4 mode=dct coefficients 4 64 -32 ..",
]
LISTS = b"\n".join(b"%dx%d %d%s %s" % (s, s, m, b" dc=16" if s > 8 else b"", b"16 " * (16 if s == 4 else 64)) for s in (4, 8, 16, 32) for m in range(0, 6, 3 if s == 32 else 1))
WORDS = feedtext.RECORDS + ("coefficients", "..", "...", "depth=8", "depth=", "=8", "qp=51", "qp_prime=63", "mode=dst", "dc=0", "#", "0", "-1", "+5", "4", "8", "16", "32", "33", "2147483647", "2147483648", "-2147483649", "9" * 400, "1e3", "0x10", "1_0", "\u0663", "\u00fc", "--", "-", "+", ".", "\ufeff", "4x4", "32x32", "dc=256")
BYTES = b"\x00\x01\x09\x0a\x0b\x0c\x0d\x1a\x1b #=-+._x0\x7f\x80\xc3\xff"


def mutated(data, chance):
    data = bytearray(data)
    for _ in range(1 + chance.randrange(4)):
        at = chance.randrange(len(data) + 1)
        way = chance.randrange(8)
        if way == 0:
            data[at:at + 1] = bytes([chance.randrange(256)])
        elif way == 1:
            del data[at:at + 1 + chance.randrange(12)]
        elif way == 2:
            data[at:at] = bytes([chance.choice(BYTES)])
        elif way == 3:
            data[at:at] = b" " + chance.choice(WORDS).encode() + b" "
        elif way == 4:
            del data[at:]
        elif way == 5:
            end = at + chance.randrange(60)
            data[at:at] = data[at:end]
        else:
            spans = [m.span() for m in re.finditer(rb"\S+", bytes(data))]
            if spans:
                start, end = chance.choice(spans)
                data[start:end] = chance.choice(WORDS).encode() if way == 6 else bytes(data[slice(*chance.choice(spans))])
    return bytes(data)


def accepts(read, data):
    try:
        return read(data)
    except feedtext.TextError as mistake:
        if not re.fullmatch(r"f:[1-9][0-9]*:[1-9][0-9]*: .+", str(mistake)) or not str(mistake).isprintable():
            raise ValueError(f"a mistake that is not told as one line: {str(mistake)!r}")
        return None


def attempt(number, chance):
    """One mutation; says whether it was accepted."""
    if number % 16 == 0:
        return accepts(lambda d: command.feed_lists(feedtext.Source(d, "f")), mutated(LISTS, chance)) is not None
    data = mutated(chance.choice(TEXTS), chance)
    feedtext.is_text(data)
    words = ("parameters", "list", "nolist", "coefficients") if b"coefficients" in data else feedtext.RECORDS
    feed = accepts(lambda d: feedtext.read(d, "f", words), data)
    if feed is None:
        # as bytes it is a feed all the same, however damaged
        again(data)
        return False
    for offset in (0, len(feed.bytes) // 2, len(feed.bytes)):
        feed.where(offset)
    again(mutated(feed.bytes, chance) if number % 2 else feed.bytes)
    return True


def again(data):
    text = "\n".join(feedtext.write(data)).encode()
    if feedtext.read(text, "f").bytes != data:
        raise ValueError(f"not the same bytes after unpack and pack: {data!r}")


def main():
    count, seed = int(sys.argv[1]), int(sys.argv[2]) if len(sys.argv) > 2 else 265
    accepted = 0
    for number in range(count):
        chance = random.Random(seed * 1000003 + number)
        try:
            accepted += attempt(number, chance)
        except Exception as error:
            print(f"mutations: number {number} of seed {seed}: {type(error).__name__}: {error}")
            raise
    print(f"mutations: {count} texts, {accepted} accepted, every mistake told with its place")


main()
