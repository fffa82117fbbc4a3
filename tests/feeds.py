#!/usr/bin/env python3
"""feeds.py [COUNT]: runs the feed program and the listing on whole feeds, cut ones and COUNT random ones (200 unless given), and compares with feed_rules.py.

Each feed is a run of its own. The programs are those of FOXENTU_BIN where it is given, else they are built.
"""
import random
import re
import subprocess
import sys

import feed_cases
from feed_cases import DROP, READ, a_list, edit, levels, parameters
from feed_rules import SIZES, listing, residuals

sys.path.insert(0, "bindings/python")
from foxentu import build  # noqa: E402

LEVELS = (0, 1, -1, 32767, 32768, -32768, -32769, 2**31 - 1, -(2**31))


def a_block(chance, mode):
    kind = 4 if mode == 1 else chance.choices((4, 5, 6, 7), (12, 6, 2, 1))[0]
    size, share = chance.choice((4, 200, 40000)), chance.choice((1, 4, 30))
    return kind, levels(kind, [chance.randint(-size, size) if chance.randrange(share) == 0 else 0 for _ in range(SIZES[kind] ** 2)])


def an_edit(chance, n):
    level = chance.choice(LEVELS) if chance.randrange(2) else chance.randint(-300, 300)
    return edit(chance.randrange(n), chance.randrange(n), level)


def random_feed(chance):
    """Records of every kind; a block that edits change is mostly there for them."""
    feed, n, mode = b"", None, None
    for _ in range(1 + chance.randrange(16)):
        kind = 1 if mode is None else chance.choices((1, 2, 3, 4, 8, 9), (2, 2, 1, 6, 12, 6))[0]
        if kind > 4 and n is None and chance.randrange(30):
            kind = 4
        if kind == 8:
            feed += an_edit(chance, n or 4)
        elif kind == 9:
            feed += READ
        elif kind == 4:
            opened, record = a_block(chance, mode)
            feed, n = feed + record, SIZES[opened] if mode != 2 else None
        else:
            mode, n = chance.choice((0, 0, 0, 1, 2)) if kind == 1 else mode, None
            record = parameters(8 + chance.randrange(9), chance.randrange(2), chance.randrange(110), mode) if kind == 1 else DROP
            feed += a_list([chance.randrange(256) for _ in range(64)], chance.randrange(256)) if kind == 2 else record
    return feed


def feeds(count):
    """Each feed with a name for it."""
    whole = feed_cases.bug_case()
    yield "the bug case", whole
    yield "the reasons of the listing", feed_cases.reasons()
    for length in (*range(0, 600, 19), len(whole) - 9, len(whole) - 70):
        yield f"the bug case cut at byte {length}", whole[:length]
    for name in ("edit_refusals", "edits", "columns"):
        for number, feed in enumerate(feed_cases.cases(name)):
            yield f"case {number} of {name}", feed
    for number in range(count):
        yield f"random feed {number}", random_feed(random.Random(265000 + number))


def main():
    count = int(sys.argv[1]) if len(sys.argv) > 1 else 200
    programs = [build.program(name) for name in ("feed_main", "scale_trace_main")]
    runs, wrong, ends = 0, 0, {}
    for name, feed in feeds(count):
        texts = residuals(feed), listing(feed)
        for program, text in zip(programs, texts):
            ran = subprocess.run([program], input=feed, capture_output=True)
            runs += 1
            if ran.returncode or ran.stderr or ran.stdout.decode("ascii", "replace") != text:
                wrong += 1
                print(f"feeds: {name}: {program} with status {ran.returncode} does not write its text; the feed: {feed.hex(' ')}")
        end = re.search(r"(blocks|refused \d+) \d+\n$", texts[0])[1]
        ends[end] = ends.get(end, 0) + 1
    print(f"feeds: {runs} runs, {wrong} wrong; last lines: {', '.join(f'{n} {end}' for end, n in sorted(ends.items()))}")
    sys.exit(1 if wrong else 0)


main()
