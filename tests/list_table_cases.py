#!/usr/bin/env python3
"""list_table_cases.py [CRATES]: write stdin and stdout of the program list_table_cases (in crates by default).

Written from the rules alone (docs/RULES.md and change request R-10): it shares nothing with the crates. stdin holds 512 bytes that lists are cut from, then
calls of ten bytes, as the program's head describes them: first every refusal at its border, then calls of both streams by turns. stdout holds a line for each
call, and the table's bytes.
"""
import random

from case_files import write_files
from rules import factor, limited, scaled, skipped

BYTES = [(37 * i + i // 7 + 1) % 256 for i in range(512)]
LEVELS = [1, -1, 0, 3, -7, 40, -300, 1000, -2500, 32767, -32768, 2147483647, -2147483648]
STORE, DROP, LOOK, WIDE, WIDE_SKIP, NARROW, NARROW_SKIP = range(7)
WHOLE, SHORT_TABLE, SHORT_LEVELS, SHORT_OUT = range(4)

# a stream has what it holds by number, and what was last stored under each
held = [{}, {}]
last = [{}, {}]
calls, lines = bytearray(BYTES), []


def say(*values):
    lines.append("".join(f" {v}" for v in values) + "\n")


def call(which, stream, number=0, start=0, long=64, byte=16, amiss=WHOLE, qp=20, depth=8, extended=0):
    calls.extend((which, stream, number, start, long, byte, amiss, qp, depth, extended))


def missing(stream, number):
    return stream > 1 or number not in held[stream]


# ---- the table
def store(stream, start=0, long=64, dc=16, amiss=WHOLE):
    call(STORE, stream, 0, start, long, dc, amiss)
    if long != 64:
        return say(5, 0)
    if amiss == SHORT_TABLE:
        return say(7, 0)
    if stream > 1:
        return say(18, 0)
    if len(held[stream]) == 12:
        return say(17, 0)
    number = min(set(range(12)) - set(held[stream]))
    held[stream][number] = last[stream][number] = BYTES[start:start + 64], dc
    return say(0, 0, number)


def drop(stream, number, amiss=WHOLE):
    call(DROP, stream, number, amiss=amiss)
    if amiss == SHORT_TABLE:
        return say(7, 0)
    if missing(stream, number):
        return say(18, 0)
    del held[stream][number]
    return say(0, 0)


def look(stream, number, long=64, amiss=WHOLE):
    call(LOOK, stream, number, 0, long, amiss=amiss)
    lent = [7] * long
    if amiss == SHORT_TABLE or long < 64:
        return say(7, 0, *lent)
    if missing(stream, number):
        return say(18, 0, *lent)
    entries, dc = held[stream][number]
    return say(0, 0, dc, *entries, *lent[64:])


def scale(which, stream, number, n=4, amiss=WHOLE, qp=20, depth=8, extended=0):
    call(which, stream, number, 0, 0, n, amiss, qp, depth, extended)
    lent = [7] * (15 if amiss == SHORT_OUT else {8: 65, 16: 257, 32: 1025}.get(n, 17))
    if n not in (4, 8, 16, 32):
        return say(1, 0, 0, *lent)
    if not 8 <= depth <= 16:
        return say(2, 0, 0, *lent)
    if which in (NARROW, NARROW_SKIP) and (depth > 9 or extended):
        return say(3, 0, 0, *lent)
    if amiss == SHORT_LEVELS:
        return say(6, 0, 0, *lent)
    if amiss in (SHORT_OUT, SHORT_TABLE):
        return say(7, 0, 0, *lent)
    if missing(stream, number):
        return say(18, 0, 0, *lent)
    entries, dc = held[stream][number]
    levels = [LEVELS[i % 13] for i in range(n * n)]
    count = limited(levels, entries, dc, n, qp, depth, extended)
    values = [scaled(levels[i], factor(entries, dc, n, i), n, qp, depth, extended) for i in range(n * n)]
    if which in (WIDE_SKIP, NARROW_SKIP):
        values = [skipped(z, n, depth, extended) for z in values]
    return say(0, 0, count, *values, 7)


# ---- every refusal at its border
def borders():
    for long in (63, 65, 0):
        store(0, 3, long)
        store(2, 3, long, 16, SHORT_TABLE)
    for stream in (0, 2, 255):
        store(stream, 3, 64, 16, SHORT_TABLE)
        drop(stream, 0, SHORT_TABLE)
        look(stream, 0, 64, SHORT_TABLE)
        look(stream, 0, 63)
        store(2 + stream // 2, 3)
    for stream in (0, 1):
        drop(stream, 0)
        for i in range(12):
            look(stream, i)
            store(stream, 10 * i + stream, 64, 100 + i)
            look(stream, i, 65)
        store(stream, 5)
        store(2, 5)
        look(stream, 0, 63)
        for number in (12, 255):
            drop(stream, number)
            look(stream, number)
    for number in (11, 0, 4):
        drop(1, number)
        drop(1, number)
        look(0, number)
        look(1, number)
        drop(2, number)
        drop(255, number)
    for dc in (1, 2, 3, 4):
        store(1, 200, 64, dc)
    for which in (WIDE, WIDE_SKIP, NARROW, NARROW_SKIP):
        narrow = which in (NARROW, NARROW_SKIP)
        for n in (0, 3, 5, 12, 64):
            scale(which, 2, 0, n, SHORT_LEVELS, 20, 7)
        for depth in (7, 17):
            scale(which, 2, 0, 4, SHORT_LEVELS, 20, depth, 1)
        scale(which, 2, 0, 4, SHORT_LEVELS, 20, 10)
        scale(which, 2, 0, 4, SHORT_LEVELS, 20, 8, 1)
        scale(which, 2, 0, 4, SHORT_LEVELS)
        scale(which, 2, 0, 4, SHORT_TABLE)
        scale(which, 0, 0, 4, SHORT_TABLE)
        for stream, number in ((2, 0), (255, 0), (0, 12), (1, 255)):
            scale(which, stream, number)
        drop(0, 6)
        scale(which, 0, 6)
        scale(which, 1, 6)
        store(0, 77, 64, 9)
        for n in (4, 8, 16, 32):
            scale(which, 0, 6, n, WHOLE, 30, 8)
            scale(which, 1, 11, n, WHOLE, 5, 9 if narrow else 16, 0 if narrow else 1)
    scale(WIDE, 2, 0, 4, SHORT_OUT)
    scale(NARROW_SKIP, 2, 0, 4, SHORT_OUT)


# ---- both streams by turns
def by_turns(turns):
    draw = random.Random(10)
    for turn in range(turns):
        stream = draw.choice((0, 0, 0, 1, 1, 1, 2))
        number = draw.randrange(13)
        which = draw.choice((STORE, STORE, DROP, LOOK, WIDE, WIDE_SKIP, NARROW, NARROW_SKIP))
        if which == STORE:
            store(stream, draw.randrange(256), draw.choice((64, 64, 64, 64, 64, 64, 65)), draw.randrange(256))
        elif which == DROP:
            drop(stream, number)
        elif which == LOOK:
            look(stream, number, draw.choice((64, 65)))
        else:
            scale(which, stream, number, 4, WHOLE, draw.randrange(70), draw.choice((8, 9)))


def table():
    places = []
    for stream in (0, 1):
        for number in range(12):
            entries, dc = last[stream].get(number, ([0] * 64, 0))
            places += [int(number in held[stream]), dc, *entries]
    return places + [0]


borders()
by_turns(600)
say(*table())
write_files("list_table_cases", {"stdin": calls, "stdout": "".join(lines)})
