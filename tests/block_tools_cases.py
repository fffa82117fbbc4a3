#!/usr/bin/env python3
"""block_tools_cases.py [CRATES]: write stdin and stdout of the program block_tools_cases (in crates by default).

Written from the rules alone (docs/RULES.md, and clause 8.6 with the range extensions): it shares nothing with the crates. Accumulation is the clause's
own loop, one sample after the other in place, where the definitions have sums.
"""
from case_files import named, shown, wide, word, write_files
from rules import coefficient_range, factor, limited, scaled, skipped

WAYS = ("off", "rows", "columns")
LIST = [16] * 64
LIST[0], LIST[1], LIST[5], LIST[15] = 40, 3, 99, 1
DC = 77


# ---- the rules
def rotated(block, n):
    return [block[(n - 1 - i // n) * n + n - 1 - i % n] for i in range(n * n)]


def accumulated(block, n, way):
    r = list(block)
    for y in range(n):
        for x in range(n):
            if way == "rows" and x > 0:
                r[y * n + x] += r[y * n + x - 1]
            if way == "columns" and y > 0:
                r[y * n + x] += r[(y - 1) * n + x]
    return r


# ---- calls: (number, place, row, column, and for transform skip how many coefficients were limited) and the output afterwards
def early(n, b, t):
    if n not in (4, 8, 16, 32):
        return 1
    if not 8 <= b <= 16:
        return 2
    return 25 if t and n != 4 else 0


def lengths(n, levels, out):
    return 6 if len(levels) < n * n else 7 if len(out) < n * n else 0


def skip(levels, n, qp, b, x, entries, dc, t, way, out):
    number = early(n, b, t) or (5 if entries is not None and len(entries) != 64 else 0) or lengths(n, levels, out)
    if number:
        return (number, 0, 0, 0, 0), out
    block = [scaled(levels[i], factor(entries, dc, n, i), n, qp, b, x) for i in range(n * n)]
    block = rotated(block, n) if t else block
    return (0, 0, 0, 0, limited(levels, entries, dc, n, qp, b, x)), accumulated([skipped(z, n, b, x) for z in block], n, way) + out[n * n :]


def bypass(levels, n, b, x, t, way, out):
    number = early(n, b, t) or lengths(n, levels, out)
    if number:
        return (number, 0, 0, 0), out
    r = coefficient_range(b, x)
    for i in range(n * n):
        if not -(2**r) <= levels[i] < 2**r:
            return (19 if levels[i] < 0 else 9, 0, i // n, i % n), out
    block = rotated(levels[: n * n], n) if t else levels[: n * n]
    return (0, 0, 0, 0), accumulated(block, n, way) + out[n * n :]


# ---- cases
GIVEN, SMALL, WIDE = range(3)
SKIP, LISTED, BYPASS = range(3)
cases, lines = [], []


def sums(out):
    first = second = 0
    for z in out:
        first = (first + z) % 2**32
        second = (second + first) % 2**32
    return shown(first, second)


def filled(over_16_bits):
    samples = [7919 * i % 2**16 for i in range(1024)]
    return [s - 32768 if over_16_bits else s % 601 - 300 for s in samples]


def add(name, which, n, b, x, t, way, levels, length, entries=(), dc=0, qp=10, how=GIVEN):
    """An output of `length` places holds 999 throughout."""
    out = [999] * length
    if which == BYPASS:
        answer, after = bypass(levels, n, b, x, t, way, out)
    else:
        answer, after = skip(levels, n, qp, b, x, list(entries) if which == LISTED else None, dc, t, way, out)
    name = f"{name} {('skip', 'listed', 'bypass')[which]} {n} {b} {int(x)} {int(t)} {way}:"
    fixed = bytes([which]) + word(n) + wide([qp]) + bytes([b, x, dc, t, WAYS.index(way)])
    made = word(len(levels)) + bytes([how]) + (wide(levels) if how == GIVEN else b"")
    cases.append(named(name) + fixed + word(len(entries)) + bytes(entries) + made + word(length))
    lines.append(name + shown(*answer) + sums(after) + (shown(after) if length < 100 else "") + "\n")


def sweep(n, t):
    for b, x in ((8, False), (16, False), (10, True), (16, True)):
        for way in WAYS:
            add("sweep", SKIP, n, b, x, t, way, filled(False), 1028, how=SMALL)
            add("sweep", LISTED, n, b, x, t, way, filled(False), 1028, LIST, DC, how=SMALL)
            add("sweep", BYPASS, n, b, x, t, way, filled(True), 1028, how=WIDE)


def written():
    for way in WAYS:
        for t in (False, True):
            add("written", BYPASS, 4, 8, False, t, way, list(range(15)) + [-15], 17)


def furthest():
    """The largest block of one level: the last sums are the furthest from 0."""
    for x, level, way in ((False, -32768, "rows"), (False, 32767, "columns"), (True, -4194304, "columns"), (True, 4194303, "rows")):
        for which in (SKIP, BYPASS):
            add("furthest", which, 32, 16, x, False, way, [level] * 1024, 1024, qp=51)


def ladder():
    levels, few, entries, short = [32768] * 64, [1] * 15, [16] * 64, [16] * 63
    for label, n, b, given, lent, places in (
        ("size 12, depth 7, rotated", 12, 7, few, short, 15),
        ("depth 7, rotated", 8, 7, few, short, 15),
        ("depth 17, rotated", 8, 17, few, short, 15),
        ("size 8 rotated, all short", 8, 8, few, short, 15),
        ("size 32 rotated", 32, 16, levels, entries, 64),
        ("63 entries, 15 levels, 15 places", 4, 8, few, short, 15),
        ("15 levels, 15 places", 4, 8, few, entries, 15),
        ("15 places, levels outside", 4, 8, levels, entries, 15),
    ):
        for which in (SKIP, LISTED, BYPASS):
            add(label, which, n, b, False, True, "rows", given, places, lent if which == LISTED else (), 16)


def borders():
    for index, level, x, b in (
        (0, 32768, False, 16),
        (9, -32769, False, 16),
        (62, 32767, False, 16),
        (62, -32768, True, 9),
        (10, 65536, True, 10),
        (10, 65535, True, 10),
        (17, 4194304, True, 16),
        (17, 4194303, True, 16),
        (63, 0, True, 16),
    ):
        levels = [7] * 64
        levels[index] = level
        levels[63] = -4194305
        add(f"{level} at {index}", BYPASS, 8, b, x, False, "columns", levels, 64)


def main():
    written()
    furthest()
    ladder()
    borders()
    for n, t in ((4, False), (4, True), (8, False), (16, False), (32, False)):
        sweep(n, t)
    write_files("block_tools_cases", {"stdin": b"".join(cases), "stdout": "".join(lines)})


main()
