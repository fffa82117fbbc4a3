#!/usr/bin/env python3
"""scaling_cases.py [CRATES]: write stdin and stdout of the program scaling_cases (in crates by default).

Written from the rules alone (docs/RULES.md): it shares nothing with the crates. Every row of the table that scaling has, at its border, the examples of m, levels,
blocks and transform skip, and the borders of what is limited.
"""
from case_files import named, short, shown, wide, word, write_files
from rules import coefficient_range, factor, limited, scaled, scaled_parts, skipped

FACTOR, LEVEL = 0, 1
BLOCKS = {2: ("", False), 3: ("with a list", False), 4: ("skip", True), 5: ("skip with a list", True)}
LISTED = (3, 5)
DONE = (0, 0, 0, 0)

cases, lines = [], []


def add(name, which, text, n, index=0, qp=0, level=0, depth=8, extended=0, dc=0, entries=(), levels=(), out=0):
    cases.append(named(name) + bytes([which]) + word(n) + word(index) + wide([qp, level]) + bytes([depth, extended, dc]) + b"".join(map(short, (len(entries), len(levels), out))) + bytes(entries) + wide(levels))
    lines.append(name + text + "\n")


def small_refusal(n, depth):
    return 1 if n not in (4, 8, 16, 32) else 2 if not 8 <= depth <= 16 else 0


# ---- one m, one level, one block
def a_factor(entries, n, index):
    number = 1 if n not in (4, 8, 16, 32) else 5 if len(entries) != 64 else 8 if index >= n * n else 0
    text = shown(number, 0, 0, 0) if number else shown(*DONE, factor(entries, 30, n, index))
    add(f"m {len(entries)} {n} {index}:", FACTOR, text, n, index, dc=30, entries=entries)


def a_level(level, n, qp, depth, extended, m=16):
    number = small_refusal(n, depth)
    value, before, after = scaled_parts(level, m, n, qp, depth, extended) if not number else (0, 0, 0)
    text = shown(number, 0, 0, 0) if number else shown(*DONE, value, int(before), int(after))
    add(f"level {level} {m} {n} {qp} {depth} {extended}:", LEVEL, text, n, 0, qp, level, depth, extended, m)


def a_block(name, kind, narrow, n, qp, depth, extended, entries, dc, levels, out):
    """`out` is the output's length; it holds 7 throughout."""
    listed, (what, skip) = kind in LISTED, BLOCKS[kind]
    number = small_refusal(n, depth)
    if not number and narrow and (depth > 9 or extended):
        number = 3
    if not number and listed and len(entries) != 64:
        number = 5
    if not number:
        number = 6 if len(levels) < n * n else 7 if out < n * n else 0
    after, count = [7] * out, 0
    if not number:
        count = limited(levels, entries if listed else None, dc, n, qp, depth, extended)
        for i in range(n * n):
            z = scaled(levels[i], factor(entries if listed else None, dc, n, i), n, qp, depth, extended)
            after[i] = skipped(z, n, depth, extended) if skip else z
    which = kind + 4 if narrow else kind
    add(f"{name}, {'16' if narrow else '32'}-bit {what}:", which, shown(number, 0, 0, 0, count, after), n, 0, qp, 0, depth, extended, dc, entries, levels, out)


# ---- every row at its border
def refusals():
    twenty = [20] * 65
    for name, narrow, n, depth, extended, entries, levels, out in (
        ("size 12", 0, 12, 8, 0, 64, 16, 20), ("size 12", 1, 12, 7, 1, 63, 15, 15), ("depth 7", 0, 4, 7, 0, 64, 16, 20), ("depth 17", 0, 4, 17, 1, 63, 15, 15),
        ("depth 7", 1, 4, 7, 1, 64, 16, 20), ("depth 10", 1, 4, 10, 0, 63, 15, 15), ("extended", 1, 4, 8, 1, 64, 16, 20), ("63 entries", 0, 4, 8, 0, 63, 15, 15),
        ("65 entries", 0, 4, 8, 0, 65, 16, 15), ("63 entries", 1, 4, 9, 0, 63, 15, 15), ("15 levels", 0, 4, 8, 0, 64, 15, 15), ("15 levels", 1, 4, 9, 0, 64, 15, 15),
        ("15 places", 0, 4, 16, 1, 64, 16, 15), ("15 places", 1, 4, 9, 0, 64, 16, 15), ("none", 0, 4, 8, 0, 64, 16, 20), ("none", 1, 4, 8, 0, 64, 16, 20),
    ):
        for kind in BLOCKS:
            a_block(name, kind, narrow, n, 4, depth, extended, twenty[:entries], 30, [1] * levels, out)


def factors():
    entries = [20] + [7] * 64
    for length, n, index in (
        (64, 16, 0), (64, 16, 1), (64, 16, 17), (64, 16, 18), (64, 32, 0), (64, 32, 99), (64, 8, 0), (64, 4, 0), (64, 4, 15),
        (64, 4, 16), (64, 8, 64), (64, 16, 256), (64, 32, 1024), (63, 4, 16), (65, 4, 0), (63, 12, 144), (64, 4, 2**64 - 1), (64, 2**64 - 1, 0),
    ):
        a_factor(entries[:length], n, index)


def levels():
    for level in (
        (1, 4, 4, 8, 0), (-1, 4, 4, 8, 0), (40000, 4, 4, 8, 0), (-40000, 4, 4, 8, 0), (2**31 - 1, 32, 2**31 - 1, 16, 1), (1, 4, -5, 8, 0),
        (1, 12, 4, 8, 0), (1, 12, 4, 7, 0), (1, 4, 4, 7, 0), (1, 4, 4, 17, 1), (-(2**31), 32, -(2**31), 16, 0),
    ):
        a_level(*level)


def blocks():
    """Size 4 at depth 8 by QP′ 4 and, for transform skip of 16, 15, -16 and -17 at t = 5, by a list; size 32 at depth 16, where t = -6; size 16 with DC."""
    first = [1, -1, 40000] + [0] * 13
    for narrow in (0, 1):
        a_block("block", 2, narrow, 4, 4, 8, 0, [], 0, first, 20)
    entries, own = [13, 12, 13, 14] + [0] * 60, [1, 1, -1, -1] + [0] * 12
    for kind in (3, 5):
        for narrow in (0, 1):
            a_block("block", kind, narrow, 4, 0, 8, 0, entries, 30, own, 20)
    ends = [3] + [0] * 1022 + [3]
    for kind, extended in ((2, 0), (4, 0), (4, 1)):
        a_block(f"size 32 {'extended' if extended else 'plain'}", kind, 0, 32, 40, 16, extended, [], 0, ends, 1025)
    for narrow in (0, 1):
        a_block("size 16", 3, narrow, 16, 10, 8, 0, [20] + [9] * 63, 30, [1] * 256, 257)


def borders():
    """One level at the borders of both limits, and blocks of which none, one and all coefficients are limited, at every size and width."""
    for depth, extended in ((8, 0), (16, 0), (16, 1)):
        end = 2 ** coefficient_range(depth, extended)
        for m in (0, 1, 16, 255):
            for level in (end - 1, end, -end, -end - 1):
                a_level(level, 8, 4, depth, extended, m)
    for level in (1023, 1024, -1024, -1025):
        a_level(level, 4, 4, 8, 0)
    for qp in (0, 51, 99):
        a_level(3, 32, qp, 16, 0)
    entries = [(5 * i + 3) % 256 for i in range(64)]
    for n in (4, 8, 16, 32):
        cells = n * n
        for name, values in (("none", [1] * cells), ("one", [0] * (cells - 1) + [-40000]), ("all", [(40000, -40000)[i % 2] for i in range(cells)]), ("first", [32768] + [0] * (cells - 1))):
            for kind in BLOCKS:
                for narrow in (0, 1):
                    if n < 32 or kind in (2, 5):
                        a_block(f"{name} limited", kind, narrow, n, 10, 8, 0, entries if kind in LISTED else [], 0, values, cells)


refusals()
factors()
levels()
blocks()
borders()
write_files("scaling_cases", {"stdin": b"".join(cases), "stdout": "".join(lines)})
