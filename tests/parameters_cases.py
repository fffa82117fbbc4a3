#!/usr/bin/env python3
"""parameters_cases.py [CRATES]: write stdin and stdout of the program parameters_cases, and stdout of parameters_table (in crates by default).

Written from the rules alone (docs/RULES.md): it shares nothing with the crates. The requirements' examples of module 1 and the borders of its arguments; the table has R, s, t
and the largest QP′ for every depth, flag and size.
"""
from case_files import named, shown, wide, word, write_files
from rules import SCALE, clip, coefficient_range

RANGE, OFFSET, QP, DEQUANT, SKIP = range(5)
NAMES = ("range", "offset", "qp", "dequant", "skip")
LARGEST = 2**64 - 1

cases, lines = [], []


def shift(n, depth, extended):
    return depth + n.bit_length() - 1 + 10 - coefficient_range(depth, extended)


def skip_shift(n, depth, extended):
    return coefficient_range(depth, extended) - depth - (n.bit_length() - 1)


def numbers(n, qp, depth, extended):
    """Factor with the neutral m, rounding, shift and both ends of the range."""
    r, qp, s = coefficient_range(depth, extended), clip(0, 51 + 6 * (depth - 8), qp), shift(n, depth, extended)
    return [16 * SCALE[qp % 6] << qp // 6, 2 ** (s - 1), s, -(2**r), 2**r - 1]


def values(which, n, qp, depth, extended):
    if which == RANGE:
        return [coefficient_range(depth, extended)]
    if which == OFFSET:
        return [6 * (depth - 8)]
    if which == QP:
        return [clip(0, 51 + 6 * (depth - 8), qp + 6 * (depth - 8))]
    if which == DEQUANT:
        return numbers(n, qp, depth, extended)
    t = skip_shift(n, depth, extended)
    return numbers(n, qp, depth, extended) + [2 ** (t - 1) if t > 0 else 0, t]


def add(which, n=4, qp=4, depth=8, extended=0):
    number = 1 if which > QP and n not in (4, 8, 16, 32) else 2 if not 8 <= depth <= 16 else 0
    name = f"{NAMES[which]} {n} {qp} {depth} {extended}:"
    cases.append(named(name) + bytes([which]) + word(n) + wide([qp]) + bytes([depth, extended]))
    lines.append(name + (shown(number, 0, 0, 0) if number else shown(0, 0, 0, 0, *values(which, n, qp, depth, extended))) + "\n")


for depth, extended in ((8, 1), (9, 1), (10, 1), (16, 1), (16, 0), (7, 0), (17, 1), (0, 0), (255, 1)):
    add(RANGE, depth=depth, extended=extended)
for depth in (8, 16, 7, 17):
    add(OFFSET, depth=depth)
for qp, depth in ((-13, 10), (51, 10), (60, 10), (51, 8), (-48, 16), (-49, 16), (2147483642, 9), (2**31 - 1, 16), (-(2**31), 16), (0, 7), (0, 255)):
    add(QP, qp=qp, depth=depth)
for case in ((4, 4, 8, 0), (32, 99, 16, 0), (32, 100, 16, 0), (32, 2**31 - 1, 16, 1), (8, -(2**31), 8, 0), (12, 4, 8, 0), (0, 4, 8, 0), (LARGEST, 4, 0, 0), (4, 4, 7, 0), (4, 4, 17, 1), (4, 4, 255, 1)):
    add(DEQUANT, *case)
    add(SKIP, *case)
for n, depth, extended in ((4, 8, 0), (4, 13, 0), (32, 16, 0), (32, 16, 1), (12, 8, 0), (4, 7, 0)):
    add(SKIP, n, 4, depth, extended)
write_files("parameters_cases", {"stdin": b"".join(cases), "stdout": "".join(lines)})

table = ["depth\text\tsize\tR\ts\tt\tQP'\n"]
for depth in range(8, 17):
    for extended in (0, 1):
        for n in (4, 8, 16, 32):
            row = (depth, extended, n, coefficient_range(depth, extended), shift(n, depth, extended), skip_shift(n, depth, extended), 51 + 6 * (depth - 8))
            table.append("\t".join(map(str, row)) + "\n")
write_files("parameters_table", {"stdout": "".join(table)})
