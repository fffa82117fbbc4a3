#!/usr/bin/env python3
"""transform_cases.py [CRATES]: write stdin and stdout of the program transform_cases (in crates by default).

Written from the rules alone (docs/RULES.md): it shares nothing with the crates. The requirements' examples of the transforms, the first sum that no 32 bits hold, and every
refusal at its border.
"""
from case_files import named, narrow, shown, wide, word, write_files
from rules import coefficient_range, matrix, stage_one, stage_two

DCT, EXTENDED, DST, DST_EXTENDED, DCT_16, DST_16 = range(6)
NAMES = ("dct", "extended", "dst", "dst extended", "dct 16-bit", "dst 16-bit")
LARGEST = 2**64 - 1

cases, lines = [], []


def answered(which, n, nx, depth, coeff, out):
    """Answer and output."""
    dst, extended, small = which in (DST, DST_EXTENDED, DST_16), which in (EXTENDED, DST_EXTENDED), which in (DCT_16, DST_16)
    if dst:
        n = nx = 4
    number = 1 if n not in (4, 8, 16, 32) else 2 if not 8 <= depth <= 16 else 3 if small and depth > 9 else 6 if len(coeff) < n * n else 7 if len(out) < n * n else 0
    if number:
        return (number, 0, 0, 0), out
    limit = 2 ** coefficient_range(depth, extended)
    for i in range(n * n):
        if i % n < nx and not -limit <= coeff[i] < limit:
            return (19 if coeff[i] < 0 else 9, 0, i // n, i % n), out
    t = matrix(n, dst)
    return (0, 0, 0, 0), stage_two(stage_one(coeff, n, depth, extended, t, nx), n, depth, extended, t) + out[n * n :]


def add(what, which, n, nx, depth, coeff, length=None):
    out = [7] * (len(coeff) + 2 if length is None else length)
    answer, after = answered(which, n, nx, depth, coeff, out)
    name = f"{NAMES[which]} {n} {depth} {nx}, {what}:"
    coded = (narrow if which in (DCT_16, DST_16) else wide)(coeff)
    cases.append(named(name) + bytes([which]) + word(n) + word(nx) + bytes([depth]) + word(len(coeff)) + coded + word(len(out)))
    lines.append(name + shown(*answer, after) + "\n")


def one(which, at, value, depth, nx=4, n=4):
    """A 4×4 block with one coefficient."""
    add(f"{value} at {at}", which, n, nx, depth, [value if i == at else 0 for i in range(16)])


def examples():
    for at, value, depth, nx in ((0, 62, 8, 4), (0, 63, 8, 4), (0, -64, 8, 4), (3, 64, 8, 4), (3, 64, 8, 3), (3, 64, 8, 0), (3, 64, 8, LARGEST), (0, 32767, 16, 4)):
        one(DCT, at, value, depth, nx)
    one(DST, 0, 64, 8)
    add("32767 in column 0", DCT, 4, 4, 8, [32767 if i % 4 == 0 else 0 for i in range(16)])
    one(EXTENDED, 0, 4194303, 16)
    one(EXTENDED, 0, -4194304, 16, 1)
    one(DST_EXTENDED, 5, -4194304, 16)
    add("2097151 in column 0", EXTENDED, 32, 32, 15, [2097151 if i % 32 == 0 else 0 for i in range(1024)], 1026)


def refusals():
    for at, value, depth, nx in ((5, 32768, 8, 4), (5, -32769, 8, 2), (5, 32768, 8, 1), (15, 32768, 16, 4)):
        one(DCT, at, value, depth, nx)
    for which in (EXTENDED, DST_EXTENDED):
        for value, depth in ((4194304, 16), (65536, 10), (65535, 10)):
            one(which, 15, value, depth)
    one(DST, 9, -32769, 8)
    for n, depth in ((12, 8), (0, 8), (LARGEST, 8), (4, 7), (4, 17), (12, 7), (8, 8)):
        for which in (DCT, EXTENDED):
            one(which, 0, 63, depth, 4, n)
    for which in (DCT, EXTENDED, DST, DST_EXTENDED, DCT_16, DST_16):
        # one coefficient short and one place short: the input's row comes first; then one place short, with a coefficient outside where 16 bits hold one
        add("15 coefficients, 15 places", which, 4, 4, 8, [63] * 15, 15)
        add("15 places", which, 4, 4, 8, [32767 if which in (DCT_16, DST_16) else 32768] * 16, 15)
    for which in (DCT_16, DST_16):
        for depth in (8, 9, 10, 7, 17):
            one(which, 0, 63, depth)


examples()
refusals()
write_files("transform_cases", {"stdin": b"".join(cases), "stdout": "".join(lines)})
