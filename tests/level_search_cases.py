#!/usr/bin/env python3
"""level_search_cases.py [CRATES]: write stdin and stdout of the program level_search_cases (in crates by default).

Written from the rules alone (docs/RULES.md): it shares nothing with the crates, and asks every level of the range.
"""
from case_files import named, shown, wide, word, write_files
from rules import SCALE, clip, coefficient_range, factor


def least_levels(m, n, qp, depth, extended):
    """The level of least size for each coefficient that one gives, the positive one first. The formula is that of rules.scaled, with what every level shares taken out."""
    r = coefficient_range(depth, extended)
    low, high = -(2**r), 2**r - 1
    qp = clip(0, 51 + 6 * (depth - 8), qp)
    shift = depth + n.bit_length() - 1 + 10 - r
    by, half = m * (SCALE[qp % 6] << (qp // 6)), 2 ** (shift - 1)
    least = {}
    for size in range(2**r + 1):
        for level in (size, -size):
            if low <= level <= high:
                least.setdefault(clip(low, high, (level * by + half) >> shift), level)
    return least


def call(name, n, qp, depth, extended, coeff, levels, entries=None, dc=30):
    out, answer = list(levels), (0, 0, 0)
    if n not in (4, 8, 16, 32):
        answer = (1, 0, 0)
    elif not 8 <= depth <= 16:
        answer = (2, 0, 0)
    elif entries is not None and len(entries) != 64:
        answer = (5, 0, 0)
    elif len(coeff) < n * n:
        answer = (6, 0, 0)
    elif len(levels) < n * n:
        answer = (7, 0, 0)
    else:
        tables = {}
        for i in range(n * n):
            m = factor(entries, dc, n, i)
            if m not in tables:
                tables[m] = least_levels(m, n, qp, depth, extended)
            if coeff[i] not in tables[m]:
                out, answer = list(levels), (11, i // n, i % n)
                break
            out[i] = tables[m][coeff[i]]
    listed = entries is not None
    cases.append(named(name + ":") + bytes([listed]) + word(n) + wide([qp]) + bytes([depth, extended, dc]) + word(len(entries or [])) + bytes(entries or []) + word(len(coeff)) + wide(coeff) + word(len(levels)))
    lines.append(f"{name}:" + shown(answer[0], 0, *answer[1:], out) + "\n")


cases, lines = [], []
levels = [7] * 17
call("size 12", 12, 4, 7, False, [32] * 16, levels)
call("depth 7", 4, 4, 7, False, [32] * 16, levels)
call("depth 17", 4, 4, 17, True, [32] * 16, levels)
call("size 8, 16 coefficients", 8, 4, 8, False, [32] * 16, levels)
call("15 coefficients and 15 levels", 4, 4, 8, False, [33] * 15, [7] * 15)
call("15 levels, and none for a coefficient", 4, 4, 8, False, [33] * 16, [7] * 15)
call("63 entries", 4, 4, 8, False, [32] * 16, levels, [16] * 63)
call("63 entries and 15 coefficients", 4, 4, 8, False, [32] * 15, levels, [16] * 63)
call("size 12 and 63 entries", 12, 4, 8, False, [32] * 16, levels, [16] * 63)
coeff = [32] * 16
coeff[6], coeff[9] = 33, 40000
call("33 in row 1, column 2", 4, 4, 8, False, coeff, levels)
coeff[6] = -64
call("40000 in row 2, column 1", 4, 4, 8, False, coeff, levels)
coeff[9] = -32769
call("-32769 there", 4, 4, 8, False, coeff, levels)
coeff[9] = 2147483647
call("largest number there", 4, 4, 8, False, coeff, levels)
coeff[9], coeff[15] = 0, -31
call("-31 at the end", 4, 4, 8, False, coeff, levels)
levels = [7] * 17
call("both ends", 4, 4, 8, False, [0, 32767, -32768, 32736, -32736] + [0] * 11, levels)
call("both ends, largest QP", 4, 2147483647, 8, False, [0, 32767, -32768] + [0] * 13, levels)
call("both ends at R 22", 4, 52, 16, True, [0, 4194303, -4194304, 65536] + [0] * 12, levels)
coeff = [1, -1, 2, -2, 10] + [0] * 1018 + [-10]
levels = [7] * 1025
call("scaled down", 32, -2147483648, 16, False, coeff, levels)
coeff[1023] = 11
call("11 in the last place", 32, 0, 16, False, coeff, levels)
entries = [0, 1, 255] + [16] * 61
coeff, levels = [0, 2, 510] + [0] * 253, [7] * 257
call("size 4, m 0, 1, 255", 4, 4, 8, False, coeff, levels, entries)
coeff[0] = 2
call("size 4, 2 where m is 0", 4, 4, 8, False, coeff, levels, entries)
coeff[0], coeff[1], coeff[2], coeff[4] = 15, 0, 1, -127
call("size 16, DC 30", 16, 4, 8, False, coeff, levels, entries)
coeff[1] = 1
call("size 16, 1 where m is 0", 16, 4, 8, False, coeff, levels, entries)
write_files("level_search_cases", {"stdin": b"".join(cases), "stdout": "".join(lines)})
