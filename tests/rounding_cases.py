#!/usr/bin/env python3
"""rounding_cases.py [CRATES]: write stdin and stdout of the program rounding_cases (in crates by default).

Written from the rules alone (docs/RULES.md): it shares nothing with the crates. The bound at every kind and size, and every refusal at its border. The sums of absolute entries
are taken over the matrix.
"""
from case_files import named, shown, word, write_files
from rules import coefficient_range, matrix

cases, lines = [], []


def bound(dst, n, depth, extended):
    """64 for each term of stage two's largest sum, by stage one's rounding, and half a step of both shifts."""
    t = matrix(n, dst)
    largest = max(sum(abs(t[c][j]) for c in range(n)) for j in range(n))
    return 64 * largest + 2 ** (7 + coefficient_range(depth, extended) + 5 - depth - 1)


def add(dst, n, depth, extended):
    number = 1 if n not in (4, 8, 16, 32) else 2 if not 8 <= depth <= 16 else 4 if dst and n != 4 else 0
    name = f"{'dst' if dst else 'dct'} {n} {depth} {extended}:"
    cases.append(named(name) + bytes([dst]) + word(n) + bytes([depth, extended]))
    lines.append(name + (shown(number, 0, 0, 0) if number else shown(0, 0, 0, 0, bound(dst, n, depth, extended))) + "\n")


for depth, extended in ((8, 0), (9, 1), (12, 1), (16, 1), (16, 0)):
    for dst, n in ((0, 4), (0, 8), (0, 16), (0, 32), (1, 4)):
        add(dst, n, depth, extended)
for case in ((0, 0, 8, 0), (0, 12, 7, 0), (0, 64, 8, 0), (0, 2**64 - 1, 255, 1), (0, 8, 7, 0), (0, 8, 17, 1), (1, 8, 7, 1), (1, 8, 8, 0), (1, 32, 16, 1), (1, 5, 8, 0)):
    add(*case)
write_files("rounding_cases", {"stdin": b"".join(cases), "stdout": "".join(lines)})
