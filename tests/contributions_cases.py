#!/usr/bin/env python3
"""contributions_cases.py [CRATES]: write stdin and stdout of the program contributions_cases (in crates by default).

Written from the rules alone (docs/RULES.md): it shares nothing with the crates. Every kind and size, with the coefficients at both ends of 32 bits, and every refusal at its
border on both sides. The sums are held to the double product of the matrix, and to the residual within the rounding bound, before anything is written.
"""
import random

from case_files import named, shown, wide, word, write_files
from rules import matrix, stage_one, stage_two

cases, lines = [], []
random = random.Random(33)


def refusal(dst, n, row, column, count, room):
    if n not in (4, 8, 16, 32):
        return 1
    if dst and n != 4:
        return 4
    if count < n * n:
        return 6
    if room < n * n:
        return 7
    return 8 if row >= n or column >= n else 0


def add(name, coeff, dst=0, n=4, row=0, column=0, room=None):
    room = n * n + 1 if room is None else room
    number, out = refusal(dst, n, row, column, len(coeff), room), [7] * room
    if number == 0:
        t = matrix(n, dst)
        out[:n * n] = [t[k][row] * t[c][column] * coeff[k * n + c] for k in range(n) for c in range(n)]
        assert sum(out[:n * n]) == sum(t[c][column] * sum(t[k][row] * coeff[k * n + c] for k in range(n)) for c in range(n)), name
        explained(name, dst, n, row, column, coeff, sum(out[:n * n]))
    cases.append(named(name + ":") + bytes([dst]) + word(n) + word(row) + word(column) + word(len(coeff)) + wide(coeff) + word(room))
    lines.append(f"{name}:" + shown(number, 0, 0, 0, out) + "\n")


def explained(name, dst, n, row, column, coeff, total):
    """Where no value of stage one is limited at depth 8, 2^19 × the residual is within the rounding bound of the sum."""
    t = matrix(n, dst)
    sums = [sum(t[k][m] * coeff[k * n + c] for k in range(n)) for m in range(n) for c in range(n)]
    if all(-(2**15) <= (x + 64) >> 7 < 2**15 for x in sums) and all(-(2**15) <= x < 2**15 for x in coeff[:n * n]):
        residual = stage_two(stage_one(coeff, n, 8, False, t, n), n, 8, False, t)[row * n + column]
        largest = max(sum(abs(t[c][j]) for c in range(n)) for j in range(n))
        assert abs(2**19 * residual - total) <= 64 * largest + 2**18, name


# ---- every refusal at its border
zeros, ends = [0] * 16, [2**31 - 1, -(2**31)] * 8
for n in (0, 3, 5, 12, 33, 64, 2**64 - 1):
    add(f"size {n}", zeros, dst=1, n=n, row=99, room=2)
for n in (8, 16, 32):
    add(f"DST of size {n}", zeros, dst=1, n=n, row=99, room=2)
for n in (4, 8, 16, 32):
    cells = [1] * (n * n)
    add(f"{n * n - 1} coefficients of size {n}", cells[1:], n=n, row=n, room=3)
    add(f"{n * n} coefficients of size {n}", cells, n=n, row=n - 1, column=n - 1)
    add(f"room for {n * n - 1} of size {n}", cells, n=n, row=n, room=n * n - 1)
    add(f"room for {n * n} of size {n}", cells, n=n, row=n - 1, room=n * n)
    add(f"row {n} of size {n}", cells, n=n, row=n)
    add(f"column {n} of size {n}", cells, n=n, column=n)
    add(f"column {2**64 - 1} of size {n}", cells, n=n, row=n - 1, column=2**64 - 1)
add("15 coefficients of a DST", zeros[1:], dst=1, column=4)
add("room for 15 of a DST", zeros, dst=1, column=4, room=15)
add("row 4 of a DST", zeros, dst=1, row=4)
add("row 3 and column 3 of a DST", ends, dst=1, row=3, column=3)

# ---- every sample of 4 × 4, of both kinds, and samples of the other sizes
block = [random.randint(-300, 300) for _ in range(17)]
for dst in (0, 1):
    for m in range(4):
        for j in range(4):
            add(f"{'DST' if dst else 'DCT'} of 4, row {m}, column {j}", block, dst, 4, m, j, 16)
for n in (8, 16, 32):
    for m, j in ((0, 0), (0, n - 1), (n - 1, 0), (n // 2 - 1, n // 2), (1, 2)):
        add(f"DCT of {n}, row {m}, column {j}", [random.randint(-200, 200) if random.random() < 0.4 else 0 for _ in range(n * n)], 0, n, m, j)
    add(f"the ends of 32 bits at size {n}", [random.choice((2**31 - 1, -(2**31))) for _ in range(n * n)], 0, n, n - 1, 1)
add("the ends of 32 bits at size 4", ends, 0, 4, 1, 2)
write_files("contributions_cases", {"stdin": b"".join(cases), "stdout": "".join(lines)})
