#!/usr/bin/env python3
"""edit_search_cases.py [CRATES]: write stdin and stdout of the program edit_search_cases (in crates by default).

Written from the rules alone (docs/RULES.md): it shares nothing with the crates, and asks every value of the range at every index.
"""
import random

from case_files import named, shown, wide, word, write_files
from rules import clip, coefficient_range, factor, matrix, scaled, stage_one, stage_two

COEFFICIENTS, LEVELS, LISTED = range(3)


def refusal(function, dst, n, depth, extended, entries, given, target, wanted, least, most):
    """Number, row and column."""
    if n not in (4, 8, 16, 32):
        return 1, 0, 0
    if not 8 <= depth <= 16:
        return 2, 0, 0
    if dst and n != 4:
        return 4, 0, 0
    if function == LISTED and len(entries) != 64:
        return 5, 0, 0
    if min(len(given), len(target), len(wanted)) < n * n:
        return 6, 0, 0
    if min(least, most) < n * n:
        return 7, 0, 0
    if function == COEFFICIENTS:
        r = coefficient_range(depth, extended)
        for i, x in enumerate(given[:n * n]):
            if not -(2**r) <= x < 2**r:
                return 9 if x > 0 else 19, i // n, i % n
    return 0, 0, 0


def ends(coeff, i, values, dst, n, depth, extended, target, wanted):
    """The least and the most place of `values`, which are in the order of what is asked of them, that give every wanted sample; nothing where none does."""
    r, t = coefficient_range(depth, extended), matrix(n, dst)
    low, high, s2 = -(2**r), 2**r - 1, r + 5 - depth
    k, c = divmod(i, n)
    between = stage_one(coeff, n, depth, extended, t, n)
    left = list(range(len(values)))
    for q in range(n * n):
        if wanted[q] and left:
            m, j = divmod(q, n)
            one = sum(t[h][m] * coeff[h * n + c] for h in range(n) if h != k) + 64
            two = sum(t[h][j] * between[m * n + h] for h in range(n) if h != c) + 2 ** (s2 - 1)
            u, w, x = t[k][m], t[c][j], target[q]
            left = [o for o in left if (two + w * clip(low, high, (one + u * values[o]) >> 7)) >> s2 == x]
    return (left[0], left[-1]) if left else None


def call(name, given, target, wanted, n=4, depth=8, extended=False, dst=False, function=COEFFICIENTS, qp=20, entries=(), dc=30, least=None, most=None):
    least, most = n * n + 1 if least is None else least, n * n + 1 if most is None else most
    answer = refusal(function, dst, n, depth, extended, entries, given, target, wanted, least, most)
    first, last = [7] * least, [7] * most
    if answer[0] == 0:
        r = coefficient_range(depth, extended)
        low, listed = -(2**r), entries if function == LISTED else None
        plain = range(low, 2**r)
        coeff = given if function == COEFFICIENTS else [scaled(given[i], factor(listed, dc, n, i), n, qp, depth, extended) for i in range(n * n)]
        tables = {}
        for i in range(n * n):
            values = plain
            if function != COEFFICIENTS:
                m = factor(listed, dc, n, i)
                values = tables[m] if m in tables else tables.setdefault(m, [scaled(v, m, n, qp, depth, extended) for v in plain])
            found = ends(coeff, i, values, dst, n, depth, extended, target, wanted)
            first[i], last[i] = (low + found[0], low + found[1]) if found else (1, 0)
    cases.append(
        named(name + ":") + bytes([function, dst]) + word(n) + wide([qp]) + bytes([depth, extended, dc]) + word(len(entries)) + bytes(entries) + word(len(given)) + wide(given)
        + word(len(target)) + wide(target) + word(len(wanted)) + bytes(wanted) + word(least) + word(most))
    lines.append(f"{name}:" + shown(answer[0], 0, *answer[1:], first, last) + "\n")


def residual(coeff, n=4, depth=8, extended=False, dst=False):
    t = matrix(n, dst)
    return stage_two(stage_one(coeff, n, depth, extended, t, n), n, depth, extended, t)


cases, lines = [], []
zeros, ones = [0] * 16, [1] * 16

# ---- every refusal at its border
call("size 12", zeros, zeros, ones, n=12, depth=7)
call("depth 7", zeros, zeros, ones, depth=7, dst=True)
call("depth 17", zeros, zeros, ones, depth=17, extended=True)
call("DST of size 8", zeros, zeros, ones, n=8, dst=True)
call("15 coefficients", zeros[:15], zeros, ones, most=15)
call("15 targets", zeros, zeros[:15], ones, most=15)
call("15 flags", zeros, zeros, ones[:15], most=15)
call("15 least", zeros[:15] + [40000], zeros, ones, least=15)
call("15 most", zeros[:15] + [40000], zeros, ones, most=15)
call("32768 in row 1, column 2", zeros[:6] + [32768] + [-32769] * 9, zeros, ones)
call("-32769 there", zeros[:6] + [-32769] + [32768] * 9, zeros, ones)
call("the ends of the range", zeros[:6] + [-32768] + [32767] * 9, zeros, [0] * 16)
call("levels, 15", zeros[:15], zeros, ones, function=LEVELS)
call("levels, any", [2**31 - 1, -(2**31)] + zeros[2:], zeros, [0] * 16, function=LEVELS)
call("63 entries and 15 levels", zeros[:15], zeros, ones, function=LISTED, entries=[16] * 63)
call("DST of size 8 and 63 entries", zeros, zeros, ones, n=8, dst=True, function=LISTED, entries=[16] * 63)

# ---- nothing wanted, all wanted, and what cannot be
for n in (4, 8, 16, 32):
    call(f"nothing wanted of size {n}", [5] * (n * n), [9] * (n * n), [0] * (n * n), n=n)
call("all wanted, unchanged", [100, -30] + zeros[2:], residual([100, -30] + zeros[2:]), ones)
call("out of reach", zeros, [2**31 - 1] * 16, [255] + zeros[1:])
call("the largest that is in reach", zeros, [29792] * 16, [255] + zeros[1:], depth=9)

# ---- one coefficient, or one level, was changed
random = random.Random(20)


def changed(name, dst, depth, extended, size, count, **rest):
    coeff = [random.randint(-size, size - 1) for _ in range(16)]
    wrong = list(coeff)
    wrong[random.randrange(16)] = random.randint(-size, size - 1)
    wanted = [0] * 16
    for _ in range(count):
        wanted[random.randrange(16)] = random.choice((1, 2, 255))
    if rest:
        entries, dc = rest.get("entries"), rest.get("dc", 30)
        target = residual([scaled(coeff[i], factor(entries, dc, 4, i), 4, rest["qp"], depth, extended) for i in range(16)], 4, depth, extended, dst)
    else:
        target = residual(coeff, 4, depth, extended, dst)
    call(name, wrong, target, wanted, depth=depth, extended=extended, dst=dst, **rest)


for dst in (False, True):
    for depth, extended, size, count in ((8, False, 200, 3), (12, False, 32768, 2), (10, True, 65536, 2)):
        changed(f"{'DST' if dst else 'DCT'}, depth {depth}{', extended' if extended else ''}", dst, depth, extended, size, count)
changed("levels", False, 8, False, 60, 3, function=LEVELS, qp=27)
changed("levels of a DST", True, 10, False, 2000, 2, function=LEVELS, qp=9)
changed("levels with a list", False, 8, False, 60, 2, function=LISTED, qp=33, entries=[1 + 3 * i for i in range(64)], dc=9)
changed("levels with an m of 0", False, 8, False, 9, 2, function=LISTED, qp=40, entries=[i % 3 * 20 for i in range(64)], dc=0)
write_files("edit_search_cases", {"stdin": b"".join(cases), "stdout": "".join(lines)})
