"""Scaling and the inverse transforms by clause 8.6, for the scripts here that write what the programs of cases must print.

Written from the rules alone (docs/RULES.md): it shares nothing with the crates.
"""
SCALE = (40, 45, 51, 57, 64, 72)


def clip(low, high, z):
    return min(max(z, low), high)


def coefficient_range(depth, extended):
    return max(15, depth + 6) if extended else 15


def factor(entries, dc, n, i):
    """m at an index, with a list or without one."""
    if entries is None:
        return 16
    if n <= 8:
        return entries[i]
    if i == 0:
        return dc
    row, column = divmod(i, n)
    return entries[row * 8 // n * 8 + column * 8 // n]


def scaled_parts(level, m, n, qp, depth, extended):
    """The coefficient of a level, whether the level was limited, and whether the result of the limited level was."""
    r = coefficient_range(depth, extended)
    low, high = -(2**r), 2**r - 1
    qp = clip(0, 51 + 6 * (depth - 8), qp)
    shift = depth + n.bit_length() - 1 + 10 - r
    step = SCALE[qp % 6] << (qp // 6)
    near = clip(low, high, level)
    result = (near * m * step + 2 ** (shift - 1)) >> shift
    return clip(low, high, result), near != level, not low <= result <= high


def scaled(level, m, n, qp, depth, extended):
    return scaled_parts(level, m, n, qp, depth, extended)[0]


def limited(levels, entries, dc, n, qp, depth, extended):
    """How many of a block's n * n coefficients were limited."""
    return sum(any(scaled_parts(levels[i], factor(entries, dc, n, i), n, qp, depth, extended)[1:]) for i in range(n * n))


def skipped(z, n, depth, extended):
    """A residual by transform skip."""
    t = coefficient_range(depth, extended) - depth - (n.bit_length() - 1)
    return (z + 2 ** (t - 1)) >> t if t > 0 else z << -t


F = [0] + [int(x) for x in "90 90 90 89 88 87 85 83 82 80 78 75 73 70 67 64 61 57 54 50 46 43 38 36 31 25 22 18 13 9 4".split()]
DST = ((29, 55, 74, 84), (74, 74, 0, -74), (84, -29, -74, 55), (55, -84, 74, -29))


def entry(k, m):
    """The 32-point matrix."""
    if k == 0:
        return 64
    a = k * (2 * m + 1) % 128
    if a > 64:
        a = 128 - a
    return -F[64 - a] if a > 32 else F[a]


def matrix(n, dst=False):
    return DST if dst else tuple(tuple(entry(k * (32 // n), m) for m in range(n)) for k in range(n))


def stage_one(coeff, n, depth, extended, t, columns):
    """The intermediate of the first `columns` columns."""
    r = coefficient_range(depth, extended)
    low, high = -(2**r), 2**r - 1
    out = [0] * (n * n)
    for c in range(min(columns, n)):
        for m in range(n):
            out[m * n + c] = clip(low, high, (sum(t[k][m] * coeff[k * n + c] for k in range(n)) + 64) >> 7)
    return out


def stage_two(inter, n, depth, extended, t):
    s = coefficient_range(depth, extended) + 5 - depth
    return [(sum(t[c][j] * inter[m * n + c] for c in range(n)) + 2 ** (s - 1)) >> s for m in range(n) for j in range(n)]
