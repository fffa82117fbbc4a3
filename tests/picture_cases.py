#!/usr/bin/env python3
"""picture_cases.py [CRATES]: write stdin and stdout of the program picture_cases (in crates by default).

Written from the rules alone (docs/RULES.md), sample by sample: it shares nothing with the crates. The checksums of one sample, of 2 × 2 and of 257 zeros were worked out by hand too.
"""
from case_files import named, short, shown, wide, word, write_files

BLOCK, CHECKSUM = 0, 1
LARGEST = 2**64 - 1
STEP = 7919

cases, lines = [], []


# ---- the rules
def picture_refused(width, height, stride, plane):
    sides = 1 <= width <= 16384 and 1 <= height <= 16384
    return not (sides and width <= stride <= 65536 and stride * height <= len(plane))


def rebuilt(n, depth, residual, prediction, width, height, stride, x, y, plane):
    if n not in (4, 8, 16, 32):
        return (1, 0, 0, 0), plane
    if not 8 <= depth <= 16:
        return (2, 0, 0, 0), plane
    if min(len(residual), len(prediction)) < n * n:
        return (6, 0, 0, 0), plane
    if picture_refused(width, height, stride, plane) or x + n > width or y + n > height:
        return (13, 0, 0, 0), plane
    top = 2**depth - 1
    for i in range(n * n):
        if prediction[i] > top:
            return (12, i, 0, 0), plane
    after = list(plane)
    for i in range(n * n):
        after[(y + i // n) * stride + x + i % n] = min(max(prediction[i] + residual[i], 0), top)
    return (0, 0, 0, 0), after


def checksum(width, height, stride, depth, plane):
    if not 8 <= depth <= 16:
        return (2, 0, 0, 0), []
    if picture_refused(width, height, stride, plane):
        return (13, 0, 0, 0), []
    total = 0
    for y in range(height):
        for x in range(width):
            mask = (x % 256) ^ (y % 256) ^ (x // 256) ^ (y // 256)
            sample = plane[y * stride + x]
            total += (sample % 256) ^ mask
            if depth > 8:
                total += (sample // 256) ^ mask
    return (0, 0, 0, 0), [total % 2**32]


# ---- cases
def plane_of(length, first, step, given):
    made = [(first + step * i) % 2**16 for i in range(length)]
    return given + made[len(given) :]


def add(name, which, n, depth, width, height, stride, x, y, residual, prediction, length, first=999, step=0, given=()):
    plane = plane_of(length, first, step, list(given))
    if which == BLOCK:
        answer, after = rebuilt(n, depth, residual, prediction, width, height, stride, x, y, plane)
        text = shown(*answer, after)
    else:
        answer, values = checksum(width, height, stride, depth, plane)
        text = shown(*answer, *values)
    fixed = bytes([which]) + word(n) + bytes([depth]) + b"".join(map(word, (width, height, stride, x, y)))
    blocks = word(len(residual)) + wide(residual) + word(len(prediction)) + b"".join(map(short, prediction))
    cases.append(named(name + ":") + fixed + blocks + word(length) + short(first) + short(step) + word(len(given)) + b"".join(map(short, given)))
    lines.append(name + ":" + text + "\n")


def placed(name, n, depth, residual, prediction, x, y):
    """A picture of 6 × 5 with stride 8."""
    add(name, BLOCK, n, depth, 6, 5, 8, x, y, residual, prediction, 40)


def pictured(name, width, height, stride, prediction, length=32):
    """A 4×4 block in the corner of a picture."""
    add(name, BLOCK, 4, 8, width, height, stride, 0, 0, [1] * 16, prediction, length)


def summed(name, width, height, stride, depth, length, first=0, step=0, given=()):
    add(f"checksum {width} {height} {stride} depth {depth}, {name}", CHECKSUM, 4, depth, width, height, stride, 0, 0, [], [], length, first, step, given)


def blocks():
    ones, hundreds = [1] * 16, [100] * 16
    placed("size 12", 12, 8, ones, hundreds, 0, 0)
    placed("depth 7", 4, 7, ones, hundreds, 0, 0)
    placed("depth 17", 4, 17, ones, hundreds, 0, 0)
    placed("15 residuals, and outside", 4, 8, ones[:15], hundreds, 3, 0)
    placed("15 predictions, and outside", 4, 8, ones, hundreds[:15], 3, 0)
    placed("column 3", 4, 8, ones, hundreds, 3, 1)
    placed("row 2", 4, 8, ones, hundreds, 2, 2)
    placed("size 8", 8, 8, [1] * 64, [100] * 64, 0, 0)
    placed("largest column", 4, 8, ones, hundreds, LARGEST, 0)
    placed("largest row", 4, 8, ones, hundreds, 0, LARGEST)
    placed("the corner", 4, 8, ones, hundreds, 2, 1)
    for name, width, height, stride in (("width 0", 0, 4, 8), ("height 0", 8, 0, 8), ("height 16385", 4, 16385, 4), ("stride 7", 8, 4, 7), ("largest sides", LARGEST, LARGEST, LARGEST)):
        pictured(name, width, height, stride, hundreds)
    pictured("31 places", 8, 4, 8, hundreds, 31)
    pictured("32 places", 8, 4, 8, hundreds)


def samples():
    ones, prediction = [1] * 16, [255] * 16
    prediction[5], prediction[9] = 256, 65535
    placed("sample 256 at index 5", 4, 8, ones, prediction, 0, 0)
    pictured("the same in a picture of width 3", 3, 4, 8, prediction)
    prediction[5] = 255
    placed("sample 65535 at index 9, depth 15", 4, 15, ones, prediction, 0, 0)
    placed("sample 65535 at index 9, depth 16", 4, 16, ones, prediction, 0, 0)
    placed("sample 256 past the block", 4, 8, ones, [255] * 16 + [256], 0, 0)
    residual, prediction = [0] * 16, [128] * 16
    residual[:9] = 2**31 - 1, -(2**31), 127, 128, -128, -129, -127, -(2**31), 2**31 - 1
    prediction[7], prediction[8] = 0, 255
    add("limits, depth 8", BLOCK, 4, 8, 4, 4, 4, 0, 0, residual, prediction, 16)
    prediction[8] = 65535
    add("limits, depth 16", BLOCK, 4, 16, 4, 4, 4, 0, 0, residual, prediction, 16)
    # one block of each size in a plane of 40 × 36 with stride 41
    prediction = [5] * 1024
    prediction[33] = 1023
    for n in (4, 8, 16, 32):
        add(f"size {n}", BLOCK, n, 10, 40, 36, 41, 3, 2, [-7] * (n * n), prediction[: n * n], 1476, 0, STEP)


def checksums():
    for depth in (7, 17):
        summed("depth", 8, 4, 8, depth, 32, 7)
    for width, height, stride in ((0, 4, 8), (8, 0, 8), (8, 4, 7), (3, 3, 11)):
        summed("sides", width, height, stride, 8, 32, 7)
    for side in (16385, 16384):
        summed("a long row", side, 1, side, 8, 65537)
        summed("a long column", 1, side, 1, 8, 65537)
    for stride in (65537, 65536):
        summed("stride", 1, 1, stride, 8, 65537)
    for depth in (8, 9, 16):
        summed("one sample", 1, 1, 1, depth, 1, 65535)
        summed("four samples", 2, 2, 3, depth, 6, given=(1, 2, 99, 3, 4, 99))
        summed("zeros", 257, 1, 257, depth, 257)
        summed("zeros", 1, 257, 1, depth, 257)
        summed("all 16 bits", 300, 260, 301, depth, 78300, 0, STEP)
        summed("all 16 bits", 260, 300, 261, depth, 78300, 0, STEP)


blocks()
samples()
checksums()
write_files("picture_cases", {"stdin": b"".join(cases), "stdout": "".join(lines)})
