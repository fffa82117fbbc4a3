#!/usr/bin/env python3
"""feed_cases.py [CRATES]: write args, data/ and stdout of the program feed_cases, and stdin and stdout of feed_main and scale_trace_main (in crates by default).

The texts are those of feed_rules.py, which shares nothing with the crates. A file of data/ holds cases, each four bytes of length (low byte first) and the bytes
of a feed; stdout holds for each file its name, and for each case a line `case N` and the text of the feed.
"""
from case_files import write_files
from feed_rules import BODIES, SIZES, listing, residuals

# what the program of cases has room for: bytes of a feed, and of a text, of which a record takes four for each of its bytes and a reading its longest rows
LONGEST, ROOM, READING = 8192, 32808, 12312


# ---- numbers that are the same on every machine
class Numbers:
    def __init__(self, seed):
        self.state = seed

    def below(self, n):
        self.state = (self.state * 6364136223846793005 + 1442695040888963407) % (1 << 64)
        return (self.state >> 33) % n

    def level(self, size):
        return self.below(2 * size + 1) - size


# ---- records
def parameters(depth=8, flag=0, qp=4, mode=0):
    return bytes((1, depth, flag, qp, mode))


def a_list(entries, dc):
    return bytes([2, *entries, dc])


DROP, READ = bytes([3]), bytes([9])


def edit(row, column, level):
    return bytes((8, row, column)) + level.to_bytes(4, "little", signed=True)


def levels(kind, values):
    n = SIZES[kind]
    values = list(values) + [0] * (n * n - len(values))
    return bytes([kind]) + b"".join(v.to_bytes(4, "little", signed=True) for v in values)


def many(numbers, kind, size, share=3):
    """Levels of which one in `share` is not zero."""
    n = SIZES[kind]
    return levels(kind, [numbers.level(size) if numbers.below(share) == 0 else 0 for _ in range(n * n)])


WHOLE = bytes((1, 8, 0, 4, 0)) + levels(4, [2])


def refusals():
    """Each refusal at its border, at the first record and after others; what stands next to it is accepted."""
    block = levels(4, [2])
    before = [b"", parameters(), parameters() + block, parameters() + a_list(range(64), 7) + DROP]
    for lead in before:
        for kind in (0, 10, 255):
            yield lead + bytes([kind])
            yield lead + bytes([kind]) + block
        yield lead + bytes((1, 8))
        yield lead + bytes((1, 7, 9, 9))
        yield lead + parameters()[:-1]
        yield lead + a_list(range(64), 7)[:-1]
        yield lead + block[:-1]
        yield lead + levels(7, [])[:-1]
        for depth in (0, 7, 8, 16, 17, 255):
            yield lead + parameters(depth)
        yield lead + parameters(7, 2, 0, 3)
        for flag in (0, 1, 2, 255):
            yield lead + parameters(8, flag)
        for mode in (0, 1, 2, 3, 255):
            yield lead + parameters(mode=mode)
        yield lead + parameters(8, 2, 0, 3)
        for kind in (4, 5, 6, 7):
            yield lead + parameters(mode=1) + levels(kind, [2])[:1 + BODIES[kind]]
    for kind in (4, 5, 6, 7):
        yield levels(kind, [2])
        yield levels(kind, [2])[:-1]
        yield a_list(range(64), 7) + levels(kind, [2])
    yield parameters(mode=1) + levels(5, [2])[:-1]
    yield parameters(9) + parameters(17) + block
    yield parameters() + block + bytes([10]) + block


def edit_refusals():
    """Edits and readings where no block is held, in each way that leaves none; an edit cut short, and one outside its block, at every size."""
    block, listed = levels(4, [2]), a_list(range(64), 7)
    opened = parameters() + block
    closed = [b"", parameters(), listed, DROP, DROP + parameters(), opened + parameters(), opened + listed, opened + DROP, opened + edit(1, 2, 3) + DROP]
    closed += [parameters(mode=1) + block + parameters(mode=1), parameters(mode=2) + block, opened + parameters(mode=2) + levels(5, [2]), listed + opened + listed]
    for lead in closed:
        for record in (edit(0, 0, 1), READ, edit(4, 4, 1), edit(0, 0, 1)[:-1], bytes([8]), edit(0, 0, 1) + READ + block, bytes([10]), bytes([255])):
            yield lead + record
    for kind, n in SIZES.items():
        for mode in (0, 1) if kind == 4 else (0,):
            lead = parameters(mode=mode) + levels(kind, [2])
            for row, column in ((n, 0), (0, n), (n, n), (255, 0), (0, 255), (n - 1, n), (n, n - 1), (n - 1, n - 1), (0, n - 1), (n - 1, 0)):
                yield lead + edit(row, column, 70) + READ
            yield lead + edit(1, 1, 30) + edit(n, 0, 70) + READ + block
    for mode in (0, 1):
        lead = parameters(mode=mode) + block
        for length in range(1, 7):
            yield lead + edit(4, 0, 70)[:length]
        for record in (bytes([10]), bytes([255]) + edit(0, 0, 1), parameters(7), levels(4, [])[:-1], parameters(8, 2), listed[:-1]):
            yield lead + edit(1, 1, 30) + record


def edits():
    """Edits and readings at every size and mode, with lists and without: random ones, one straight after the levels, repeated ones, and several blocks."""
    numbers = Numbers(3)
    for kind, cases in ((4, 5), (5, 3), (6, 2), (7, 1)):
        n = SIZES[kind]
        for mode, flag, listed in ((m, f, x) for m in ((0, 1) if kind == 4 else (0,)) for f in (0, 1) for x in (False, True)):
            for _ in range(cases):
                depth = 8 + numbers.below(9)
                feed = parameters(depth, flag, numbers.below(52 + 6 * (depth - 8)), mode)
                if listed:
                    feed += a_list([numbers.below(256) for _ in range(64)], numbers.below(256))
                feed += many(numbers, kind, (4, 100, 40000)[numbers.below(3)], 4)
                for _ in range(1 if kind == 7 else 2):
                    feed += b"".join(edit(numbers.below(n), numbers.below(n), numbers.level(50000)) for _ in range(numbers.below(5))) + READ
                yield feed
    steep, block = a_list([1 + 3 * i for i in range(64)], 200), levels(4, [5, -3, 2])
    yield parameters() + block + READ
    yield parameters() + block + READ + READ
    yield parameters() + block + edit(0, 0, 9)
    yield parameters() + block + edit(0, 0, 9) + edit(0, 0, 5) + READ
    yield parameters() + block + edit(0, 0, 9) + READ + block + READ
    yield parameters() + block + edit(0, 0, 9) + levels(5, [4]) + edit(7, 7, 9) + READ
    yield steep + parameters(mode=1) + block + edit(3, 3, 9) + READ + DROP + block + edit(3, 3, 9) + READ
    yield parameters(mode=2) + block + parameters() + block + edit(2, 1, -7) + READ + parameters(mode=2) + block
    yield parameters(12, 1, 30) + block * 3 + edit(2, 1, -7) + block + READ
    for dc in (0, 255):
        yield a_list([16] * 64, dc) + parameters(8, 0, 30) + levels(6, [1, 2]) + edit(0, 0, 900) + READ + edit(1, 0, 900) + READ
    yield a_list([16] * 64, 255) + parameters(8, 0, 30) + levels(7, [1, 2]) + edit(0, 0, 900) + READ


def columns():
    """The column count after edits: down, up and to 0; a level whose coefficient is 0 counts as none, and a limited one as its limit."""
    zero = a_list([0] * 64, 0)
    for kind, n in SIZES.items():
        for mode in (0, 1) if kind == 4 else (0,):
            lead, last = parameters(8, 0, 30, mode), n - 1
            yield lead + levels(kind, []) + READ
            yield lead + levels(kind, [0] * last + [7]) + edit(0, last, 0) + READ
            yield lead + levels(kind, [5] + [0] * (last - 1) + [7]) + edit(0, last, 0) + READ
            yield lead + levels(kind, [5]) + edit(last, last, 1) + READ
            yield zero + lead + levels(kind, [5] * (n * n)) + edit(last, last, 70) + READ
            yield parameters(16, 0, 0, mode) + levels(kind, [5]) + edit(0, 0, 0) + edit(last, last, 1) + READ
            for level in (2**31 - 1, -(2**31), 32768, -32769):
                yield lead + levels(kind, [5]) + edit(last, 1, level) + READ
    for kind in (4, 5, 6):
        for at in range(SIZES[kind]):
            yield parameters(8, 0, 30) + levels(kind, []) + edit(1, at, 9) + READ + edit(1, at, 0) + READ


def plain():
    """The case of the rules, empty inputs, records without blocks, QP′ and levels at and past their limits."""
    yield b""
    yield WHOLE
    yield WHOLE * 3
    yield parameters()
    yield DROP
    yield DROP + a_list([16] * 64, 16)
    for depth, top in ((8, 51), (16, 99)):
        for qp in (0, 5, 6, top - 1, top, top + 1, 255):
            for mode in (0, 1, 2):
                yield parameters(depth, 0, qp, mode) + levels(4, [1, -1, 3, -2, 40000, -40000, 2147483647, -2147483648])
    for depth in range(8, 17):
        for flag in (0, 1):
            yield parameters(depth, flag, 30, 2) + levels(4, [2147483647, -2147483648, 70, -71, 1, -1])
    yield parameters(16, 1, 99, 2) + levels(4, [-2147483648] * 16)


def blocks():
    """Every mode and size, with and without a list, at several depths."""
    numbers = Numbers(1)
    for kind, cases in ((4, 6), (5, 4), (6, 2), (7, 1)):
        for mode in (0, 1, 2):
            if mode == 1 and kind != 4:
                continue
            for flag in (0, 1):
                for listed in (False, True):
                    for _ in range(cases):
                        depth = 8 + numbers.below(9)
                        feed = parameters(depth, flag, numbers.below(52 + 6 * (depth - 8)), mode)
                        if listed:
                            feed += a_list([numbers.below(256) for _ in range(64)], numbers.below(256))
                        yield feed + many(numbers, kind, (4, 100, 40000)[numbers.below(3)])


def changes():
    """Lists with DC set, replaced and dropped, and parameters changed, between blocks."""
    numbers = Numbers(2)
    steep = a_list([1 + 3 * i for i in range(64)], 200)
    zero = a_list([0] * 64, 255)
    for kind in (4, 5, 6):
        for mode in (0, 2):
            block = many(numbers, kind, 30, 5)
            yield parameters(10, 0, 30, mode) + block + steep + block + zero + block + DROP + block
            yield steep + parameters(8, 1, 20, mode) + block + parameters(16, 1, 40, 2 - mode) + block + DROP + block
    small = many(numbers, 4, 500, 1)
    yield steep + parameters(9, 0, 27, 1) + small + parameters(9, 0, 27, 0) + small + DROP + parameters(12, 1, 50, 1) + small
    yield b"".join(parameters(8 + i, i % 2, 10 * i, i % 3) + small for i in range(9))


def limits():
    """Blocks of which none, one and all coefficients are limited, by the level or the result, at every size and mode, with and without a list."""
    for kind, n in SIZES.items():
        for mode in (0, 1, 2):
            if mode == 1 and kind != 4:
                continue
            for listed in (b"", a_list([255, 0, 1] + [16] * 61, 255)):
                lead = listed + parameters(8, 0, 30, mode)
                for values in ([1], [0] * (n * n - 1) + [-32769], [0, 0, 32767], [2**31 - 1, -(2**31)] * (n * n // 2)):
                    yield lead + levels(kind, values)
        yield parameters(16, 1, 0, 0) + levels(kind, [2**22 - 1, 2**22, -(2**22), -(2**22) - 1])


def skips():
    """Transform skip with a list and without one: the list counts at size 4 and not above, and stays in force for the next block."""
    steep = a_list([1 + 3 * i for i in range(64)], 200)
    skip, dct = parameters(8, 0, 10, 2), parameters(8, 0, 10, 0)
    for kind in (4, 5, 6, 7):
        block = levels(kind, [300, -200, 100])
        yield skip + block
        yield skip + steep + block
    small, middle = levels(4, [300, -200, 100]), levels(5, [300, -200, 100])
    yield steep + skip + middle + small + dct + middle + skip + middle + DROP + small + middle


def cuts():
    """An input cut at each of its first hundred bytes."""
    feed = parameters(8, 0, 30, 0) + a_list([16 + i for i in range(64)], 20) + levels(4, [5, -3, 2]) + DROP + parameters(9, 0, 4, 2) + levels(4, [7])
    for length in range(101):
        yield feed[:length]
    yield feed


def reasons():
    """Every reason of the listing, with edits and readings between, of which it says nothing, then one that is refused."""
    steep = a_list([(6 + 7 * i) % 256 for i in range(64)], 200)
    small, middle, large = (levels(kind, []) for kind in (4, 5, 6))
    changed = edit(0, 3, 5) + READ + edit(3, 0, -5)
    listed = small + changed + steep + small + changed + middle + READ + large + edit(15, 15, 9)
    skipped = steep + parameters(mode=2) + small + middle + DROP + middle
    return parameters() + listed + DROP + small + skipped + parameters(mode=1) + small + changed + parameters() + READ


def bug_case():
    """Blocks of every size and mode with lists, edits and readings, for the feed program."""
    numbers = Numbers(4)
    steep = a_list([1 + 3 * i for i in range(64)], 200)
    first = levels(4, [5, -3, 0, 2]) + READ + edit(0, 3, 0) + READ + edit(0, 1, 0) + READ + edit(0, 0, 0) + READ + edit(3, 2, 8) + READ + READ
    limited = levels(4, [1]) + edit(0, 0, 2**31 - 1) + READ + edit(1, 1, -(2**31)) + READ + edit(1, 1, 4) + edit(0, 0, 1) + READ
    feed = parameters(8, 0, 30) + first + limited + levels(5, [31, -19, 4]) + edit(7, 7, 3) + READ
    feed += steep + levels(5, [31, -19, 4]) + edit(7, 7, 3) + READ + many(numbers, 6, 60) + edit(0, 0, 12) + READ + edit(0, 1, 12) + edit(15, 15, -70) + READ
    feed += parameters(10, 1, 40, 1) + levels(4, [9, -3]) + READ + edit(3, 3, 5) + READ + parameters(8, 0, 20, 2) + levels(4, [70, 7]) + levels(5, [70, 7])
    feed += DROP + parameters(16, 1, 60) + many(numbers, 7, 500, 9) + edit(31, 0, 40) + READ + edit(0, 31, -40) + edit(31, 31, 2) + READ
    return feed + parameters(12) + levels(4, []) + READ


FILES = {made.__name__: made for made in (refusals, edit_refusals, plain, blocks, edits, columns, changes, skips, limits, cuts)}


def cases(name):
    """The feeds of a file, each of which the program of cases has room for."""
    for number, feed in enumerate(FILES[name]()):
        room = 40 + 4 * len(feed) + READING * residuals(feed).count("columns")
        if len(feed) > LONGEST or room > ROOM:
            raise ValueError(f"case {number} of {name} has {len(feed)} bytes and wants {room} bytes of room")
        yield feed


def main():
    write_files("feed_main", {"stdin": bug_case(), "stdout": residuals(bug_case())})
    write_files("scale_trace_main", {"stdin": reasons(), "stdout": listing(reasons())})
    shown, files = [], {}
    for name in FILES:
        shown.append(f"{name}\n")
        data = b""
        for number, feed in enumerate(cases(name)):
            data += len(feed).to_bytes(4, "little") + feed
            shown.append(f"case {number}\n{residuals(feed)}")
        files[f"data/{name}"] = data
    write_files("feed_cases", {**files, "args": "".join(f"{name}\n" for name in FILES), "stdout": "".join(shown)})


if __name__ == "__main__":
    main()
