#!/usr/bin/env python3
"""edited_cases.py [CRATES]: write stdin and stdout of the program edited_cases (in crates by default).

Written from the rules alone (docs/RULES.md): it shares nothing with the crates. First random edits of coefficients and of levels on blocks of every kind, size, depth,
flag and way of opening, whose answers and column counts stand here, and which the program compares with fresh computations; then every refusal of openings, edits
and lists of edits at its border.
"""
import random

from case_files import named, short, shown, wide, word, write_files
from rules import clip, coefficient_range, factor, limited, matrix, scaled_parts, stage_one, stage_two

LARGEST = 2**64 - 1
DONE = (0, 0, 0, 0)
SIZES = (4, 8, 16, 32)
OPEN, EDIT, LIST, RANDOM = range(4)
COEFFICIENTS, LEVELS, SCALED_LEVELS = range(3)
NO_ENTRIES = [0] * 64
NOTHING = (COEFFICIENTS, 0, 0, NO_ENTRIES)

cases, lines = [], []


# ---- the rules
class Setting:
    """`source` is the way of the opening, QP', DC and the list's entries; what an opening is not given is 0."""

    def __init__(self, dst, n, depth, extended, source=NOTHING):
        self.dst, self.n, self.depth, self.extended = dst, n, depth, extended
        self.way, self.qp, self.dc, self.entries = source

    def fixed(self, count):
        """The record, with a column count."""
        return (self.dst, self.n, self.depth, self.extended, count, self.way != COEFFICIENTS, self.qp, self.way == SCALED_LEVELS, self.dc, (self.entries + NO_ENTRIES)[:64])

    def text(self):
        way = ("", f" levels {self.qp}", f" levels {self.qp} list {self.dc} {len(self.entries)}")[self.way]
        return f"{'dst' if self.dst else 'dct'} {self.n} {self.depth} {'extended' if self.extended else 'plain'}{way}"

    def bytes(self):
        source = bytes([self.way]) + wide([self.qp]) + bytes([self.dc]) + word(len(self.entries)) + bytes(self.entries)
        return bytes([self.dst]) + word(self.n) + bytes([self.depth, self.extended]) + source

    def limit(self):
        return 2 ** coefficient_range(self.depth, self.extended)

    def clipped(self, values):
        return [clip(-self.limit(), self.limit() - 1, v) for v in values]

    def refusal(self, lengths, entries=64, levels_too=False):
        """Rows 1 to 7, or 0; of levels, coefficients, intermediate and residual row 6 looks at the levels only where it is asked to."""
        if self.n not in SIZES:
            return 1
        if not 8 <= self.depth <= 16:
            return 2
        if self.dst and self.n != 4:
            return 4
        if entries != 64:
            return 5
        if min(lengths[not levels_too : 2]) < self.n**2:
            return 6
        return 7 if min(lengths[2:]) < self.n**2 else 0

    def outside(self, value, row, column):
        if value >= self.limit():
            return 9, 0, row, column
        if value < -self.limit():
            return 19, 0, row, column
        return DONE

    def columns(self, coeff):
        used = [i % self.n + 1 for i in range(self.n**2) if coeff[i] != 0]
        return max(used, default=0)

    def stages(self, coeff):
        t = matrix(self.n, self.dst)
        inter = stage_one(coeff, self.n, self.depth, self.extended, t, self.n)
        return inter, stage_two(inter, self.n, self.depth, self.extended, t)

    def list(self):
        return self.entries if self.way == SCALED_LEVELS else None

    def parts(self, level, i):
        """The coefficient of a level at an index, whether the level was limited, and whether the result was."""
        return scaled_parts(level, factor(self.list(), self.dc, self.n, i), self.n, self.qp, self.depth, self.extended)

    def coefficients(self, values):
        """The coefficients of the values that a block was opened on."""
        return values[: self.n**2] if self.way == COEFFICIENTS else [self.parts(v, i)[0] for i, v in enumerate(values[: self.n**2])]

    def limited(self, values):
        return 0 if self.way == COEFFICIENTS else limited(values[: self.n**2], self.list(), self.dc, self.n, self.qp, self.depth, self.extended)


def usual(source=NOTHING):
    return Setting(0, 4, 8, 0, source)


def opened(setting, buffers):
    """Answer with how many were limited, column count or None, and the four buffers afterwards."""
    levels, coeff, inter, residual = buffers
    on_levels, square = setting.way != COEFFICIENTS, setting.n**2
    number = setting.refusal([len(b) for b in buffers], len(setting.entries) if setting.way == SCALED_LEVELS else 64, on_levels)
    if number:
        return (number, 0, 0, 0, 0), None, buffers
    if not on_levels:
        for i in range(square):
            answer = setting.outside(coeff[i], *divmod(i, setting.n))
            if answer != DONE:
                return (*answer, 0), None, buffers
    values = levels if on_levels else coeff
    coeff = setting.coefficients(values) + coeff[square:]
    first, second = setting.stages(coeff)
    return (*DONE, setting.limited(values)), setting.columns(coeff), (levels, coeff, first + inter[square:], second + residual[square:])


def refused(setting, lengths, level, row, column, value):
    """What an edit is answered with."""
    number = setting.refusal(lengths, levels_too=level and setting.way != COEFFICIENTS)
    if number:
        return number, 0, 0, 0
    if level != (setting.way != COEFFICIENTS):
        return 10, 0, 0, 0
    if max(row, column) >= setting.n:
        return 8, 0, 0, 0
    return DONE if level else setting.outside(value, row, column)


def edited(setting, count, buffers, level, row, column, value):
    """Answer with the two flags, column count and the four buffers afterwards. What the edit only reads it reads limited to the range."""
    answer, n = refused(setting, [len(b) for b in buffers], level, row, column, value), setting.n
    if answer != DONE:
        return (*answer, 0, 0), count, buffers
    levels, coeff, inter, residual = (list(b) for b in buffers)
    at, flags = row * n + column, (False, False)
    if level:
        levels[at] = value
        value, *flags = setting.parts(value, at)
    coeff[at] = value
    own = setting.stages(setting.clipped(coeff[: n * n]))[0]
    for m in range(n):
        inter[m * n + column] = own[m * n + column]
    t = matrix(n, setting.dst)
    second = stage_two(setting.clipped(inter[: n * n]), n, setting.depth, setting.extended, t)
    return (*DONE, *flags), setting.columns(coeff), (levels, coeff, inter, second + residual[n * n :])


def record(setting, count):
    """What a call hands back; zeros where an opening is refused."""
    return Setting(0, 0, 0, 0).fixed(0) if count is None else setting.fixed(count)


def limits_number(answer):
    return answer[4] + 2 * answer[5]


# ---- random edits
def drawn_inside(draw, top):
    """Often zero, so that columns empty again, often an end, so that the intermediate meets its limits, small or any."""
    kind = draw.randrange(16)
    if kind < 5:
        return 0
    return draw.choice((top - 1, -top)) if kind < 7 else draw.randrange(-64, 64) if kind < 9 else draw.randrange(-top, top)


def drawn_value(draw, top):
    """One in eight lies outside, next to the range or as far as 32 bits go."""
    kind = draw.randrange(16)
    return draw.choice((top, -top - 1)) if kind == 0 else draw.choice((2**31 - 1, -(2**31))) if kind == 1 else drawn_inside(draw, top)


def drawn_line(draw, n):
    """A row or column: one in eight lies outside, next to the block or as far as its type goes."""
    kind = draw.randrange(16)
    return n if kind == 0 else LARGEST if kind == 1 else draw.randrange(n)


def drawn_source(draw, way):
    """QP', DC and a list, as far as the way has them."""
    qp = draw.choice((-1, 0, 4, 27, 51, 99, 2**31 - 1)) if draw.randrange(2) else draw.randrange(100)
    if way == SCALED_LEVELS:
        return way, qp, draw.randrange(256), [draw.choice((0, 1, 16, 255)) if draw.randrange(4) == 0 else draw.randrange(256) for _ in range(64)]
    return NOTHING if way == COEFFICIENTS else (way, qp, 0, NO_ENTRIES)


def drawn(draw, setting):
    """A block and a hundred edits, one in twelve of the other kind. The second half goes back over the places of the first, the last one first, and mostly with zeros,
    so that columns empty again."""
    n, top = setting.n, setting.limit()
    last = n if draw.randrange(8) == 0 else draw.randrange(n) // 2
    value = drawn_inside if setting.way == COEFFICIENTS else drawn_value
    block = [value(draw, top) if i % n <= last else 0 for i in range(n * n)]
    there = [(drawn_line(draw, n), drawn_line(draw, n)) for _ in range(50)]
    forth = [(r, c, drawn_value(draw, top)) for r, c in there]
    back = [(r, c, drawn_value(draw, top) if draw.randrange(16) == 0 else 0) for r, c in reversed(there)]
    return block, [((setting.way != COEFFICIENTS) != (draw.randrange(12) == 0), *edit) for edit in forth + back]


def random_case(dst, n, depth, extended, way):
    draw = random.Random(f"{dst} {n} {depth} {extended} {way}")
    setting = Setting(dst, n, depth, extended, drawn_source(draw, way))
    values, edits = drawn(draw, setting)
    start, answers, now = setting.limited(values), [], list(values)
    coeff, text = setting.coefficients(now), shown(*DONE, start)
    count = setting.columns(coeff)
    for level, row, column, value in edits:
        answer = (*refused(setting, [n * n] * 4, level, row, column, value), 0, 0)
        if answer[0] == 0:
            at = row * n + column
            now[at], coeff[at] = value, value
            if level:
                coeff[at], *flags = setting.parts(value, at)
                answer = (*DONE, *flags)
            count = setting.columns(coeff)
        answers.append(answer)
        text += shown(*answer, count)
    ways, rows, columns, each = zip(*edits)
    places = [min(r, n) * n + c if max(r, c) < n else 2**16 - 1 for r, c in zip(rows, columns)]
    case = word(n * n) + wide(values) + bytes(min(r, 255) for r in rows) + bytes(min(c, 255) for c in columns) + wide(each) + b"".join(map(short, places)) + bytes(ways)
    text += shown(*record(setting, count)) + " equal"
    told = [[a[0] for a in answers], [a[2] for a in answers], [a[3] for a in answers], [limits_number(a) for a in answers]]
    text += shown(*DONE, start, *record(setting, count), len(edits), *told) + " equal"
    add(f"random {setting.text()}:", RANDOM, setting, case, text)


# ---- borders
def add(name, which, setting, rest, text):
    cases.append(named(name) + bytes([which]) + setting.bytes() + rest)
    lines.append(name + text + "\n")


def lent(buffers):
    return b"".join(word(len(b)) for b in buffers) + b"".join(wide(b) for b in buffers)


def only(at, value):
    """A 4×4 block with one value, and two places more, which no call may change."""
    return [value if i == at else 0 for i in range(16)] + [7, 7]


def marks():
    return [7] * 18


def fresh(coeff):
    return marks(), coeff, marks(), marks()


def fresh_levels(levels):
    return levels, marks(), marks(), marks()


def few(value):
    return [value] * 15


def opening(setting, buffers):
    answer, count, after = opened(setting, buffers)
    add(f"open {setting.text()}:", OPEN, setting, lent(buffers), shown(*answer, *record(setting, count), *after))


def edit(setting, count, buffers, row, column, value, level=False):
    answer, after_count, after = edited(setting, count, buffers, level, row, column, value)
    case = lent(buffers) + word(count) + bytes([level]) + word(row) + word(column) + wide([value])
    add(f"edit{' level' if level else ''} {setting.text()} {count}, {row} {column} {value}:", EDIT, setting, case, shown(*answer, *record(setting, after_count), *after))
    return after_count, after


def a_list(name, setting, buffers, rows, columns, values, ways, lengths):
    """`lengths` are those of the answers' slices, which hold 77."""
    answer, count, after = opened(setting, buffers)
    told = [[77] * n for n in lengths]
    edits = 0 if answer[0] else min(len(rows), len(columns), len(values), len(ways), *lengths)
    for i in range(edits):
        own, count, after = edited(setting, count, after, ways[i], rows[i], columns[i], values[i])
        told[0][i], told[1][i], told[2][i], told[3][i] = own[0], own[2], own[3], limits_number(own)
    eight = [(part + [0] * 8)[:8] for part in (rows, columns, values, ways)]
    given = bytes(eight[0]) + bytes(eight[1]) + wide(eight[2]) + bytes(eight[3])
    case = lent(buffers) + given + b"".join(word(n) for n in (len(rows), len(columns), len(values), len(ways), *lengths))
    add(f"list {setting.text()}, {name}:", LIST, setting, case, shown(*answer, *record(setting, count), edits, *told, *after))


def short_buffers(value, mark=7, on_levels=False):
    """Each of the four buffers with 15 places, then all of them."""
    for short_ones in ((1, 0, 0, 0), (0, 1, 0, 0), (0, 0, 1, 0), (0, 0, 0, 1), (1, 1, 1, 1)):
        held = (only(5, value), marks()) if on_levels else (marks(), only(5, value))
        whole = (*held, marks(), marks())
        yield tuple(few(value if (i == 0) == on_levels and i < 2 else mark) if s else b for i, (s, b) in enumerate(zip(short_ones, whole)))


def openings():
    at, dct, dst = opening, lambda n, b, x: Setting(0, n, b, x), lambda n, b, x: Setting(1, n, b, x)
    for setting, place, value in (
        (usual(), 0, 63), (usual(), 3, 64), (usual(), 5, 32767), (usual(), 5, -32768), (dct(4, 16, 0), 0, 32767),
        (dct(4, 10, 1), 15, 65535), (dct(4, 16, 1), 0, -4194304), (dst(4, 8, 0), 0, 64),
        # refused
        (dct(12, 8, 0), 0, 63), (dct(0, 8, 0), 0, 63), (dct(LARGEST, 8, 0), 0, 63), (dct(4, 7, 0), 0, 63), (dct(4, 17, 1), 0, 63),
        (dst(8, 8, 0), 0, 63), (dct(8, 8, 0), 0, 63), (usual(), 5, 32768), (usual(), 5, -32769), (dct(4, 9, 1), 15, 32768),
        (dct(4, 10, 1), 15, 65536), (dct(4, 16, 1), 15, -4194305), (dst(4, 8, 0), 9, 32768),
        # two rows apply: the lower number is the answer
        (dct(12, 7, 0), 0, 63), (dst(12, 8, 0), 0, 63), (dst(8, 17, 0), 0, 63),
    ):
        at(setting, fresh(only(place, value)))
    # two coefficients outside: by rows index 6 comes first, by columns index 9
    two = only(6, 32768)
    two[9] = -32769
    at(usual(), fresh(two))
    # buffers of 15 places, with a coefficient outside: row 6 comes before row 7, both before row 9, and the level buffer is not looked at
    for buffers in short_buffers(32768):
        at(usual(), buffers)


def sources():
    """QP' 4 without a list, and by lists of which one has different entries and one is too short."""
    counted = [16 + i for i in range(64)]
    return (LEVELS, 4, 0, NO_ENTRIES), (SCALED_LEVELS, 4, 30, counted), (SCALED_LEVELS, 4, 30, counted[:63])


def level_openings():
    flat, listed, short_list = sources()
    for source in (flat, listed, (LEVELS, 2**31 - 1, 0, NO_ENTRIES), (LEVELS, -(2**31), 0, NO_ENTRIES)):
        for place, level in ((0, 1), (0, -1), (0, 40000), (5, 1023), (5, 1024), (5, -1024), (5, -1025), (15, 32768), (15, 2**31 - 1), (15, -(2**31))):
            opening(usual(source), fresh_levels(only(place, level)))
    # refused, and two rows at once: the lower number is the answer
    for source in (flat, listed, short_list):
        for fixed in ((0, 12, 8, 0), (0, 4, 7, 0), (0, 4, 17, 1), (1, 8, 8, 0), (0, 8, 8, 0), (0, 4, 8, 0), (1, 4, 16, 1), (0, 12, 7, 0), (1, 8, 17, 0)):
            opening(Setting(*fixed, source), fresh_levels(only(0, 63)))
        for buffers in short_buffers(2, on_levels=True):
            opening(usual(source), buffers)


def edits():
    # the three values of the requirements' example, by docs/RULES.md; then the last column is taken into use and stays while the first one empties, and empties too
    count, buffers = opened(usual(), fresh(only(0, 0)))[1:]
    for place in ((0, 0, 62), (0, 0, 63), (0, 0, -64), (0, 3, 64), (0, 0, 0), (0, 3, 0)):
        count, buffers = edit(usual(), count, buffers, *place)
    # places and values at their borders, on a block that was opened with 63 at index 0
    count, buffers = opened(usual(), fresh(only(0, 63)))[1:]
    for place in ((3, 3, 32767), (3, 3, -32768), (4, 0, 5), (0, 4, 5), (LARGEST, LARGEST, 5), (1, 2, 32768), (1, 2, -32769), (3, 3, 2147483647), (0, 4, -32769)):
        edit(usual(), count, buffers, *place)
    # records that no opening gave: a refused edit hands back what it got, an accepted one does not rely on the count in it
    for fixed, count, place in (
        ((0, 0, 0, 0), 0, (0, 0, 62)), ((0, 12, 8, 0), 9, (0, 0, 62)), ((0, 4, 7, 0), 9, (0, 0, 62)), ((0, 4, 17, 1), 9, (0, 0, 62)),
        ((1, 8, 8, 0), 9, (0, 0, 62)), ((0, 8, 8, 0), 9, (0, 0, 62)), ((0, 12, 7, 0), 9, (12, 0, 32768)), ((1, 8, 17, 0), 9, (8, 0, 32768)),
        ((0, 4, 8, 0), 9, (4, 0, 62)), ((0, 4, 10, 1), 9, (0, 1, 65536)), ((0, 4, 10, 1), 9, (0, 1, 65535)), ((1, 4, 8, 0), 9, (0, 0, 64)),
    ):
        edit(Setting(*fixed), count, fresh(only(0, 63)), *place)
    # buffers of 15 places, with a place and a value outside: rows 6, 7, 8 and 9 in this order
    for buffers in (*short_buffers(63), fresh(only(0, 63))):
        edit(usual(), 1, buffers, 4, 0, 32768)
    # buffers that a caller has spoiled: 40000 is read as 32767, and stays where the edit does not write
    for value in (40000, 32767):
        edit(usual(), 1, (marks(), only(4, value), [value] * 18, [value] * 18), 0, 0, 63)


def level_edits():
    flat, listed, _ = sources()
    for source in (flat, listed):
        setting = usual(source)
        # levels at both borders of what is limited, and the last column taken into use and emptied again
        count, buffers = opened(setting, fresh_levels(only(0, 1)))[1:]
        for place in ((0, 0, 1023), (0, 0, 1024), (0, 0, -1024), (0, 0, -1025), (0, 0, 40000), (0, 3, -32769), (3, 3, 2**31 - 1), (3, 3, -(2**31)), (0, 3, 0), (3, 3, 0), (0, 0, 0)):
            count, buffers = edit(setting, count, buffers, *place, level=True)
        # refused: places, the other kind, and what comes before them; a short level buffer is looked at by a level edit alone
        count, buffers = opened(setting, fresh_levels(only(0, 1)))[1:]
        for place in ((4, 0, 5), (0, 4, 5), (LARGEST, LARGEST, 5)):
            edit(setting, count, buffers, *place, level=True)
        for place in ((0, 0, 5), (4, 0, 5), (0, 0, 32768)):
            edit(setting, count, buffers, *place)
        for short_ones in short_buffers(2, on_levels=True):
            edit(setting, 1, short_ones, 4, 0, 5, level=True)
            edit(setting, 1, short_ones, 4, 0, 32768)
        for fixed in ((0, 12, 8, 0), (0, 4, 7, 0), (1, 8, 8, 0), (0, 8, 8, 0)):
            edit(Setting(*fixed, source), 9, fresh_levels(only(0, 1)), 0, 0, 5, level=True)
        # spoiled buffers: the levels are not what the coefficients came from, and stay where the edit does not write
        edit(setting, 1, (only(4, 40000), only(4, 40000), [40000] * 18, [40000] * 18), 0, 0, 2, level=True)
    # a level edit on a block that was opened on coefficients: 10, whatever the level buffer's length, but after 7
    for buffers in (fresh(only(0, 63)), *short_buffers(63)):
        edit(usual(), 1, buffers, 0, 0, 5, level=True)
    edit(usual(), 1, fresh(only(0, 63)), 4, 0, 5, level=True)
    # records that no opening gave: DC at size 8 is not used, and entries of a record without a list are not
    odd = [255 - i for i in range(64)]
    edit(Setting(1, 4, 8, 0, (LEVELS, 4, 77, odd)), 9, fresh_levels(only(0, 1)), 0, 0, 2, level=True)


def lists():
    # an accepted edit, one refused with 8, one with 9, a level with 10, and the first one's column emptied again
    mixed = ([0, 4, 1, 0, 0], [3, 0, 2, 0, 3], [64, 5, 4194304, 1, 0], [0, 0, 0, 1, 0], (6, 6, 6, 6))
    for fixed, at, value in (
        ((0, 4, 8, 0), 0, 63), ((1, 4, 16, 1), 0, 63), ((0, 12, 8, 0), 0, 63), ((0, 4, 7, 0), 0, 63),
        ((0, 4, 17, 0), 0, 63), ((1, 8, 8, 0), 0, 63), ((0, 4, 8, 0), 5, 32768), ((0, 4, 8, 0), 5, -32769),
    ):
        a_list("five edits", Setting(*fixed), fresh(only(at, value)), *mixed)
    for buffers in short_buffers(32768):
        a_list("short buffers", usual(), buffers, *mixed)
    # the same of levels: accepted, 8, a level that is limited, a coefficient with 10, and back to 0
    levels = ([0, 4, 1, 0, 0], [3, 0, 2, 0, 3], [64, 5, 4194304, 1, 0], [1, 1, 1, 0, 1], (6, 6, 6, 6))
    for source in sources()[:2]:
        for fixed in ((0, 4, 8, 0), (1, 4, 16, 1), (0, 12, 8, 0), (0, 4, 7, 0), (1, 8, 8, 0)):
            a_list("five edits", Setting(*fixed, source), fresh_levels(only(0, 63)), *levels)
        for buffers in short_buffers(2, on_levels=True):
            a_list("short buffers", usual(source), buffers, *levels)
    # the list is as long as the shortest of its slices
    rows, columns, values, ways = [0, 0, 0], [0, 0, 0], [62, 63, -64], [0, 0, 0]
    whole = (3, 3, 3, 3)
    for parts in (
        ([], columns, values, ways, whole), (rows, columns, [62], ways, whole), (rows, columns, values, ways, whole), (rows, [0, 0], values, ways, whole),
        (rows, columns, values, [0, 0], whole), (rows, columns, values, ways, (2, 3, 3, 3)), (rows, columns, values, ways, (3, 1, 3, 3)),
        (rows, columns, values, ways, (3, 3, 2, 3)), (rows, columns, values, ways, (3, 3, 3, 1)),
    ):
        a_list("as far as the slices reach", usual(), fresh(only(0, 0)), *parts)


for way in (COEFFICIENTS, LEVELS, SCALED_LEVELS):
    for dst, n in ((0, 4), (0, 8), (0, 16), (0, 32), (1, 4)):
        for extended in (0, 1):
            for depth in range(8, 17):
                random_case(dst, n, depth, extended, way)
openings()
level_openings()
edits()
level_edits()
lists()
write_files("edited_cases", {"stdin": b"".join(cases), "stdout": "".join(lines)})
