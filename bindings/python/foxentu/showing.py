"""A bug case for reading: its blocks, edits and readings, before and after, with differences. All numbers are the feed program's."""
import shutil

from . import feedtext
from .running import Unfinished

KIND_NAMES = ("DCT", "DST", "transform skip")
# the reasons of the listing, in words
REASONS = {
    "none": "no list is in force",
    "four": "entry {} of the list",
    "eight": "entry {} of the list",
    "dc": "the list's DC number",
    "repeat": "entry {} of the list, which stands for several indices",
    "skip": "a transform-skip block above size 4 ignores the list",
}


class Lines:
    """The lines of a feed's text, taken one after the other."""

    def __init__(self, text):
        self.lines, self.index = text.decode("ascii").splitlines(), 0

    def next(self):
        if self.index >= len(self.lines):
            raise Unfinished("the feed's text ends early")
        self.index += 1
        return self.lines[self.index - 1]

    def rows(self, size):
        rows = [[int(word) for word in self.next().split(" ")] for _ in range(size)]
        if any(len(row) != size for row in rows):
            raise Unfinished("the feed's text does not have the rows of its blocks")
        return rows

    def counted(self, word):
        """The number of a line `word N`."""
        head, _, number = self.next().partition(" ")
        if head != word:
            raise Unfinished(f"the feed's text has no line '{word}' behind the rows of a block")
        return int(number)


def grid(rows):
    wide = max(len(str(v)) for row in rows for v in row)
    return [" ".join(f"{v:>{wide}}" for v in row) for row in rows]


def beside(titled, width):
    """Grids with their titles side by side, or one above the other where they are too wide."""
    grids = [(title, grid(rows)) for title, rows in titled]
    wide = [max(len(title), len(lines[0])) for title, lines in grids]
    if sum(wide) + 4 * len(wide) <= width:
        table = [[title.ljust(w) for (title, _), w in zip(grids, wide)]]
        table += [[lines[k].ljust(w) for (_, lines), w in zip(grids, wide)] for k in range(len(grids[0][1]))]
        return ["    " + "    ".join(row).rstrip() for row in table]
    return [line for title, lines in grids for line in ["    " + title] + ["      " + line for line in lines]]


def difference(after, before):
    return [[a - b for a, b in zip(x, y)] for x, y in zip(after, before)]


class Case:
    """Walks a feed's records beside its text and says what each did."""

    def __init__(self, given, text, put):
        self.given, self.lines, self.put = given, Lines(text), put
        self.width = shutil.get_terminal_size((120, 24)).columns
        self.parameters, self.listed, self.blocks, self.edits = None, False, 0, 0

    def show(self, refusal):
        stop = refusal[1] if refusal else len(self.given.data)
        for at, kind, body in feedtext.walk(self.given.data):
            if at >= stop or kind is None:
                break
            self.record(at, kind, body)
        last = self.lines.next()
        if not refusal:
            self.put(last)

    def record(self, at, kind, body):
        where = self.given.where(at)
        if kind == 1:
            self.parameters = tuple(body)
        elif kind in (2, 3):
            self.listed = kind == 2
            self.put(f"{where}: " + ("a list is in force" if self.listed else "the list is dropped"))
        elif kind == 8:
            self.edit(where, body)
        elif kind == 9:
            self.reading(where)
        else:
            self.opened(where, feedtext.KINDS[kind], list(feedtext.numbers(body)))

    def opened(self, where, size, levels):
        depth, extended, prime, mode = self.parameters
        self.blocks, self.edits, self.size = self.blocks + 1, 0, size
        self.levels = [levels[size * k:size * k + size] for k in range(size)]
        self.opening = self.rows = self.lines.rows(size)
        self.last = "the block as it came"
        limited = self.lines.counted("limited")
        told = f"{KIND_NAMES[mode]} {size} x {size}, depth {depth}{', extended precision' if extended else ''}, QP' {prime}, {'a list' if self.listed else 'no list'}"
        self.put(f"{where}: block {self.blocks}: {told}, {limited} limited")
        for line in beside([("levels", self.levels), ("residual", self.rows)], self.width):
            self.put(line)

    def edit(self, where, body):
        row, column, level = body[0], body[1], int.from_bytes(body[2:], "little", signed=True)
        before = self.levels[row][column]
        self.levels[row][column] = level
        self.edits += 1
        self.put(f"{where}: edit {self.edits} of block {self.blocks}: row {row}, column {column}: level {before} becomes {level}")

    def reading(self, where):
        rows = self.lines.rows(self.size)
        columns = self.lines.counted("columns")
        changed = sum(a != b for x, y in zip(rows, self.rows) for a, b in zip(x, y))
        edits = f"{self.edits} edit{'' if self.edits == 1 else 's'}"
        self.put(f"{where}: block {self.blocks} after {edits}: columns {columns}, {changed} of {self.size * self.size} samples differ from {self.last}")
        if changed:
            shown = [("before", self.rows), ("after", rows), ("difference", difference(rows, self.rows))]
            for line in beside(shown, self.width):
                self.put(line)
        if self.rows is not self.opening:
            total = sum(a != b for x, y in zip(rows, self.opening) for a, b in zip(x, y))
            self.put(f"    {total} of {self.size * self.size} samples differ from the block as it came")
        self.rows, self.last = rows, "the reading before"
