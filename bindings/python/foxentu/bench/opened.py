"""A block opened on the bench: its numbers by the archive, its factors by the listing program. Nothing here computes a sample."""
from .. import feedtext, library, residual, running, showing
from .case import SKIP, edit_record


class Unwilling(Exception):
    """What the bench does not do, in words; the row of the table where there is one, and the place of the cell that it is about."""

    def __init__(self, words, number=None, row=None, column=None):
        super().__init__(words)
        self.words, self.number, self.row, self.column = words, number, row, column


def factors_of(block):
    """For each index of a block m and the reason in words, as the listing program says."""
    pieces = []
    running.trace(running.Input("the block", data=block.records()), pieces.append)
    found = []
    for line in b"".join(pieces).decode("ascii").splitlines():
        _, m, reason, position = line.split(" ")
        found.append((int(m), showing.REASONS[reason].format(position)))
    return found


class Opened:
    """A block and the edits made in it so far, those of its case first."""

    def __init__(self, block):
        self.block, self.n = block, block.size
        self.factors = factors_of(block)
        settings = block.size, block.prime, block.depth, bool(block.extended)
        if block.mode == SKIP:
            self.held, self.levels = None, block.levels()
            self.coefficients = residual.scale(self.levels, *settings, block.listed)
            self.residual, self.limited = residual.skipped(self.levels, *settings, block.listed)
        else:
            self.held = residual.EditedBlock.on_levels(block.levels(), *settings, block.mode == 1, block.listed)
            self.levels, self.coefficients, self.residual, self.limited = self.held.levels, self.held.coefficients, self.held.residual, self.held.limited
        self.came_levels, self.came = list(self.levels), list(self.residual)
        # index of each limited coefficient, with what was limited: 1 the level, 2 the result, 3 both
        self.limits = {}
        for index, level in enumerate(self.levels):
            if level:
                self._look(index)
        self.version = 0
        for row, column, level in block.edits:
            self.edit(row, column, level)

    def _look(self, index):
        """What scaling limits at an index, by the archive."""
        block = self.block
        told = library.call("residual_scale_level", self.levels[index], self.factors[index][0], self.n, block.prime, block.depth, bool(block.extended))
        flags = told.level_limited + 2 * told.result_limited
        if flags:
            self.limits[index] = flags
        else:
            self.limits.pop(index, None)

    def _changed(self, row, column):
        self._look(row * self.n + column)
        self.version += 1

    @property
    def columns(self):
        return self.held.columns if self.held else None

    @property
    def edits(self):
        return self.held.edits if self.held else []

    # ---- edits
    def editable(self):
        if self.held is None:
            raise Unwilling("a transform-skip block cannot be edited: the feed opens no block for edits in mode skip")

    def edit(self, row, column, level):
        """Puts one level through the archive."""
        self.editable()
        try:
            self.held.edit_level(row, column, level)
        except library.Refused as refused:
            raise Unwilling(str(refused), refused.number, row, column)
        except ValueError as mistake:
            raise Unwilling(f"a level is a signed 32-bit number: {mistake}", None, row, column)
        self._changed(row, column)

    def level_for(self, row, column, coefficient):
        """The level of least size that scales to a coefficient at a place."""
        self.editable()
        n, block = self.n, self.block
        if not (0 <= row < n and 0 <= column < n):
            raise Unwilling(f"refused 8: {library.refusal_text(8)}", 8, row, column)
        # the rest of the block is zeros, to which level 0 scales
        wanted = [0] * (n * n)
        wanted[row * n + column] = coefficient
        try:
            return residual.find_levels(wanted, n, block.prime, block.depth, bool(block.extended), block.listed)[row * n + column]
        except library.Refused as refused:
            raise Unwilling(str(refused), refused.number, row, column)
        except ValueError as mistake:
            raise Unwilling(f"a coefficient is a signed 32-bit number: {mistake}", None, row, column)

    def undo(self):
        if not self.held or not self.held.undo():
            raise Unwilling("there is no edit to take back")
        row, column, _, _ = self.held.undone[-1]
        self._changed(row, column)

    def redo(self):
        if not self.held or not self.held.redo():
            raise Unwilling("there is no edit to make again")
        row, column, _, _ = self.held.done[-1]
        self._changed(row, column)

    def residual_before(self):
        """The residual before the last edit: that edit taken back and made again, through the archive."""
        if not self.held or not self.held.undo():
            return None
        before = list(self.residual)
        self.held.redo()
        return before

    # ---- questions
    def search(self, target, wanted):
        """For each index the least and the most level with which that one edit gives the target at every wanted sample."""
        self.editable()
        block = self.block
        if not any(wanted):
            raise Unwilling("no sample is wanted: give at least one sample a target")
        try:
            return residual.find_level_edits(self.levels, target, wanted, self.n, block.prime, block.depth, bool(block.extended), block.mode == 1, block.listed)
        except library.Refused as refused:
            raise Unwilling(str(refused), refused.number)
        except ValueError as mistake:
            raise Unwilling(f"a target is a signed 32-bit number: {mistake}")

    def contributions(self, row, column):
        """What each coefficient gives to one sample of the residual, in the units of the exact product."""
        self.editable()
        asked = getattr(residual, "contributions", None)
        if asked is None:
            raise Unwilling("this archive has no contributions")
        if not (0 <= row < self.n and 0 <= column < self.n):
            raise Unwilling(f"refused 8: {library.refusal_text(8)}", 8, row, column)
        try:
            return list(asked(self.coefficients, self.n, row, column, self.block.mode == 1))
        except library.Refused as refused:
            raise Unwilling(str(refused), refused.number, row, column)

    def program_rows(self):
        """The residual and the columns that the feed program gives for the block with its edits, and by which records it was asked."""
        records = self.block.records()
        given = running.Input("the block", data=records + b"".join(edit_record(*edit) for edit in self.edits) + (b"\x09" if self.held else b""))
        pieces, how = [], "the edits"
        refusal = running.decode(given, pieces.append)
        if refusal and refusal[0] == 20:
            # a feed program without edits and readings: the edited levels as a block of their own
            pieces, how = [], "the levels"
            refusal = running.decode(running.Input("the block", data=records[:-len(self.block.body)] + feedtext.low_first(self.levels)), pieces.append)
        lines = showing.Lines(b"".join(pieces))
        rows = lines.rows(self.n)
        lines.counted("limited")
        columns = None
        if self.held and how == "the edits" and not refusal:
            rows, columns = lines.rows(self.n), lines.counted("columns")
        return [value for row in rows for value in row], columns, how
