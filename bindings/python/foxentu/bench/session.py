"""What a page asks of the bench and what it is answered, as records of JSON. One call at a time; every change is on the disk before it is answered."""
import hashlib
import os
import threading

from .. import library, residual, running
from . import case as cases
from . import picture, saving
from .journal import Journal
from .opened import Opened, Unwilling

LISTED_EDITS = 200
LISTED_BLOCKS = 500
LARGEST = 12
REACHING = 100


def whole(value, what, low=None, high=None):
    """A whole number of a request."""
    if not isinstance(value, int) or isinstance(value, bool):
        raise Unwilling(f"{what} is no whole number")
    if low is not None and not low <= value <= high:
        raise Unwilling(f"{what} is {value}, and not {low} to {high}")
    return value


def numbers(value, count, what):
    if not isinstance(value, list) or len(value) != count:
        raise Unwilling(f"{what}: {count} numbers are wanted")
    return [whole(one, what) for one in value]


class Session:
    def __init__(self, path, save=None, targets=()):
        self.path, self.save_path = path, save or path
        self.case = cases.read(path)
        self.targets = [cases.read(target) for target in targets]
        self.journal = Journal(path + ".edits", self.case.digest)
        self.opened, self.lock = {}, threading.RLock()
        # changes since the last save, and changes made again at the start
        self.unsaved, self.replayed = 0, 0

    # ---- the kept edits
    def replay(self):
        """Makes the edits again that a bench before this one kept."""
        for record in self.journal.lines():
            if "block" in record:
                self._again(record)
                self.unsaved += 1
                self.replayed += 1
            elif "saved" in record:
                self.unsaved = 0

    def _again(self, record):
        try:
            opened = self._open(record["block"])
            if "edit" in record:
                opened.edit(*record["edit"])
            elif "undo" in record:
                opened.undo()
            elif opened.held.undone and list(opened.held.undone[-1][:2]) + [opened.held.undone[-1][3]] == record["redo"]:
                opened.redo()
            else:
                opened.edit(*record["redo"])
        except (KeyError, TypeError, AttributeError, Unwilling) as why:
            raise Unwilling(f"{self.journal.path}: this edit cannot be made again: {record}: {why}")

    def end(self):
        """At the end of the bench: a file of edits that are all saved is dropped. Gives how many changes are kept in it."""
        if not self.unsaved:
            self.journal.drop()
        return self.unsaved

    # ---- what is there
    def about(self, _):
        return {
            "case": os.path.basename(self.path),
            "form": "text" if self.case.feed else "bytes",
            "blocks": len(self.case.blocks),
            "edited": self._edited(),
            "refusal": self._short(self.case.refusal),
            "save": os.path.basename(self.save_path),
            "targets": [{"name": os.path.basename(target.name), "sizes": [block.size for block in target.blocks]} for target in self.targets],
            "unsaved": self.unsaved,
            "replayed": self.replayed,
            "version": library.version(),
        }

    def _edited(self):
        """How many edits each block has that has any: made here, or in the case."""
        counts = {block.number: len(block.edits) for block in self.case.blocks if block.items}
        counts.update({number: len(opened.edits) for number, opened in self.opened.items()})
        return {str(number): count for number, count in counts.items() if count}

    def blocks(self, asked):
        first = whole(asked.get("from", 0), "from", 0, max(0, len(self.case.blocks)))
        count = whole(asked.get("count", 100), "count", 1, LISTED_BLOCKS)
        edited = self._edited()
        found = []
        for block in self.case.blocks[first:first + count]:
            found.append({
                "block": block.number, "told": block.told(), "size": block.size, "where": self._where(block),
                "limited": self.case.limited(block), "edits": edited.get(str(block.number), 0),
            })
        return {"from": first, "of": len(self.case.blocks), "blocks": found}

    def _where(self, block):
        """The place of a block's record, without the folder of the case."""
        return self._short(self.case.where(block))

    def _short(self, words):
        folder = self.path[:len(self.path) - len(os.path.basename(self.path))]
        return words[len(folder):] if words and words.startswith(folder) else words

    def _open(self, number):
        whole(number, "block")
        if not 0 <= number < len(self.case.blocks):
            raise Unwilling(f"there is no block {number + 1}: the case has {len(self.case.blocks)}")
        if number not in self.opened:
            self.opened[number] = Opened(self.case.blocks[number])
        return self.opened[number]

    def _asked(self, asked):
        return self._open(asked.get("block"))

    # ---- one block
    def block(self, asked):
        """All of a block: what stays as long as it is open, and its state."""
        opened = self._asked(asked)
        block = opened.block
        same = opened.came == self.case.rows(block) and opened.limited == self.case.limited(block)
        reach = residual.coefficient_range(block.depth, bool(block.extended))
        return {
            "told": block.told(),
            "where": self._where(block),
            "size": block.size,
            "mode": block.mode,
            "editable": opened.held is not None,
            "range": [-(1 << reach), (1 << reach) - 1],
            # one step of a sample in the units of contributions
            "step": 1 << (7 + reach + 5 - block.depth),
            "list": [list(block.in_force[0]), block.in_force[1]] if block.in_force else None,
            "factors": [m for m, _ in opened.factors],
            "reasons": [reason for _, reason in opened.factors],
            "came_levels": opened.came_levels,
            "came": opened.came,
            "came_limited": opened.limited,
            "program": None if same else "the feed program gives another residual or count for this block as it came",
            "case_edits": len(block.edits),
            **self.state(opened),
        }

    def state(self, opened):
        held = opened.held
        done = held.done if held else []
        return {
            "block": opened.block.number,
            "version": opened.version,
            "levels": list(opened.levels),
            "coefficients": list(opened.coefficients),
            "intermediate": list(held.intermediate) if held else None,
            "residual": list(opened.residual),
            "last": opened.residual_before(),
            "columns": opened.columns,
            "limits": [[index, flags] for index, flags in sorted(opened.limits.items())],
            "edits": done[-LISTED_EDITS:],
            "edit_count": len(done),
            "undone": (held.undone if held else [])[-LISTED_EDITS:],
            "undone_count": len(held.undone) if held else 0,
            "unsaved": self.unsaved,
        }

    # ---- changes
    def _keep(self, opened, record, back):
        """Puts a change that was made on the disk; where that fails it is taken back."""
        try:
            self.journal.add({"block": opened.block.number, **record})
        except Unwilling:
            back()
            raise
        self.unsaved += 1
        return self.state(opened)

    def edit(self, asked):
        opened = self._asked(asked)
        row, column = whole(asked.get("row"), "the row"), whole(asked.get("column"), "the column")
        return self._edit(opened, row, column, whole(asked.get("level"), "the level"))

    def edit_coefficient(self, asked):
        """An edit of a level, named by the coefficient that it is to give."""
        opened = self._asked(asked)
        row, column = whole(asked.get("row"), "the row"), whole(asked.get("column"), "the column")
        return self._edit(opened, row, column, opened.level_for(row, column, whole(asked.get("coefficient"), "the coefficient")))

    def _edit(self, opened, row, column, level):
        opened.edit(row, column, level)
        return self._keep(opened, {"edit": [row, column, level]}, opened.undo)

    def undo(self, asked):
        opened = self._asked(asked)
        opened.undo()
        row, column, _, level = opened.held.undone[-1]
        return self._keep(opened, {"undo": [row, column, level]}, opened.redo)

    def redo(self, asked):
        opened = self._asked(asked)
        opened.redo()
        row, column, _, level = opened.held.done[-1]
        return self._keep(opened, {"redo": [row, column, level]}, opened.undo)

    # ---- questions
    def contributions(self, asked):
        opened = self._asked(asked)
        row, column = whole(asked.get("row"), "the row"), whole(asked.get("column"), "the column")
        values = opened.contributions(row, column)
        order = sorted((index for index, value in enumerate(values) if value), key=lambda index: -abs(values[index]))
        return {"row": row, "column": column, "values": values, "largest": order[:LARGEST], "others": max(0, len(order) - LARGEST), "version": opened.version}

    def search(self, asked):
        opened = self._asked(asked)
        count = opened.n * opened.n
        target = numbers(asked.get("target"), count, "the target")
        wanted = numbers(asked.get("wanted"), count, "what is wanted")
        least, most = opened.search(target, wanted)
        found = []
        for index in range(count):
            if least[index] <= most[index]:
                now = opened.levels[index]
                # of the levels that reach the target the one nearest to what is there
                level = min(max(now, least[index]), most[index])
                found.append({"row": index // opened.n, "column": index % opened.n, "now": now, "least": least[index], "most": most[index], "level": level})
        found.sort(key=lambda one: abs(one["level"] - one["now"]))
        met = all(opened.residual[index] == target[index] for index in range(count) if wanted[index])
        return {"met": met, "count": len(found), "found": found[:REACHING], "version": opened.version}

    def target(self, asked):
        """The residual of a block of another case, with that case's edits."""
        which = whole(asked.get("target"), "target")
        if not 0 <= which < len(self.targets):
            raise Unwilling("no such case was named by --target")
        blocks, number = self.targets[which].blocks, whole(asked.get("of"), "the target's block")
        if not 0 <= number < len(blocks):
            raise Unwilling(f"there is no block {number + 1} in {os.path.basename(self.targets[which].name)}: it has {len(blocks)}")
        opened = Opened(blocks[number])
        return {"size": opened.n, "residual": list(opened.residual), "told": opened.block.told()}

    def compare(self, asked):
        """The block's residual against the feed program's, run on the block's records now."""
        opened = self._asked(asked)
        rows, columns, how = opened.program_rows()
        wrong = [index for index, (here, there) in enumerate(zip(opened.residual, rows)) if here != there]
        same = not wrong and columns in (None, opened.columns)
        count = opened.n * opened.n
        if same:
            words = f"the feed program, given {how}, writes the same {count} samples" + (f" and columns {columns}" if columns is not None else "")
        else:
            words = f"the feed program, given {how}, differs at {len(wrong)} of {count} samples"
            words += f"; columns {columns}, here {opened.columns}" if columns not in (None, opened.columns) else ""
        return {"same": same, "words": words, "wrong": wrong}

    def picture(self, asked):
        opened = self._asked(asked)
        after = list(opened.residual)
        tiles = {"before": opened.came, "after": after, "difference": [a - b for a, b in zip(after, opened.came)]}
        what = asked.get("what", "all")
        if what != "all" and what not in tiles:
            raise Unwilling("the picture is of before, after, difference or all")
        shown = list(tiles) if what == "all" else [what]
        about = f"{os.path.basename(self.path)}, block {opened.block.number + 1}: {opened.block.told()}: {', '.join(shown)}"
        return picture.png([tiles[name] for name in shown], opened.n, about)

    # ---- saving
    def save(self, asked):
        overwrite = asked.get("overwrite", False)
        if not isinstance(overwrite, bool):
            raise Unwilling("overwrite is true or false")
        name = os.path.basename(self.save_path)
        there = os.path.lexists(self.save_path)
        if there and not overwrite:
            return {"saved": False, "asks": f"{name} is there already. Overwrite it?" + self._changed_since()}
        data = saving.saved(self.case, {number: opened.edits for number, opened in self.opened.items()})
        made = cases.Case(data, self.save_path)
        words = self._compare_saved(made)
        digest = hashlib.sha256(data).hexdigest()
        onto_itself = os.path.realpath(self.save_path) == os.path.realpath(self.path)
        if onto_itself and self.journal.file is not None:
            self.journal.add({"saving": digest})
        try:
            saving.write(self.save_path, data)
        except OSError as error:
            raise Unwilling(f"{name} was not saved: {error.filename or self.save_path}: {error.strerror}")
        if onto_itself:
            self._now(made)
        elif self.journal.file is not None:
            self.journal.add({"saved": name})
        self.unsaved = 0
        return {"saved": True, "name": name, "words": f"Saved as {name}. {words}", "unsaved": 0}

    def _changed_since(self):
        """A sentence where the case on the disk is no longer what the bench read."""
        if os.path.realpath(self.save_path) != os.path.realpath(self.path):
            return ""
        with open(self.path, "rb") as file:
            return "" if file.read() == self.case.file else " Another program changed it since the bench read it; that change would be lost."

    def _now(self, made):
        """The saved case is the case from here on: its blocks are those opened, and what is kept beside it is dropped."""
        made.name = self.path
        self.journal.drop()
        self.case = made
        self.journal.digest = made.digest
        for number, opened in self.opened.items():
            opened.block = made.blocks[number]

    def _compare_saved(self, made):
        """What the feed program says of the saved case, before it is written: each block that has a reading at its end, against the block here."""
        stops = f"nothing was saved: the feed program stops in it: {made.refusal}"
        if len(made.blocks) != len(self.case.blocks) or bool(made.refusal) != bool(self.case.refusal):
            raise Unwilling(stops)
        readings, wrong = 0, []
        for number, opened in self.opened.items():
            block = made.blocks[number]
            if block.edits != opened.edits:
                raise Unwilling(stops)
            if not block.items or len(block.items[-1]) > 1:
                continue
            readings += 1
            if made.reading(block) != (list(opened.residual), opened.columns):
                wrong.append(number + 1)
        if wrong:
            raise Unwilling(f"nothing was saved: the feed program writes something else for block {', '.join(map(str, wrong))}")
        return f"The feed program writes the same for {readings} edited block{'' if readings == 1 else 's'}."


def call(session, name, asked):
    """One request of the page."""
    with session.lock:
        try:
            return getattr(session, name)(asked)
        except running.Unfinished as unfinished:
            raise Unwilling(str(unfinished))
