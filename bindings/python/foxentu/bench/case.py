"""A case on the bench: the blocks of a feed, with the edits and readings that stand behind each. What the feed gives is the feed program's to say."""
import hashlib

from .. import feedtext, library, running, showing

SKIP = 2


class Block:
    """A levels record, what is in force at it, and the edits and readings that follow it in the feed."""

    def __init__(self, number, at, size, parameters, listed, body):
        self.number, self.at, self.size, self.body = number, at, size, body
        self.depth, self.extended, self.prime, self.mode = parameters
        self.in_force = listed
        # edits as offset, row, column and level; readings as their offset alone
        self.items = []
        # the line of the feed's text at which the block's rows begin
        self.line = 0

    @property
    def listed(self):
        """The list that scaling uses: as in the feed, a transform-skip block above size 4 is scaled as without one."""
        return None if self.mode == SKIP and self.size > 4 else self.in_force

    @property
    def edits(self):
        """The edits of the feed, as row, column and level."""
        return [item[1:] for item in self.items if len(item) > 1]

    def levels(self):
        return feedtext.numbers(self.body)

    def told(self):
        """The block in words."""
        extended = ", extended precision" if self.extended else ""
        kind, listed = showing.KIND_NAMES[self.mode], "a list" if self.in_force else "no list"
        return f"{kind} {self.size} x {self.size}, depth {self.depth}{extended}, QP' {self.prime}, {listed}"

    def records(self):
        """The records that give this block alone, without its edits."""
        listed = bytes((2,)) + bytes(self.in_force[0]) + bytes((self.in_force[1],)) if self.in_force else b""
        return bytes((1, self.depth, self.extended, self.prime, self.mode)) + listed + bytes((feedtext.SIZES[self.size],)) + self.body


def edit_record(row, column, level):
    return bytes((8, row, column)) + level.to_bytes(4, "little", signed=True)


class Case:
    """The bytes of a file, its blocks up to the first refusal, and that refusal in words."""

    def __init__(self, data, name):
        self.file, self.name = data, name
        self.digest = hashlib.sha256(data).hexdigest()
        self.feed = feedtext.read(data, name) if feedtext.is_text(data) else None
        self.data = self.feed.bytes if self.feed else data
        self.given = running.Input(name, data=self.data, feed=self.feed)
        pieces = []
        refusal = running.decode(self.given, pieces.append)
        self.lines = b"".join(pieces).decode("ascii").splitlines()
        self.refusal = None
        if refusal:
            number, offset = refusal
            self.refusal = f"{self.given.where(offset)}: refused {number}: {library.refusal_text(number)}"
        self.stop = refusal[1] if refusal else len(self.data)
        self.blocks = []
        self._walk()

    def _walk(self):
        parameters, listed, line = None, None, 0
        for at, kind, body in feedtext.walk(self.data):
            if at >= self.stop or kind is None:
                break
            if kind == 1:
                parameters = tuple(body)
            elif kind == 2:
                listed = (bytes(body[:64]), body[64])
            elif kind == 3:
                listed = None
            elif kind == 8:
                self.blocks[-1].items.append((at, body[0], body[1], int.from_bytes(body[2:], "little", signed=True)))
            elif kind == 9:
                self.blocks[-1].items.append((at,))
                line += self.blocks[-1].size + 1
            else:
                block = Block(len(self.blocks), at, feedtext.KINDS[kind], parameters, listed, body)
                block.line = line
                line += block.size + 1
                self.blocks.append(block)

    def where(self, block):
        """The place of a block's record: line and column of a text, byte of a binary feed."""
        return self.given.where(block.at)

    def limited(self, block):
        """How many coefficients of a block the feed program says were limited."""
        return int(self.lines[block.line + block.size].split(" ")[1])

    def rows(self, block, line=None):
        """The residual that the feed program writes for a block as it came, or from a line on."""
        line = block.line if line is None else line
        return [int(word) for row in self.lines[line:line + block.size] for word in row.split(" ")]

    def reading(self, block):
        """The residual and the columns of the last reading of a block."""
        line = block.line + (block.size + 1) * sum(len(item) == 1 for item in block.items)
        return self.rows(block, line), int(self.lines[line + block.size].split(" ")[1])


def read(path):
    """The case of a file."""
    with open(path, "rb") as file:
        return Case(file.read(), path)
