"""The text of a feed, and its listing, for the scripts here that write what the programs must print or compare what they do.

Written from the rules alone (docs/RULES.md): it shares nothing with the crates.
"""
from rules import matrix, scaled_parts, skipped, stage_one, stage_two

SIZES = {4: 4, 5: 8, 6: 16, 7: 32}
BODIES = {1: 4, 2: 65, 3: 0, **{kind: 4 * n * n for kind, n in SIZES.items()}, 8: 6, 9: 0}


# ---- clause 8.6
def source(listed, mode, n, i):
    """m, the reason and the position in the list."""
    if listed is None:
        return 16, "none", "-"
    if mode == 2 and n > 4:
        return 16, "skip", "-"
    entries, dc = listed
    if n <= 8:
        return entries[i], {4: "four", 8: "eight"}[n], i
    if i == 0:
        return dc, "dc", "-"
    shift = n.bit_length() - 1 - 3
    at = (i // n >> shift) * 8 + (i % n >> shift)
    return entries[at], "repeat", at


class Block:
    """A block of levels under the parameters and the list of its record."""

    def __init__(self, levels, n, parameters, listed):
        self.levels, self.n, self.parameters, self.listed = levels, n, parameters, listed

    def scaled(self):
        """The coefficients, and how many were limited."""
        depth, extended, qp, mode = self.parameters
        parts = [scaled_parts(v, source(self.listed, mode, self.n, i)[0], self.n, qp, depth, extended) for i, v in enumerate(self.levels)]
        return [part[0] for part in parts], sum(any(part[1:]) for part in parts)

    def rows(self, coeff):
        """The residual of the coefficients, a line for each row."""
        depth, extended, _, mode = self.parameters
        n = self.n
        if mode == 2:
            block = [skipped(z, n, depth, extended) for z in coeff]
        else:
            t = matrix(n, mode == 1)
            block = stage_two(stage_one(coeff, n, depth, extended, t, n), n, depth, extended, t)
        return "".join(" ".join(map(str, block[row * n:row * n + n])) + "\n" for row in range(n))

    def opened(self):
        coeff, limited = self.scaled()
        return self.rows(coeff) + f"limited {limited}\n"

    def read(self):
        coeff, _ = self.scaled()
        columns = max((i % self.n + 1 for i, z in enumerate(coeff) if z), default=0)
        return self.rows(coeff) + f"columns {columns}\n"

    def factors(self):
        return "".join("{} {} {} {}\n".format(i, *source(self.listed, self.parameters[3], self.n, i)) for i in range(self.n * self.n))


# ---- the feed
class Feed:
    """What the records so far have left: parameters, list, how many blocks, and the block that edits change, where one is held."""

    def __init__(self):
        self.parameters = self.listed = self.held = None
        self.blocks = 0

    def refusal(self, kind, body):
        """The number with which a record is refused, or 0."""
        if kind not in BODIES:
            return 20
        if len(body) < BODIES[kind]:
            return 21
        if kind == 1:
            depth, flag, _, mode = body
            return 2 if not 8 <= depth <= 16 else 23 if flag > 1 or mode > 2 else 0
        if kind in SIZES:
            return 22 if self.parameters is None else 4 if self.parameters[3] == 1 and kind != 4 else 0
        if kind in (8, 9) and self.held is None:
            return 24
        return 8 if kind == 8 and max(body[0], body[1]) >= self.held.n else 0

    def take(self, kind, body):
        """An accepted record; the block that it brings, or the one that it reads, or None."""
        if kind == 8:
            self.held.levels[body[0] * self.held.n + body[1]] = int.from_bytes(body[2:], "little", signed=True)
            return None
        if kind == 9:
            return self.held
        self.held = None
        if kind == 1:
            self.parameters = body[0], bool(body[1]), body[2], body[3]
        elif kind == 2:
            self.listed = list(body[:64]), body[64]
        elif kind == 3:
            self.listed = None
        else:
            return self.opened(SIZES[kind], body)
        return None

    def opened(self, n, body):
        levels = [int.from_bytes(body[4 * i:4 * i + 4], "little", signed=True) for i in range(n * n)]
        block = Block(levels, n, self.parameters, self.listed)
        self.blocks += 1
        if self.parameters[3] != 2:
            self.held = block
        return block


def text(feed, opened, read, last):
    """The text of a feed: that of each levels record and each reading, then that of the number of blocks, or the line of a refusal."""
    out, at, state = [], 0, Feed()
    while at < len(feed):
        kind = feed[at]
        body = feed[at + 1:at + 1 + BODIES.get(kind, 0)]
        number = state.refusal(kind, body)
        if number:
            return "".join(out) + f"refused {number} {at}\n"
        block = state.take(kind, body)
        if block:
            out.append((read if kind == 9 else opened)(block))
        at += 1 + len(body)
    return "".join(out) + last(state.blocks)


def residuals(feed):
    return text(feed, Block.opened, Block.read, lambda blocks: f"blocks {blocks}\n")


def listing(feed):
    return text(feed, Block.factors, lambda block: "", lambda blocks: "")
