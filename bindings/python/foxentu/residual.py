"""The library's functions for Python: sequences of integers in, arrays out, and Refused where a call is refused.

Blocks are stored row by row and have n * n elements. A list is 64 entries; `scaling_list` is None or a pair of entries and DC.
"""
import array
import ctypes

from .library import answered, call, elements

LEVEL = ctypes.c_int32


def _zeros(letter, count):
    return array.array(letter, bytes(array.array(letter).itemsize * count))


def _block(n, letter="i"):
    """Room for a block; the call itself refuses a size that is none."""
    return _zeros(letter, n * n if 0 < n <= 32 else 0)


def _listed(scaling_list):
    entries, dc = scaling_list
    return entries, dc


# ---- quantities
def coefficient_range(depth, extended=False):
    """R: coefficients lie in -2^R .. 2^R - 1."""
    return call("residual_max_log2_transform_dynamic_range", depth, extended).value


def qp_prime(qp, depth):
    """QP' of a QP: QP + 6 * (depth - 8), limited to 0 .. 51 + 6 * (depth - 8)."""
    return call("residual_qp_prime", qp, depth).value


def rounding_bound(dst, n, depth, extended=False):
    """By how much 2^(7 + s2) times a residual may differ from the exact product of its coefficients."""
    return call("residual_rounding_bound", dst, n, depth, extended).value


# ---- scaling
def scaled(levels, n, qp_prime, depth, extended=False, scaling_list=None):
    """The coefficients of a block of levels, and how many were limited: their level or the result lay outside the coefficient range."""
    out = _block(n)
    if scaling_list is None:
        answered = call("residual_dequantize_into_scalar_i32", levels, n, qp_prime, depth, extended, out)
    else:
        answered = call("residual_dequantize_scaled_into_scalar_i32", levels, n, qp_prime, depth, extended, *_listed(scaling_list), out)
    return out, answered.limited


def scale(levels, n, qp_prime, depth, extended=False, scaling_list=None):
    """The coefficients of a block of levels."""
    return scaled(levels, n, qp_prime, depth, extended, scaling_list)[0]


def skipped(levels, n, qp_prime, depth, extended=False, scaling_list=None):
    """The residual of a transform-skip block, and how many of its coefficients were limited, before the skip shift."""
    out = _block(n)
    if scaling_list is None:
        answered = call("residual_dequantize_transform_skip_into_scalar_i32", levels, n, qp_prime, depth, extended, out)
    else:
        answered = call("residual_dequantize_transform_skip_scaled_into_scalar_i32", levels, n, qp_prime, depth, extended, *_listed(scaling_list), out)
    return out, answered.limited


def transform_skip(levels, n, qp_prime, depth, extended=False, scaling_list=None):
    """The residual of a transform-skip block."""
    return skipped(levels, n, qp_prime, depth, extended, scaling_list)[0]


def find_levels(coefficients, n, qp_prime, depth, extended=False, scaling_list=None):
    """For each coefficient the level of least size that scales to it; refused with 11 where one has none."""
    out = _block(n)
    if scaling_list is None:
        call("residual_find_levels", coefficients, n, qp_prime, depth, extended, out)
    else:
        call("residual_find_levels_scaled", coefficients, n, qp_prime, depth, extended, *_listed(scaling_list), out)
    return out


# ---- which edits give the wanted samples
def find_edits(coefficients, target, wanted, n, depth, extended=False, dst=False):
    """For each index the least and the most value with which that one coefficient gives the target at every wanted sample; 1 and 0 where there is none.

    Every value between the two does so, and no other of the coefficient range. `wanted` has a true value for each sample that must be met.
    """
    least, most = _block(n), _block(n)
    call("residual_find_edits", dst, n, depth, extended, coefficients, target, bytes(bool(w) for w in wanted), least, most)
    return least, most


def find_level_edits(levels, target, wanted, n, qp_prime, depth, extended=False, dst=False, scaling_list=None):
    """The same of a block of levels: the least and the most level at each index."""
    least, most = _block(n), _block(n)
    flags = bytes(bool(w) for w in wanted)
    if scaling_list is None:
        call("residual_find_level_edits", dst, n, qp_prime, depth, extended, levels, target, flags, least, most)
    else:
        call("residual_find_level_edits_scaled", dst, n, qp_prime, depth, extended, *_listed(scaling_list), levels, target, flags, least, most)
    return least, most


# ---- which coefficient makes a sample
def contributions(coefficients, n, row, column, dst=False):
    """T(k, row) * T(c, column) * coefficient (k, c) for every row k and column c: what each coefficient adds to the sample before any rounding.

    Their sum is the exact product, from which 2^(7 + s2) times the residual there differs by at most `rounding_bound`, where no stage-one value was limited.
    """
    out = _block(n, "q")
    call("residual_contributions", dst, n, row, column, coefficients, out)
    return out


# ---- transforms
def inverse_transform(coefficients, n, depth, extended=False, dst=False, columns=None):
    """The residual of a block of coefficients; columns from `columns` on are read as zero."""
    out, suffix = _block(n), "_extended" if extended else ""
    if dst:
        if n != 4:
            raise ValueError("the DST has size 4")
        call("residual_inv_transform_dst_into_scalar" + suffix, coefficients, depth, out)
    else:
        call("residual_inv_transform_into_scalar" + suffix, coefficients, n, depth, n if columns is None else columns, out)
    return out


# ---- scaling lists
# Tables 7-5 and 7-6 of H.265, in row order
DEFAULT_4X4 = bytes([16] * 64)
DEFAULT_INTRA = bytes(int(word) for word in """
    16 16 16 16 17 18 21 24  16 16 16 16 17 19 22 25  16 16 17 18 20 22 25 29  16 16 18 21 24 27 31 36
    17 17 20 24 30 35 41 47  18 19 22 27 35 44 54 65  21 22 25 31 41 54 70 88  24 25 29 36 47 65 88 115""".split())
DEFAULT_INTER = bytes(int(word) for word in """
    16 16 16 16 17 18 20 24  16 16 16 17 18 20 24 25  16 16 17 18 20 24 25 28  16 17 18 20 24 25 28 33
    17 18 20 24 25 28 33 41  18 20 24 25 28 33 41 54  20 24 25 28 33 41 54 71  24 25 28 33 41 54 71 91""".split())
DEFAULTS = (DEFAULT_4X4, DEFAULT_INTRA, DEFAULT_INTER)

# what the 20 lists are, in their order
LISTS = [(size, matrix) for size in (4, 8, 16, 32) for matrix in range(0, 6, 3 if size == 32 else 1)]


def read_scaling_lists(data, defaults=DEFAULTS):
    """The 20 lists of scaling list data, each as 64 entries with its DC, and how many bits were read."""
    lists, dcs = _zeros("B", 1280), _zeros("B", 20)
    bits = call("residual_read_scaling_lists", data, *defaults, lists, dcs).bits
    return [(bytes(lists[64 * i:64 * i + 64]), dcs[i]) for i in range(20)], bits


def write_scaling_lists(lists, defaults=DEFAULTS):
    """Scaling list data of 20 lists (64 entries and DC each), and how many of its bits are in use."""
    entries = b"".join(bytes(e) for e, _ in lists)
    out = _zeros("B", 2765)
    bits = call("residual_write_scaling_lists", entries, bytes(dc for _, dc in lists), *defaults, out).bits
    return bytes(out[:(bits + 7) // 8]), bits


# ---- pictures
def checksum(plane, width, height, depth, stride=None):
    """The checksum of a plane of 16-bit samples (H.265, Annex D)."""
    return call("picture_checksum", width, height, width if stride is None else stride, depth, plane).value


def rebuild_block(plane, width, height, stride, x, y, n, depth, residual, prediction):
    """Prediction plus residual put into a plane (an array of type 'H'), which is changed in place."""
    call("picture_rebuild_block", n, depth, residual, prediction, width, height, stride, x, y, plane)


# ---- feeds
def feed_text(data):
    """The text of a feed's bytes: the rows of its blocks and readings, then `blocks N` or the line of a refusal."""
    text = _zeros("B", answered("residual_feed_room", data))
    ran = answered("residual_feed_run", data, text)
    return bytes(text[:ran.end])


def listing_text(data):
    """Which m scaling uses at each index of a feed's blocks, and why: index, m, reason and position of each, then the line of a refusal, where the feed has one."""
    text = _zeros("B", answered("residual_listing_room", data))
    ran = answered("residual_listing_run", data, text)
    return bytes(text[:ran.end])


# ---- edited blocks
class EditedBlock:
    """A block that is opened once and then changed one value at a time; it owns its buffers and can undo.

    Opened on coefficients it takes edits of coefficients, by `on_levels` it is opened on levels and takes edits of those; the other way round an edit is refused
    with 10. After any edits intermediate and residual are what a fresh opening would give, and the coefficients are the scaling of the levels.
    """

    def __init__(self, coefficients, n, depth, extended=False, dst=False):
        self._room(n, depth, extended, dst)
        self.coefficients = elements(list(coefficients), LEVEL, "a coefficient")
        self._record = call("residual_open_block", dst, n, depth, extended, self.coefficients, self.intermediate, self.residual).block

    @classmethod
    def on_levels(cls, levels, n, qp_prime, depth, extended=False, dst=False, scaling_list=None):
        """A block opened on levels, scaled as `scale` does."""
        self = cls.__new__(cls)
        self._room(n, depth, extended, dst)
        self.levels, self.coefficients = elements(list(levels), LEVEL, "a level"), _block(n)
        buffers = self.levels, self.coefficients, self.intermediate, self.residual
        if scaling_list is None:
            opened = call("residual_open_levels", dst, n, depth, extended, qp_prime, *buffers)
        else:
            opened = call("residual_open_levels_scaled", dst, n, depth, extended, qp_prime, *_listed(scaling_list), *buffers)
        self._record, self.limited = opened.block, opened.limited
        return self

    def _room(self, n, depth, extended, dst):
        self.n, self.depth, self.extended, self.dst = n, depth, extended, dst
        self.levels, self.intermediate, self.residual = None, _block(n), _block(n)
        # how many coefficients an opening on levels limited
        self.limited = 0
        self._done, self._undone = [], []

    @property
    def columns(self):
        """One past the last column that has a coefficient other than zero."""
        return self._record.columns

    @property
    def values(self):
        """What edits change: the levels of a block opened on levels, else the coefficients."""
        return self.coefficients if self.levels is None else self.levels

    def edit(self, row, column, value):
        """Puts one coefficient of a block opened on coefficients. A refused edit changes nothing."""
        self._change(row, column, value, False)

    def edit_level(self, row, column, level):
        """Puts one level of a block opened on levels. Any is accepted; what comes back is whether the level was limited, and whether its result was."""
        return self._change(row, column, level, True)

    def _change(self, row, column, value, of_level):
        before = self.values[row * self.n + column] if 0 <= row < self.n and 0 <= column < self.n else 0
        limited = self._put(row, column, value, of_level)
        self._done.append((row, column, before, value))
        self._undone.clear()
        return limited

    def undo(self):
        """Takes the last edit back; False where there is none."""
        if not self._done:
            return False
        row, column, before, value = self._done.pop()
        self._put(row, column, before, self.levels is not None)
        self._undone.append((row, column, before, value))
        return True

    def redo(self):
        """Makes the edit again that was taken back last; False where there is none."""
        if not self._undone:
            return False
        row, column, before, value = self._undone.pop()
        self._put(row, column, value, self.levels is not None)
        self._done.append((row, column, before, value))
        return True

    @property
    def edits(self):
        """The edits made and not taken back, as row, column and value."""
        return [(row, column, value) for row, column, _, value in self._done]

    @property
    def done(self):
        """The edits made and not taken back, as row, column, value before and value."""
        return list(self._done)

    @property
    def undone(self):
        """The edits taken back that can be made again, the next one last, as row, column, value before and value."""
        return list(self._undone)

    def _put(self, row, column, value, of_level):
        buffers = self.coefficients, self.intermediate, self.residual
        if of_level:
            # a block opened on coefficients has no level buffer, and the call does not look at one
            levels = elements([], LEVEL) if self.levels is None else self.levels
            edited = call("residual_edit_level", self._record, levels, *buffers, row, column, value)
            self._record = edited.block
            return edited.level_limited, edited.result_limited
        self._record = call("residual_edit", self._record, *buffers, row, column, value).block
        return None

    def rows(self):
        """The residual as rows."""
        return [list(self.residual[self.n * k:self.n * k + self.n]) for k in range(self.n)]
