"""A feed as text (docs/FEED.md): read to the bytes of a feed, with file, line and column for a mistake, and written from them."""
import array
import bisect
import difflib
import re
import sys

SIZES = {4: 4, 8: 5, 16: 6, 32: 7}
KINDS = {kind: size for size, kind in SIZES.items()}
MODES = ("dct", "dst", "skip")
SETTINGS = ("depth", "extended", "qp", "qp_prime", "mode")
RECORDS = ("parameters", "list", "nolist", "levels", "edit", "show", "bytes")
KIND_BYTES = {size: bytes((kind,)) for size, kind in SIZES.items()}
BODIES = {1: 4, 2: 65, 3: 0, 4: 64, 5: 256, 6: 1024, 7: 4096, 8: 6, 9: 0}

# what begins a token that is no number: none of digit, sign and dot
WORD = re.compile(rb"[^\s0-9+\-.]\S*")
SPACES = b" \t\n\r\f\v"
TOKEN = re.compile(rb"\S+")
NUMBER = re.compile(rb"[+-]?[0-9]+")
BYTE = re.compile(rb"0[xX][0-9a-fA-F]+|[+-]?[0-9]+")
LOW, HIGH = -(1 << 31), (1 << 31) - 1
MARK = b"\xef\xbb\xbf"


def low_first(values):
    """Four bytes for each number, low byte first."""
    if sys.byteorder != "little":
        values = array.array("i", values)
        values.byteswap()
    return values.tobytes()


class TextError(Exception):
    """A mistake in a text: where it is and what it is, in one line."""

    def __init__(self, name, line, column, message):
        super().__init__(f"{name}:{line}:{column}: {message}")
        self.name, self.line, self.column, self.message = name, line, column, message


class Record:
    """One record: its word, where it begins in the text, and where in the feed; and what it says, of `bytes` where each stands in the text."""

    __slots__ = ("word", "start", "at", "values")

    def __init__(self, word, start, at, values):
        self.word, self.start, self.at, self.values = word, start, at, values


class Feed:
    """The bytes of a text, and from which records they came."""

    def __init__(self, source, data, records):
        self.source, self.bytes, self.records = source, data, records
        self._offsets = [record.at for record in records]

    def place(self, offset):
        """Line and column of the record that made the byte at an offset of the feed; behind the first of `bytes`, of the byte itself."""
        index = bisect.bisect_right(self._offsets, offset) - 1
        if index < 0:
            return self.source.place(0)
        record = self.records[index]
        inside = offset - record.at
        return self.source.place(record.values[inside] if record.word == "bytes" and 0 < inside < len(record.values) else record.start)

    def where(self, offset):
        line, column = self.place(offset)
        return f"{self.source.name}:{line}:{column}"


class Source:
    """The bytes of a text without byte-order mark, and a second copy in which comments are spaces."""

    def __init__(self, data, name):
        self.name = name
        if data[:3] == MARK:
            data = data[3:]
        elif data[:2] in (b"\xff\xfe", b"\xfe\xff"):
            raise TextError(name, 1, 1, "this text is UTF-16; the text form is UTF-8")
        self.data = data
        self.bare = re.sub(rb"#[^\n\r]*", lambda comment: b" " * len(comment[0]), data) if b"#" in data else data

    def place(self, at):
        """Line and column, from 1 on, of a byte; a column counts characters."""
        before = self.data[:at].replace(b"\r\n", b"\n ").replace(b"\r", b"\n")
        begin = before.rfind(b"\n") + 1
        # the character in place of a line end's second byte is no column of its own: it stands at the start of a line
        row = before[begin:].decode("utf-8", "replace")
        if begin and self.data[begin - 1:begin + 1] == b"\r\n":
            row = row[1:]
        return before.count(b"\n") + 1, len(row) + 1

    def error(self, at, message):
        return TextError(self.name, *self.place(at), message)


def shown(word):
    """A word of the text, safe to print on one line."""
    text = word.decode("utf-8", "backslashreplace")
    text = "".join(c if c.isprintable() else f"\\x{ord(c):02x}" for c in text)
    return f"'{text}'" if len(text) <= 40 else f"'{text[:40]}' .."


def alike(word, known):
    close = difflib.get_close_matches(word.decode("utf-8", "replace")[:40], known, 1)
    return f"; did you mean {close[0]}?" if close else f"; there are {', '.join(known)}"


class Reader:
    """Goes through the words of a text; the numbers between two words are taken at once."""

    def __init__(self, source, words):
        self.source, self.bare, self.known = source, source.bare, words
        bare = self.bare
        self.words = [(f.start(), f.group()) for f in WORD.finditer(bare) if f.start() == 0 or bare[f.start() - 1] in SPACES]
        self.index = 0
        self.takes = {name: getattr(self, "take_" + name) for name in words}

    def fail(self, at, message):
        raise self.source.error(at, message)

    def end(self):
        """Where the numbers after the current word end."""
        return self.words[self.index + 1][0] if self.index + 1 < len(self.words) else len(self.bare)

    def tokens(self, start, end):
        return [(found.start(), found.group()) for found in TOKEN.finditer(self.bare, start, end)]

    def number(self, at, token, low, high, what, form=NUMBER):
        if not form.fullmatch(token):
            self.fail(at, f"{shown(token)} is no number; {what} is wanted here")
        # int() need not see more digits than any number here has
        sign, digits, base = (token[:1] == b"-"), token.lstrip(b"+-").lstrip(b"0") or b"0", 10
        if digits[:1] in (b"x", b"X"):
            digits, base = digits[1:].lstrip(b"0") or b"0", 16
        value = (-1 if sign else 1) * (int(digits, base) if len(digits) <= 12 else 1 << 60)
        if not low <= value <= high:
            self.fail(at, f"{shown(token)} is out of range: {what} is {low} to {high}")
        return value

    def no_numbers(self, start, word):
        for at, token in self.tokens(start, self.end()):
            self.fail(at, f"{shown(token)} after {word}, which takes no number here")

    def no_stray(self):
        """Where numbers are missing and a word that nobody knows stands in their place, that word is the mistake."""
        if self.index + 1 < len(self.words):
            at, word = self.words[self.index + 1]
            if word.decode("ascii", "replace") not in self.known and b"=" not in word:
                self.unknown(at, word)

    def record(self):
        """The next record: its word, its bytes and its values."""
        at, word = self.words[self.index]
        name = word.decode("ascii", "replace")
        if name not in self.known:
            self.unknown(at, word)
        made = self.takes[name](at, at + len(word))
        self.index += 1
        return name, at, made

    def unknown(self, at, word):
        head, equals, _ = word.partition(b"=")
        if equals and head.decode("ascii", "replace") in SETTINGS + ("dc",):
            self.fail(at, f"{shown(head)} stands in no record: settings follow parameters, and dc follows list")
        if word == b"coefficients":
            self.fail(at, "coefficients are no record of a feed; `foxentu levels` finds the levels that give them")
        if word == b"levels":
            self.fail(at, "levels are wanted from this text, which gives coefficients in their place")
        self.fail(at, f"no record is called {shown(word)}" + alike(word, self.known))

    # ---- parameters
    def settings(self, at, known):
        """The words with an equals sign after the current one, as name, place and value."""
        found = {}
        while self.index + 1 < len(self.words):
            start, word = self.words[self.index + 1]
            head, equals, value = word.partition(b"=")
            name = head.decode("ascii", "replace")
            if not equals and name not in known:
                return found
            if not equals:
                self.fail(start, f"{name} is written {name}=.. with no space")
            if name not in known:
                self.fail(start, f"no setting is called {shown(head)}" + alike(head, known))
            if name in found:
                self.fail(start, f"{name} is given twice")
            if not value:
                self.fail(start, f"{name}= has no value after it, with no space between")
            found[name] = (start + len(head) + 1, value)
            self.index += 1
            self.no_numbers(start + len(word), name)
        return found

    def take_parameters(self, at, end):
        for start, token in self.tokens(end, self.end()):
            self.fail(start, f"{shown(token)} is no setting: parameters are written depth=.. extended=.. qp_prime=.. (or qp=..) mode=..")
        found = self.settings(at, SETTINGS)
        for name in ("depth", "extended", "mode"):
            if name not in found:
                self.fail(at, f"parameters without {name}=")
        if ("qp" in found) == ("qp_prime" in found):
            self.fail(at, "parameters with both qp= and qp_prime=" if "qp" in found else "parameters without qp_prime= or qp=")
        depth = self.number(*found["depth"], 8, 16, "depth")
        extended = self.number(*found["extended"], 0, 1, "extended")
        offset = 6 * (depth - 8)
        if "qp" in found:
            prime = self.number(*found["qp"], -offset, 51, f"qp at depth {depth}") + offset
        else:
            prime = self.number(*found["qp_prime"], 0, 51 + offset, f"qp_prime at depth {depth}")
        start, mode = found["mode"]
        if mode.decode("ascii", "replace") not in MODES:
            self.fail(start, f"no mode is called {shown(mode)}" + alike(mode, MODES))
        mode = MODES.index(mode.decode())
        return bytes((1, depth, extended, prime, mode)), (depth, extended, prime, mode)

    # ---- lists
    def take_list(self, at, end):
        tokens = self.tokens(end, self.end())
        entries = [self.number(start, token, 0, 255, "an entry of a list") for start, token in tokens[:64]]
        if len(tokens) != 64:
            self.no_stray()
            self.fail(tokens[64][0] if len(tokens) > 64 else at, f"a list has 64 entries and then dc=, and this one has {len(tokens)}")
        found = self.settings(at, ("dc",))
        if "dc" not in found:
            self.fail(at, "a list without dc= after its entries")
        entries.append(self.number(*found["dc"], 0, 255, "dc"))
        return bytes([2] + entries), entries

    def take_nolist(self, at, end):
        self.no_numbers(end, "nolist")
        return b"\x03", None

    # ---- levels
    def take_levels(self, at, end):
        size, values = self.block(at, end, "levels")
        return KIND_BYTES[size] + low_first(values), (size, values)

    def take_coefficients(self, at, end):
        return b"", self.block(at, end, "coefficients")

    def block(self, at, end, word):
        """A size and its square of numbers. The quick way takes them all at once; where it finds anything odd, the slow way says what."""
        text = self.bare[end:self.end()]
        parts = text.split()
        if parts and parts[0] in (b"4", b"8", b"16", b"32") and not text.translate(None, b"0123456789+- \t\n\r\f\v."):
            size, rest = int(parts[0]), parts[1:]
            open_end = bool(rest) and rest[-1] == b".."
            if open_end:
                rest.pop()
            missing = size * size - len(rest)
            if missing == 0 and not open_end or missing > 0 and open_end:
                try:
                    values = array.array("i", map(int, rest))
                except (ValueError, OverflowError):
                    values = None
                if values is not None:
                    values.frombytes(bytes(4 * missing))
                    return size, values
        return self.slow_block(at, end, word)

    def slow_block(self, at, end, word):
        tokens = self.tokens(end, self.end())
        if not tokens:
            self.no_stray()
            self.fail(at, f"{word} without a size: 4, 8, 16 or 32")
        start, token = tokens[0]
        if token not in (b"4", b"8", b"16", b"32"):
            self.fail(start, f"{shown(token)} is no size: a block has 4, 8, 16 or 32 rows")
        size, values, open_end = int(token), array.array("i"), False
        for index, (start, token) in enumerate(tokens[1:]):
            if token == b"..":
                if index + 2 < len(tokens):
                    self.fail(tokens[index + 2][0], f"{shown(tokens[index + 2][1])} after '..', which says that all the rest are zeros")
                if index >= size * size:
                    self.fail(start, f"'..' stands for zeros, and all {size * size} {word} are there already")
                open_end = True
                continue
            if index >= size * size:
                self.fail(start, f"{shown(token)} is one too many: a block of size {size} has {size * size} {word}")
            values.append(self.number(start, token, LOW, HIGH, "a " + word[:-1]))
        if len(values) < size * size and not open_end:
            self.no_stray()
            self.fail(at, f"{len(values)} of {size * size} {word}; '..' at the end says that the others are zeros")
        values.frombytes(bytes(4 * (size * size - len(values))))
        return size, values

    # ---- edits and readings
    def take_edit(self, at, end):
        tokens = self.tokens(end, self.end())
        if len(tokens) != 3:
            self.no_stray()
            self.fail(tokens[3][0] if len(tokens) > 3 else at, f"edit has a row, a column and a level, and this one has {len(tokens)} numbers")
        row = self.number(*tokens[0], 0, 255, "an edit's row")
        column = self.number(*tokens[1], 0, 255, "an edit's column")
        level = self.number(*tokens[2], LOW, HIGH, "an edit's level")
        return bytes((8, row, column)) + level.to_bytes(4, "little", signed=True), (row, column, level)

    def take_show(self, at, end):
        self.no_numbers(end, "show")
        return b"\x09", None

    def take_bytes(self, at, end):
        tokens = self.tokens(end, self.end())
        if not tokens:
            self.no_stray()
            self.fail(at, "bytes without a byte")
        values = bytes(self.number(start, token, 0, 255, "a byte", BYTE) for start, token in tokens)
        return values, [start for start, _ in tokens]


def read(data, name, words=RECORDS):
    """The feed of a text. Raises TextError at the first mistake."""
    source = Source(data, name)
    reader = Reader(source, words)
    first = reader.words[0][0] if reader.words else len(source.bare)
    for at, token in reader.tokens(0, first):
        reader.fail(at, f"{shown(token)} before the first record")
    parts, records, offset = [], [], 0
    while reader.index < len(reader.words):
        word, at, (made, values) = reader.record()
        records.append(Record(word, at, offset, values))
        parts.append(made)
        offset += len(made)
    return Feed(source, b"".join(parts), records)


def is_text(data):
    """Whether the first bytes of a feed are a text: its first byte that is no space is neither a record's kind nor another control byte."""
    rest = (data[3:] if data[:3] == MARK else data).lstrip()
    return not rest or rest[0] >= 0x20 and rest[0] != 0x7f


# ---- bytes to records and to text
def walk(data):
    """The records of a feed's bytes: offset, kind and body, with None for a kind where it is not known or the body is cut."""
    at = 0
    while at < len(data):
        kind = data[at]
        length = BODIES.get(kind)
        if length is None or at + 1 + length > len(data):
            yield at, None, data[at:]
            return
        yield at, kind, data[at + 1:at + 1 + length]
        at += 1 + length


def numbers(body):
    values = array.array("i")
    values.frombytes(body)
    if sys.byteorder != "little":
        values.byteswap()
    return values


def block_text(word, size, values):
    """A block as a record of the text form; rows of zeros at the end are two dots."""
    last = max((i // size for i, v in enumerate(values) if v), default=-1)
    wide = max((len(str(v)) for v in values), default=1)
    rows = [" ".join(f"{v:>{wide}}" for v in values[size * k:size * k + size]) for k in range(last + 1)]
    return "\n".join([f"{word} {size}"] + ["    " + row for row in rows] + (["    .."] if last + 1 < size else []))


def raw_text(data, why):
    rows = [data[i:i + 16] for i in range(0, len(data), 16)]
    return f"# {why}\n" + "\n".join("bytes " + " ".join(f"0x{b:02x}" for b in row) for row in rows)


def record_text(kind, body):
    if kind == 1:
        depth, extended, prime, mode = body
        if 8 <= depth <= 16 and extended <= 1 and mode <= 2 and prime <= 51 + 6 * (depth - 8):
            return f"parameters depth={depth} extended={extended} qp_prime={prime} mode={MODES[mode]}"
        return raw_text(bytes((1,)) + body, f"parameters that the text form does not allow: depth {depth}, extended {extended}, QP' {prime}, mode {mode}")
    if kind == 2:
        rows = ["    " + " ".join(f"{e:3}" for e in body[8 * k:8 * k + 8]) for k in range(8)]
        return "\n".join(["list"] + rows + [f"    dc={body[64]}"])
    if kind == 3:
        return "nolist"
    if kind == 8:
        return f"edit {body[0]} {body[1]} {int.from_bytes(body[2:], 'little', signed=True)}"
    if kind == 9:
        return "show"
    return block_text("levels", KINDS[kind], numbers(body))


def write(data):
    """The text of a feed's bytes, record by record; `read` gives the same bytes back."""
    for at, kind, body in walk(data):
        if kind is None:
            why = "a kind that is not known" if body[0] not in BODIES else f"a record of kind {body[0]} that is cut short"
            yield raw_text(body, f"from byte {at} on: {why}")
        else:
            yield record_text(kind, body)
