#!/usr/bin/env python3
"""scaling_lists_cases.py [CRATES]: write args, data/ and stdout of the program scaling_lists_cases (in crates by default).

Written from the rules alone (docs/RULES.md): it shares nothing with the crates, and it writes streams and never reads one. A file of data/ holds the three
default lists, the first with a byte behind it, and then cases, each two bytes of length (low byte first), a byte that says which slice is lent too short or too long, and the
bytes of a stream; stdout holds for each file its name, and for each case the answer, and the lists or whether the buffers are as lent.
"""
from case_files import write_files

FOUR = [16] * 16 + [99] * 48
INTRA = [20 + i for i in range(64)]
INTER = [100 + i for i in range(64)]
ORDER = [(s, m) for s in range(4) for m in range(0, 6, 3 if s == 3 else 1)]


# ---- bits and codes
def ue(k):
    bits = format(k + 1, "b")
    return "0" * (len(bits) - 1) + bits


def se(v):
    return ue(2 * v - 1 if v > 0 else -2 * v)


def packed(bits):
    bits += "0" * (-len(bits) % 8)
    return bytes(int(bits[i : i + 8], 2) for i in range(0, len(bits), 8))


# ---- clause 6.5.3
def up_right(width):
    order, x, y = [], 0, 0
    while len(order) < width * width:
        while y >= 0:
            if x < width and y < width:
                order.append(y * width + x)
            y -= 1
            x += 1
        x, y = 0, x
    return order


# ---- one list: its bits, and what it settles on
def default(s, m):
    return (FOUR if s == 0 else INTRA if m < 3 else INTER), 16


def coded(s, entries, dc):
    """The bits of a list of entries in row order."""
    bits, before = "1", 8
    if s > 1:
        bits += se(dc - 8)
        before = dc
    for place in up_right(4 if s == 0 else 8):
        delta = (entries[place] - before + 128) % 256 - 128
        bits += se(delta)
        before = entries[place]
    return bits


def reference(delta):
    return "0" + ue(delta)


class Stream:
    """Lists one after the other; each call adds one."""

    def __init__(self):
        self.bits, self.lists = "", []

    def where(self):
        return ORDER[len(self.lists)]

    def take_default(self, count=1):
        for _ in range(count):
            lists = default(*self.where())
            self.bits += reference(0)
            self.lists.append(lists)
        return self

    def refer(self, delta):
        self.bits += reference(delta)
        self.lists.append(self.lists[len(self.lists) - delta])
        return self

    def code(self, entries, dc=16):
        s, _ = self.where()
        self.bits += coded(s, entries, dc)
        self.lists.append((entries if s else entries[:16] + [0] * 48, dc if s > 1 else 16))
        return self

    def rest(self):
        return self.take_default(20 - len(self.lists))


def accepted(stream, tail=""):
    assert len(stream.lists) == 20
    text = f" 0 0 {len(stream.bits)}\n"
    for entries, dc in stream.lists:
        text += "".join(f" {n}" for n in [dc] + entries) + "\n"
    return 0, packed(stream.bits + tail), text + " 7 7\n"


def refused(number, place, data, amiss=0):
    return amiss, data, f" {number} {place} kept\n"


def drawn(seed):
    """64 entries and a DC, none of them 0."""
    state, out = seed, []
    for _ in range(65):
        state = (state * 1103515245 + 12345) % 2**31
        out.append(1 + (state >> 16) % 255)
    return out[:64], out[64]


def ramp(step):
    return [1 + (i * step) % 255 for i in range(64)]


# ---- the cases
def accepted_cases():
    yield accepted(Stream().rest())
    full = Stream()
    for j in range(20):
        full.code(*drawn(j))
    yield accepted(full, "1111")
    nearest = Stream()
    for s in range(4):
        nearest.code(*drawn(40 + s))
        for _ in range(1 if s == 3 else 5):
            nearest.refer(1)
    yield accepted(nearest)
    first = Stream()
    for s in range(4):
        first.code(*drawn(50 + s)) if s % 2 else first.take_default()
        for m in range(1, 2 if s == 3 else 6):
            first.refer(m)
    yield accepted(first)
    ends = Stream().take_default(6)
    ends.code(ramp(127)).code(ramp(128)).code([255] * 64).code([1] * 64).take_default(2)
    ends.code(ramp(100), 1).code(ramp(3), 255).refer(1).take_default(1).refer(1).code([8] * 64, 8)
    yield accepted(ends.code([255] * 64, 255).refer(1))


def with_start(bits, code):
    """A stream that ends behind a code, and the code's offset."""
    return len(bits), packed(bits + code + "1" * 80)


def refused_cases():
    whole = Stream().rest()
    data = packed(whole.bits)
    # the bits end: before a flag, and in a code
    for k in range(5):
        yield refused(14, 8 * k, data[:k])
    yield refused(14, 1, packed("0" + "0000001"))
    yield refused(14, 1, packed("0" + "0" * 31))
    yield refused(14, 1, packed("0" + "0" * 32 + "1" + "0" * 30))
    yield refused(14, 1, packed("1" + "0" * 31))
    last = Stream().take_default(19)
    at = len(last.bits)
    bits = last.bits + coded(3, ramp(127), 200)
    yield refused(14, at + 1 + len(se(192)), packed(bits[: (at + 1 + len(se(192))) // 8 * 8 + 8]))
    # a list that is not there
    huge, longer = "0" * 32 + "1" * 33, "0" * 33
    for count, delta in ((0, 1), (1, 2), (5, 6), (6, 1), (11, 6), (17, 6), (18, 1), (19, 2), (19, 3)):
        place, data = with_start(Stream().take_default(count).bits + "0", ue(delta))
        yield refused(15, place, data)
    yield refused(15, 1, packed("0" + huge))
    border = Stream().take_default(3).bits + "0"
    yield refused(15, len(border), packed(border + longer))
    yield refused(15, len(border), packed(border + huge))
    yield refused(14, len(border), packed(border + huge)[:-1])
    # DC: 0 and 256, and codes that are longer than any
    for count in (12, 17, 18, 19):
        for code in (se(-8), se(248), huge, longer):
            place, data = with_start(Stream().take_default(count).bits + "1", code)
            yield refused(16, place, data)
    # a delta: -129 and 128, entries of 0, longer codes; the first one, and one after three that are right
    for code in (se(-129), se(128), se(-8), huge, longer):
        place, data = with_start("1", code)
        yield refused(16, place, data)
    for code in (se(-129), se(128), se(56), huge, longer):
        place, data = with_start("1" + se(100) + se(50) + se(42), code)
        yield refused(16, place, data)
    # the last entry of the last list
    entries = ramp(127)
    entries[63] = 0
    bits = last.bits + coded(3, entries, 16)
    yield refused(16, len(bits) - len(se((0 - entries[55] + 128) % 256 - 128)), packed(bits + "1"))
    # slices of other lengths, before any bit is read
    for amiss, number in ((1, 5), (2, 5), (3, 5), (4, 7), (5, 7), (6, 5)):
        yield refused(number, 0, b"", amiss)


def main():
    text, data_of = "", {}
    files = {"accepted": accepted_cases, "refused": refused_cases}
    for name, cases in files.items():
        data = bytes(FOUR + [99] + INTRA + INTER)
        text += name + "\n"
        for number, (amiss, stream, answer) in enumerate(cases()):
            data += len(stream).to_bytes(2, "little") + bytes([amiss]) + stream
            text += f"case {number}:{answer}"
        data_of[f"data/{name}"] = data
    write_files("scaling_lists_cases", {**data_of, "args": "".join(name + "\n" for name in files), "stdout": text})


if __name__ == "__main__":
    main()
