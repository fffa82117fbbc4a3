#!/usr/bin/env python3
"""scaling_lists_writer_cases.py [CRATES]: write stdin and stdout of the program scaling_lists_writer_cases (in crates by default).

Written from the rules alone (docs/RULES.md), over the codes of scaling_lists_cases.py: it shares nothing with the crates. stdin holds the three default
lists, the first with a byte behind it, and then cases, each a byte that says which slice is lent too short or too long, two bytes of room (low byte first),
and 20 lists and 20 DC numbers, each with a byte behind them; stdout holds for each case the answer, and the output buffer or whether it is as lent.
"""
from case_files import write_files
from scaling_lists_cases import FOUR, INTER, INTRA, ORDER, coded, default, drawn, packed, ramp, reference


# ---- a set of lists: entries and DC of each of the 20
def defaults():
    return [(list(default(s, m)[0]), 16) for s, m in ORDER]


def used(s, entries, dc):
    """What of a list its size uses."""
    return entries[: 16 if s == 0 else 64], dc if s > 1 else 16


def written(lists):
    """The bits of a set of lists."""
    bits = ""
    for j, (s, m) in enumerate(ORDER):
        mine = used(s, *lists[j])
        back = [j - k for k in range(j) if ORDER[k][0] == s and used(s, *lists[k]) == mine]
        if mine == used(s, *default(s, m)):
            bits += reference(0)
        elif back:
            bits += reference(min(back))
        else:
            bits += coded(s, *lists[j])
    return bits


# ---- cases
def case(lists, room, answer, amiss=0):
    data = bytes([amiss]) + room.to_bytes(2, "little")
    data += bytes(n for entries, _ in lists for n in entries) + b"\0"
    return data + bytes(dc for _, dc in lists) + b"\0", answer


def accepted(lists, more=1, amiss=0):
    """A call with room for some bytes more than the bits take."""
    bits = written(lists)
    out = list(packed(bits))
    text = "".join(f" {n}" for n in [len(bits)] + out + [7] * more)
    return case(lists, len(out) + more, f" 0 0{text}\n", amiss)


def refused(number, lists, room, amiss=0):
    return case(lists, room, f" {number} 0 kept\n", amiss)


def with_list(j, entries, dc=16):
    lists = defaults()
    lists[j] = (entries, dc)
    return lists


def with_zero(j, i):
    entries = ramp(3)
    entries[i] = 0
    return with_list(j, entries)


def accepted_cases():
    yield accepted(defaults())
    yield accepted(defaults(), 0, 7)
    yield accepted([drawn(j) for j in range(20)], 2)
    # one list for each size: references to the list before
    yield accepted([drawn(40 + s) for s, _ in ORDER])
    # two lists in turn: the nearest of those that are the same
    yield accepted([drawn(60 + j % 2) for j in range(20)])
    # the intra default at inter matrices, and the other way round
    yield accepted([(list(default(s, 5 - m)[0]), 16) for s, m in ORDER])
    # entries and DC that a size does not use: any, 0 too, and not compared
    unused = defaults()
    for j in range(6):
        unused[j] = (FOUR[:16] + [j] * 48, j)
    unused[7], unused[8] = (ramp(5), 0), (ramp(5), 200)
    unused[4] = (ramp(2)[:16] + [0] * 48, 0)
    unused[5] = (ramp(2)[:16] + [9] * 48, 1)
    yield accepted(unused)
    # DC alone tells two lists, and a list and its default, apart
    dcs = defaults()
    dcs[12], dcs[13], dcs[14] = (list(INTRA), 17), (list(INTRA), 16), (list(INTRA), 15)
    dcs[15], dcs[16], dcs[17] = (list(INTER), 17), (list(INTER), 17), (list(INTRA), 17)
    dcs[18], dcs[19] = (list(INTER), 255), (list(INTER), 255)
    yield accepted(dcs)
    # deltas at both ends of their range, and DC at both ends of its own
    ends = defaults()
    ends[6], ends[7], ends[8], ends[9] = (ramp(127), 16), (ramp(128), 16), ([255] * 64, 16), ([1] * 64, 16)
    ends[12], ends[13], ends[18], ends[19] = (ramp(100), 1), (ramp(3), 255), ([8] * 64, 8), ([255] * 64, 255)
    yield accepted(ends)


def refused_cases():
    # slices of other lengths, before a 0 and before too little room
    for amiss in range(1, 7):
        yield refused(5, defaults(), 100, amiss)
        yield refused(5, with_zero(19, 63), 0, amiss)
    # an entry of 0: the first and the last that are used; and a DC of 0; before too little room
    for j, i in ((0, 0), (0, 15), (5, 15), (6, 0), (6, 63), (11, 63), (12, 0), (17, 63), (18, 0), (19, 63)):
        yield refused(16, with_zero(j, i), 3000)
        yield refused(16, with_zero(j, i), 0)
    for j in (12, 17, 18, 19):
        yield refused(16, with_list(j, ramp(3), 0), 3000)
    # too little room by one byte, and none
    for lists in (defaults(), [drawn(j) for j in range(20)]):
        yield refused(7, lists, len(packed(written(lists))) - 1)
        yield refused(7, lists, 0)


def main():
    data, text = bytes(FOUR + [99] + INTRA + INTER), ""
    for number, (call, answer) in enumerate([*accepted_cases(), *refused_cases()]):
        data += call
        text += f"case {number}:{answer}"
    write_files("scaling_lists_writer_cases", {"stdin": data, "stdout": text})


main()
