#!/usr/bin/env python3
"""The Python package: edits against fresh transforms, refusals with their places, and what is no call at all."""
import random
import subprocess
import sys
import threading

import feed_cases
import feed_rules

sys.path.insert(0, "bindings/python")
import foxentu  # noqa: E402
from foxentu import build  # noqa: E402

count = 0


def expect(holds, what):
    global count
    count += 1
    if not holds:
        sys.exit(f"package: {what}")


def refused(number, call, *arguments, **settings):
    try:
        call(*arguments, **settings)
    except foxentu.Refused as why:
        expect(why.number == number and why.text == foxentu.refusal_text(number) and str(number) in str(why), f"refused {why.number}, not {number}")
        return why
    sys.exit(f"package: not refused with {number}: {call.__name__} {arguments}")


def mistaken(kind, call, *arguments):
    try:
        call(*arguments)
    except kind as why:
        expect("\n" not in str(why), str(why))
        return
    sys.exit(f"package: no {kind.__name__}: {call.__name__} {arguments}")


def edits(seed):
    chance = random.Random(seed)
    for dst, n in ((True, 4), (False, 4), (False, 8), (False, 16), (False, 32)):
        for depth, extended in ((8, False), (12, True)):
            block = foxentu.EditedBlock([0] * (n * n), n, depth, extended, dst)
            for _ in range(60):
                way = chance.randrange(8)
                if way == 0:
                    block.undo()
                elif way == 1:
                    block.redo()
                elif way == 2:
                    refused(8, block.edit, n, 0, 1)
                else:
                    block.edit(chance.randrange(n), chance.randrange(n), chance.randrange(-30000, 30000))
                expect(block.residual == foxentu.inverse_transform(block.coefficients, n, depth, extended, dst), "an edit is not a fresh transform")
                used = [i % n + 1 for i, v in enumerate(block.coefficients) if v]
                expect(block.columns == max(used, default=0), "columns")
            while block.undo():
                pass
            expect(not any(block.coefficients) and not any(block.residual) and block.edits == [], "undo of all")


def level_edits():
    chance = random.Random(9)
    for dst, n, listed in ((True, 4, None), (False, 8, ([20] * 64, 30)), (False, 32, ([20] * 64, 30)), (False, 16, None)):
        block = foxentu.EditedBlock.on_levels([0] * (n * n), n, 20, 8, False, dst, listed)
        for _ in range(60):
            way = chance.randrange(6)
            if way == 0:
                block.undo()
            elif way == 1:
                block.redo()
            elif way == 2:
                refused(10, block.edit, 0, 0, 1)
            else:
                block.edit_level(chance.randrange(n), chance.randrange(n), chance.choice((chance.randrange(-200, 200), 2147483647)))
            expect(block.coefficients == foxentu.scale(block.levels, n, 20, 8, False, listed), "coefficients are not the scaling of the levels")
            expect(block.residual == foxentu.inverse_transform(block.coefficients, n, 8, False, dst), "a level edit is not a fresh transform")
        while block.undo():
            pass
        expect(not any(block.levels) and not any(block.residual), "undo of all")
    refused(10, foxentu.EditedBlock([0] * 16, 4, 8).edit_level, 0, 0, 1)
    block = foxentu.EditedBlock.on_levels([40000] * 16, 4, 4, 8)
    expect(block.limited == 16 and block.edit_level(0, 0, 1) == (False, False) and block.edit_level(0, 0, -1025) == (False, True) and block.edit_level(0, 0, 40000)[0], "what was limited")
    refused(6, foxentu.EditedBlock.on_levels, [0] * 15, 4, 20, 8)


def calls():
    why = refused(9, foxentu.EditedBlock([0] * 64, 8, 8).edit, 5, 6, 32768)
    expect((why.row, why.column) == (5, 6), "the place of a coefficient")
    refused(1, foxentu.scale, [0] * 144, 12, 4, 8)
    refused(1, foxentu.scale, [0] * 16, 0, 4, 8)
    refused(2, foxentu.scale, [0] * 16, 4, 4, 7)
    refused(5, foxentu.scale, [0] * 16, 4, 4, 8, scaling_list=([16] * 63, 16))
    refused(6, foxentu.scale, [0] * 15, 4, 4, 8)
    refused(6, foxentu.scale, [], 4, 4, 8)
    refused(4, foxentu.rounding_bound, True, 8, 8)
    shares = foxentu.contributions([64, 0, -100] + [0] * 13, 4, 0, 3)
    expect(shares[:3].tolist() == [64**3, 0, -100 * 64**2] and not any(shares[3:]), "what each coefficient adds to a sample")
    refused(8, foxentu.contributions, [0] * 64, 8, 0, 8)
    expect(refused(14, foxentu.read_scaling_lists, b"\x55").place == 8, "the place of a bit")
    refused(5, foxentu.write_scaling_lists, [(bytes([16] * 64), 16)] * 19)
    refused(13, foxentu.checksum, [0] * 4, 2, 3, 8)
    levels = [3, -2] + [0] * 254
    listed = ([20] * 64, 30)
    coefficients = foxentu.scale(levels, 16, 10, 10, True, listed)
    expect(foxentu.find_levels(coefficients, 16, 10, 10, True, listed)[:3].tolist() == [3, -2, 0], "levels")
    expect(foxentu.transform_skip([2] + [0] * 15, 4, 4, 8)[0] == 2 and foxentu.transform_skip([2] + [0] * 15, 4, 4, 8, False, listed)[0] == 3, "transform skip")
    mistaken(ValueError, foxentu.scale, [1 << 31] + [0] * 15, 4, 4, 8)
    mistaken(ValueError, foxentu.qp_prime, 1 << 31, 8)
    mistaken(ValueError, foxentu.qp_prime, 4, 264)
    mistaken(TypeError, foxentu.call, "residual_find_levels", [0] * 16, 4, 4, 8, False, [0] * 16)
    mistaken(TypeError, foxentu.call, "residual_qp_prime", 4, 8, 8)
    mistaken(TypeError, foxentu.call, "residual_qp_prime", 4)


def feeds():
    """The library's text and listing of a feed against the plain writing of their rules and against the programs, on the programs' stored feeds, and cut."""
    whole, reasons = feed_cases.bug_case(), feed_cases.reasons()
    ways = [(foxentu.feed_text, feed_rules.residuals, build.program("feed_main")), (foxentu.listing_text, feed_rules.listing, build.program("scale_trace_main"))]
    for feed in (b"", whole, whole[:-1], whole[:-9], whole[:200], reasons, reasons[:-1], b"\x09", b"\x0a", bytes((1, 8))):
        for call, rule, program in ways:
            text = call(feed)
            expect(text.decode("ascii") == rule(feed), f"{call.__name__} of a feed of {len(feed)} bytes")
            expect(text == subprocess.run([program], input=feed, capture_output=True).stdout, f"{call.__name__} is not what {program} prints")


def threads():
    done = []
    each = [threading.Thread(target=lambda k=k: (edits(k), done.append(k))) for k in range(4)]
    for thread in each:
        thread.start()
    for thread in each:
        thread.join()
    expect(sorted(done) == [0, 1, 2, 3], "four threads at once")


calls()
edits(265)
level_edits()
feeds()
threads()
print(f"package: {count} checks passed")
