#!/usr/bin/env python3
"""feed_time.py PROGRAM [BLOCKS] [--edits]: the feed program on a feed of random blocks, beside `cat` on the text that it wrote.

Prints the lengths, the least time of three runs of each, and their ratio. The program runs with 8 MiB of address space, code and
stack included, so that a feed that took memory by its length would end it. With --edits each block that takes edits, the same
blocks, is followed by four edits and a reading.
"""
import os
import pathlib
import random
import resource
import sys
import tempfile
import time

KINDS = (4, 5, 6, 7)
SPACE = 8 << 20


def edits_of(numbers, n):
    """Four edits of a block of size n, and a reading."""
    places = [(numbers.randrange(n), numbers.randrange(n), numbers.randrange(-60, 61)) for _ in range(4)]
    return b"".join(bytes((8, row, column)) + level.to_bytes(4, "little", signed=True) for row, column, level in places) + bytes([9])


def make(blocks, edited):
    numbers, places = random.Random(265), random.Random(9)
    parts, mode = [], 0
    for block in range(blocks):
        if block % 100 == 0:
            depth, extended, prime, mode = 8 + numbers.randrange(9), numbers.randrange(2), numbers.randrange(52), 2 * numbers.randrange(2)
            parts.append(bytes((1, depth, extended, prime, mode)))
        kind = numbers.choices(KINDS, (8, 4, 2, 1))[0]
        cells = 16 << 2 * (kind - 4)
        levels = bytearray(4 * cells)
        for _ in range(1 + cells // 4):
            at = numbers.randrange(cells)
            levels[4 * at:4 * at + 4] = numbers.randrange(-60, 61).to_bytes(4, "little", signed=True)
        parts.append(bytes([kind]) + bytes(levels))
        if edited and mode == 0:
            parts.append(edits_of(places, 1 << kind - 2))
    return b"".join(parts)


def run(words, source, target, space):
    begun = time.perf_counter()
    pid = os.fork()
    if pid == 0:
        os.dup2(os.open(source, os.O_RDONLY), 0)
        os.dup2(os.open(target, os.O_WRONLY | os.O_CREAT | os.O_TRUNC), 1)
        resource.setrlimit(resource.RLIMIT_AS, (space, space))
        os.execvp(words[0], words)
    _, status = os.waitpid(pid, 0)
    if status != 0:
        sys.exit(f"feed_time: {words[0]} ended with status {status}")
    return time.perf_counter() - begun


def main():
    words = [word for word in sys.argv[1:] if word != "--edits"]
    if not words:
        sys.exit("use: feed_time.py PROGRAM [BLOCKS] [--edits]")
    program, blocks, edited = words[0], int(words[1]) if len(words) > 1 else 100000, "--edits" in sys.argv
    with tempfile.TemporaryDirectory() as folder:
        feed, text, copy = (str(pathlib.Path(folder) / name) for name in ("feed", "text", "copy"))
        pathlib.Path(feed).write_bytes(make(blocks, edited))
        ours = min(run([program], feed, text, SPACE) for _ in range(3))
        plain = min(run(["cat"], text, copy, resource.RLIM_INFINITY) for _ in range(3))
        size = os.path.getsize(text)
        last = pathlib.Path(text).read_bytes()[-40:].split(b"\n")[-2].decode()
        print(f"feed {os.path.getsize(feed)} bytes, text {size} bytes, last line '{last}'")
        print(f"program {ours:.2f} s, {size / ours / 1e6:.1f} MB of text a second; cat {plain:.3f} s; ratio {ours / plain:.0f}")


main()
