"""Runs the feed programs, passes their text on and tells whether it is whole."""
import re
import subprocess
import threading

from . import build, feedtext

LAST = re.compile(rb"(?:\A|\n)(?:blocks [0-9]+|refused ([0-9]+) ([0-9]+))\n\Z")
REFUSED = re.compile(rb"(?:\A|\n)refused ([0-9]+) ([0-9]+)\n\Z")


class Unfinished(Exception):
    """A run that did not come to its last line."""


class Input:
    """A feed to run: bytes in memory or an open file, and the text that it came from where it was a text."""

    def __init__(self, name, file=None, data=None, feed=None):
        self.name, self.file, self.feed = name, file, feed
        self.data = feed.bytes if feed else data

    def where(self, offset):
        """The place of a record in words: line and column of a text, byte of a binary feed."""
        return self.feed.where(offset) if self.feed else f"{self.name}: byte {offset}"

    def whole(self):
        if self.data is None:
            self.data = self.file.read()
        return self.data


def run(name, given, sink):
    """Runs a program on a feed, hands its text to `sink` piece by piece, and gives the end of the text.

    A file goes to the program as it is, without a copy through memory.
    """
    straight = given.data is None and given.file is not None
    process = subprocess.Popen([build.program(name)], stdin=given.file if straight else subprocess.PIPE, stdout=subprocess.PIPE)
    writer = None
    if not straight:
        writer = threading.Thread(target=_write, args=(process.stdin, given.whole()), daemon=True)
        writer.start()
    end = b""
    try:
        while True:
            piece = process.stdout.read1(1 << 16)
            if not piece:
                break
            end = (end + piece)[-80:]
            sink(piece)
        status = process.wait()
    except BaseException:
        process.kill()
        process.wait()
        raise
    finally:
        process.stdout.close()
    if writer:
        writer.join()
    if status != 0:
        raise Unfinished(f"{name} ended with status {status}")
    return end


def _write(pipe, data):
    try:
        pipe.write(data)
        pipe.close()
    except OSError:
        pass  # the program stopped reading, as it does at a refusal


def refusal_of(end):
    """Number and offset of the refusal that a text ends with, if it does."""
    found = REFUSED.search(end)
    return (int(found[1]), int(found[2])) if found else None


def decode(given, sink):
    """The feed's text. Gives the refusal that it ends with, or nothing; raises Unfinished where it is not whole."""
    end = run("feed_main", given, sink)
    if not LAST.search(end):
        raise Unfinished("feed_main did not come to its last line, so this text is not whole")
    return refusal_of(end)


def trace(given, sink):
    """The listing. It has no last line of its own, so its lines are counted: n * n for each levels record before a refusal."""
    lines = 0

    def count(piece):
        nonlocal lines
        lines += piece.count(b"\n")
        sink(piece)

    data = given.whole()
    end = run("scale_trace_main", given, count)
    refusal = refusal_of(end)
    stop = refusal[1] if refusal else len(data)
    wanted = sum(len(body) // 4 for at, kind, body in feedtext.walk(data) if kind in feedtext.KINDS and at < stop) + bool(refusal)
    if lines != wanted or end[-1:] not in (b"", b"\n"):
        raise Unfinished(f"scale_trace_main wrote {lines} of {wanted} lines, so this listing is not whole")
    return refusal
