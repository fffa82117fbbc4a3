"""The edits made so far, in a file beside the case, so that a crash loses none: a line for each, on the disk before the page sees it.

The first line names the case by its content. A last line that is cut counts as not written. Where the file is there at the start, its edits are made again.
"""
import errno
import fcntl
import json
import os

from .opened import Unwilling


ADVICE = ": move it away, or begin without it by --discard"


class Foreign(Exception):
    """A file of edits that cannot be made again on this case, in words."""


class Journal:
    def __init__(self, path, digest):
        self.path, self.digest, self.file = path, digest, None

    def lines(self):
        """What is kept from before, as records; nothing where there is no file."""
        if not os.path.lexists(self.path):
            return []
        self.file = open(self.path, "r+b", buffering=0)
        self._lock()
        data = self.file.read()
        whole = data[:data.rfind(b"\n") + 1]
        if len(whole) < len(data):
            self.file.truncate(len(whole))
        self.file.seek(0, os.SEEK_END)
        try:
            records = [json.loads(line) for line in whole.decode("utf-8").splitlines()]
            if not all(isinstance(record, dict) for record in records):
                raise ValueError
        except ValueError:
            raise Foreign(f"{self.path} is no list of edits of the bench{ADVICE}")
        if not records:
            self._put({"edits of": self.digest})
            return []
        if "edits of" not in records[0]:
            raise Foreign(f"{self.path} is no list of edits of the bench{ADVICE}")
        if records[-1].get("saving") == self.digest:
            # the case was replaced and the bench ended before it dropped this file: all of it is in the case
            self.drop()
            return []
        if records[0]["edits of"] != self.digest:
            raise Foreign(f"{self.path} has edits of the case as it was before it changed{ADVICE}")
        return records[1:]

    def _lock(self):
        try:
            fcntl.flock(self.file, fcntl.LOCK_EX | fcntl.LOCK_NB)
        except OSError:
            raise Foreign(f"another bench has {self.path} open")

    def add(self, record):
        """Puts a record on the disk."""
        try:
            if self.file is None:
                try:
                    made = os.open(self.path, os.O_RDWR | os.O_CREAT | os.O_EXCL, 0o666)
                except FileExistsError:
                    raise Unwilling(f"another bench keeps edits in {self.path}: nothing was changed")
                self.file = os.fdopen(made, "r+b", buffering=0)
                self._lock()
                self._put({"edits of": self.digest})
            self._put(record)
        except OSError as error:
            raise Unwilling(f"{self.path}: {error.strerror}: nothing was changed, since the change could not be kept")

    def _put(self, record):
        end, line = self.file.seek(0, os.SEEK_END), json.dumps(record).encode() + b"\n"
        try:
            if self.file.write(line) != len(line):
                raise OSError(errno.ENOSPC, os.strerror(errno.ENOSPC))
            os.fsync(self.file.fileno())
        except OSError:
            self._cut(end)
            raise

    def _cut(self, end):
        """After a failed write: what came to the disk of that line is no line."""
        try:
            os.ftruncate(self.file.fileno(), end)
        except OSError:
            pass  # a line without its end counts as not written

    def discard(self):
        """Gives up what is kept from before."""
        if os.path.lexists(self.path):
            self.file = open(self.path, "r+b", buffering=0)
            self._lock()
            self.drop()

    def drop(self):
        """Removes the file: its edits are in the case, or were given up."""
        if self.file is not None:
            os.unlink(self.path)
            self.file.close()
            self.file = None
