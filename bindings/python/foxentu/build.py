"""Builds the proved programs and the archive by `rt`, once, and knows when they are still those of the sources.

`rt` leaves what it builds in crates/NAME/out; it is copied to target/, where nothing but a build of this module and tests/run writes.

Where FOXENTU_BIN names a folder of programs, or FOXENTU_ARCHIVE an archive, that is taken as it is and nothing is built.
"""
import fcntl
import hashlib
import json
import os
import pathlib
import re
import shutil
import subprocess
import sys
import time

ROOT = pathlib.Path(__file__).resolve().parents[3]
KEPT = ROOT / "target" / "foxentu"
ARCHIVE = ROOT / "target" / "staticlib" / "libc_api.a"
KIT = ROOT / "KIT"


class BuildError(Exception):
    """Something that is needed is not there and could not be built."""


def note(text):
    """A line on standard error, where there is one."""
    if sys.stderr is not None:
        print(f"foxentu: {text}", file=sys.stderr, flush=True)


def program(name):
    """The path of a proved program, built where it is not there yet or its sources have changed."""
    folder = os.environ.get("FOXENTU_BIN")
    if folder:
        path = pathlib.Path(folder) / name
        if not path.is_file():
            raise BuildError(f"FOXENTU_BIN is {folder}, and there is no {name} in it")
        return path
    # rt builds a program by running it, here on no input
    return _built(name, ROOT / "target" / "bin" / name, ["run"], name)


def archive():
    """The path of the archive, in the same way."""
    given = os.environ.get("FOXENTU_ARCHIVE")
    if given:
        if not pathlib.Path(given).is_file():
            raise BuildError(f"FOXENTU_ARCHIVE is {given}, and there is no such file")
        return pathlib.Path(given)
    return _built("c_api_c", ARCHIVE, ["lib"], "libc_api_c.a")


# ---- crates
def crates():
    """What each crate of crates.txt builds on."""
    listed = {}
    for line in (ROOT / "crates.txt").read_text(encoding="utf-8").splitlines():
        head, colon, rest = line.split("#")[0].partition(":")
        if colon:
            # behind a name may stand what is made of it, as `staticlib`
            listed[head.split()[0]] = rest.split()
    return listed


def reached(name):
    """A crate with all crates of the repository below it."""
    listed, found, left = crates(), set(), [name]
    while left:
        crate = left.pop()
        if crate in listed and crate not in found:
            found.add(crate)
            left += listed[crate]
    return sorted(found)


def _sources(name):
    yield ROOT / "crates.txt"
    for crate in reached(name):
        for part in ("src", "specs", "proofs"):
            for folder, _, files in sorted(os.walk(ROOT / "crates" / crate / part)):
                for file in sorted(files):
                    yield pathlib.Path(folder) / file


def _signatures(name, product):
    """Two: one of times and sizes, which is quick, and on demand one of contents."""
    quick, files = hashlib.sha256(), list(_sources(name)) + [product]
    for path in files:
        kept = path.stat()
        quick.update(f"{path.relative_to(ROOT)} {kept.st_size} {kept.st_mtime_ns}\n".encode())

    def content():
        whole = hashlib.sha256()
        for path in files:
            whole.update(f"{path.relative_to(ROOT)} {hashlib.sha256(path.read_bytes()).hexdigest()}\n".encode())
        return whole.hexdigest()

    return quick.hexdigest(), content


def _kept(name):
    try:
        return json.loads((KEPT / f"{name}.json").read_text())
    except (OSError, ValueError):
        return {}


def _is_fresh(name, product):
    if not product.is_file():
        return False
    kept = _kept(name)
    quick, content = _signatures(name, product)
    if kept.get("quick") == quick:
        return True
    if kept.get("content") != content():
        return False
    _keep(name, product)
    return True


def _keep(name, product):
    quick, content = _signatures(name, product)
    (KEPT / f"{name}.json").write_text(json.dumps({"quick": quick, "content": content()}))


# ---- the kit
def pinned_kit():
    try:
        return KIT.read_text(encoding="utf-8").strip()
    except OSError:
        return ""


def kit():
    """The identity of the kit at hand, as `rt version` prints it, or nothing where there is no kit."""
    if not shutil.which("rt"):
        return None
    told = subprocess.run(["rt", "version"], capture_output=True, text=True)
    return told.stdout.strip()


def kit_message():
    """Nothing where the kit at hand is the pinned one, else a line that says what that means."""
    here, pinned = kit(), pinned_kit()
    if here is None:
        return "rt is not on the path: the Rattle kit proves and builds the library (pinned: " + pinned + ")"
    if here != pinned:
        return f"this kit is '{here}', and the file KIT pins '{pinned}': proofs that passed there may fail here"
    return None


# ---- the build itself
def _built(name, product, words, made):
    if not (ROOT / "crates.txt").is_file():
        raise BuildError(f"there are no sources at {ROOT}; FOXENTU_BIN and FOXENTU_ARCHIVE name what is built already")
    KEPT.mkdir(parents=True, exist_ok=True)
    if _is_fresh(name, product):
        return product
    with open(KEPT / "lock", "w") as lock:
        try:
            fcntl.flock(lock, fcntl.LOCK_EX | fcntl.LOCK_NB)
        except OSError:
            note("another build is under way; waiting for it")
            fcntl.flock(lock, fcntl.LOCK_EX)
        if not _is_fresh(name, product):
            _make(name, product, words, made)
    return product


def _make(name, product, words, made):
    message = kit_message()
    if kit() is None:
        raise BuildError(message)
    if message:
        note(message)
    count = len(reached(name))
    note(f"{name} is not built yet, or its sources have changed: proving it and what it builds on, {count} crates; from nothing this takes some minutes, once")
    begun, last = time.monotonic(), []
    shown = Progress(count, begun)
    log = KEPT / f"{name}.log"
    with open(log, "w") as whole:
        folder = ROOT / "crates" / name
        process = subprocess.Popen(["rt", *words], cwd=folder, stdin=subprocess.DEVNULL, stdout=subprocess.PIPE, stderr=subprocess.STDOUT, text=True, errors="replace")
        try:
            for line in process.stdout:
                whole.write(line)
                whole.flush()
                last = (last + [line.rstrip()])[-12:]
                shown.line(line.rstrip())
            status = process.wait()
        except BaseException:
            process.terminate()
            process.wait()
            raise
        finally:
            shown.end()
    if status != 0 or not (folder / "out" / made).is_file():
        raise BuildError("\n".join(last + [f"rt {' '.join(words)} in crates/{name} ended with status {status}; {log.relative_to(ROOT)} has all it said"]))
    product.parent.mkdir(parents=True, exist_ok=True)
    # in two steps, since the old one may be running
    shutil.copy(folder / "out" / made, f"{product}.new")
    os.replace(f"{product}.new", product)
    _keep(name, product)
    note(f"{name} is proved and built, in {time.monotonic() - begun:.0f} s")


class Progress:
    """Crate k of N and the seconds so far: one line that moves on a terminal, a line for each crate elsewhere."""

    def __init__(self, count, begun):
        self.count, self.begun, self.done, self.moving = count, begun, 0, sys.stderr is not None and sys.stderr.isatty()
        self.name = None

    def line(self, text):
        began = re.match(r"rt: chose --jobs \d+ for (\w+)$", text)
        if began:
            self.name = began[1]
        ended = re.match(r"logic=(proved|not-proved)\b", text)
        if not ended or not self.name or sys.stderr is None:
            return
        self.done += 1
        told = f"foxentu: crate {min(self.done, self.count)} of {self.count}: {self.name} {ended[1]}, {time.monotonic() - self.begun:.0f} s"
        if self.moving:
            sys.stderr.write(f"\r{told:<79}")
        else:
            sys.stderr.write(told + "\n")
        sys.stderr.flush()

    def end(self):
        if self.moving and self.done:
            sys.stderr.write("\n")
