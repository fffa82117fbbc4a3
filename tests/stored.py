#!/usr/bin/env python3
"""stored.py [FOLDER]: every tests/NAME_cases.py writes into a folder of its own (FOLDER, or a temporary one), and what it writes must be what is stored.

A stored file that no script writes is a fault too, but in the crates below, whose files come from elsewhere.
"""
import os
import pathlib
import subprocess
import sys
import tempfile

# recorded answers of the ported Rust, which tests/differential compares
ELSEWHERE = {"oracle_cases"}


def stored(crate):
    return {p for part in ("stdin", "stdout", "args", "data") for p in [crate / part, *(crate / part).rglob("*")] if p.is_file()}


def compare(made, crates):
    """The names of the files that differ, are missing or are left over."""
    wanted = {p.relative_to(crates) for c in crates.iterdir() if c.name not in ELSEWHERE for p in stored(c)}
    there = {p.relative_to(made) for p in made.rglob("*") if p.is_file()}
    differ = {n for n in wanted & there if (made / n).read_bytes() != (crates / n).read_bytes()}
    return [f"{n}: {why}" for names, why in (
        (differ, "is not what its script writes"),
        (wanted - there, "no script writes it"),
        (there - wanted, "a script writes it, and it is not stored"),
    ) for n in sorted(names)], len(wanted)


def main():
    scripts = sorted(pathlib.Path("tests").glob("*_cases.py"))
    with tempfile.TemporaryDirectory() as room:
        made = pathlib.Path(sys.argv[1] if len(sys.argv) > 1 else room)
        running = [subprocess.Popen([sys.executable, str(s), str(made)], env={**os.environ, "PYTHONDONTWRITEBYTECODE": "1"}) for s in scripts]
        failed = [str(s) for s, p in zip(scripts, running) if p.wait()]
        wrong, count = compare(made, pathlib.Path("crates"))
    for name in failed:
        print(f"stored: {name} failed")
    for line in wrong:
        print(f"stored: crates/{line}")
    print(f"stored: {count} files of {len(scripts)} scripts, {len(wrong)} wrong")
    sys.exit(1 if wrong or failed else 0)


main()
