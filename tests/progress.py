#!/usr/bin/env python3
"""progress.py FILE: passes on what `rt ci` prints on standard input, line by line as it comes, and says how far it is: crate k of N, edit k of N, minutes.

The verdict 'N passed, M failed' goes to FILE, so that it can be printed last. The status is 0 only where nothing failed and the line 'rt: ok' counts every edit
of must-fail/ as refused: a bad edit fails nothing in `rt ci`.
"""
import pathlib
import re
import sys
import time

CRATE = re.compile(r"rt: (\w+) (proved$|NOT PROVED\b|is kept: )")
EDIT = re.compile(r"rt: must-fail ")
OK = re.compile(r"rt: ok; ")
REFUSED = re.compile(r"; must-fail edits: (\d+) refused(?:, (\d+) of them only by a limit)?(?:, (\d+) bad)?;")
VERDICT = re.compile(r"\d+ passed, (\d+) failed$")


def listed():
    lines = pathlib.Path("crates.txt").read_text().split("\n")
    return {line.split("#")[0].split(":")[0].split()[0] for line in lines if line.split("#")[0].strip()}


def main():
    sys.stdin.reconfigure(encoding="utf-8", errors="replace")
    sys.stdout.reconfigure(encoding="utf-8")
    began, crates, left = time.monotonic(), listed(), listed()
    edits, tried = len(list(pathlib.Path("crates").glob("*/must-fail/*.edit"))), 0
    failed, refused = None, None
    for line in sys.stdin:
        line = line.rstrip("\n")
        verdict = VERDICT.match(line)
        if verdict:
            failed = int(verdict[1])
            pathlib.Path(sys.argv[1]).write_text(line + "\n")
            continue
        crate, far = CRATE.match(line), ""
        if crate and crate[1] in left:
            left.discard(crate[1])
            far = f"crate {len(crates) - len(left)} of {len(crates)}"
        elif EDIT.match(line):
            tried += 1
            far = f"edit {tried} of {edits}"
        elif OK.match(line):
            told = REFUSED.search(line)
            refused = (int(told[1]), int(told[3] or 0)) if told else (0, 0)
            if told and told[2]:
                far = f"{told[2]} of them only by a limit, which says less of the contract"
        minutes = (time.monotonic() - began) / 60
        print(f"{line}  [{far}, {minutes:.1f} min]" if far else line, flush=True)
    if failed == 0 and refused != (edits, 0):
        print(f"progress: there are {edits} must-fail edits, and rt ci " + (f"says {refused[0]} refused, {refused[1]} bad" if refused else "has no line 'rt: ok'"))
    sys.exit(0 if failed == 0 and refused == (edits, 0) else 1)


main()
