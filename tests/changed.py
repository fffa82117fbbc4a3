#!/usr/bin/env python3
"""changed.py [--above] BASE: the crates that differ from the commit BASE, uncommitted changes included; with --above also those that stand on them."""
import pathlib
import subprocess
import sys


def git(*words):
    return subprocess.run(["git", *words], capture_output=True, text=True, check=True).stdout


def dependencies(text):
    lines = (line.split("#")[0] for line in text.split("\n"))
    # behind a name may stand what is made of it, as `staticlib`
    return {head.split()[0]: rest.split() for head, _, rest in (line.partition(":") for line in lines) if head.strip()}


def main():
    base = sys.argv[-1]
    deps, before = dependencies(pathlib.Path("crates.txt").read_text()), dependencies(git("show", f"{base}:crates.txt"))
    files = (git("diff", "--name-only", base) + git("ls-files", "-o", "--exclude-standard")).split("\n")
    touched = {file.split("/")[1] for file in files if file.startswith("crates/") and file.count("/") > 1}
    changed = {name for name in deps if name in touched or before.get(name) != deps[name]}
    if "--above" in sys.argv:
        while more := {name for name in deps if name not in changed and changed & set(deps[name])}:
            changed |= more
    print(" ".join(name for name in deps if name in changed))


main()
