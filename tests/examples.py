#!/usr/bin/env python3
"""Runs each example as README.md shows it, and compares with the text that README.md shows under it, standard error included.

A block of README.md that begins with '$ ./foxentu COMMAND FILE' goes on with what that prints. Every file of examples/ has one. The programs are those of
target/bin and the archive that of FOXENTU_ARCHIVE where it is given.
"""
import os
import pathlib
import re
import shutil
import subprocess
import sys

SHOWN = re.compile(r"^    \$ (\./foxentu \w+ (\S+))\n((?:    .*\n)+)", re.M)

if pathlib.Path("target/bin/feed_main").is_file():
    os.environ.setdefault("FOXENTU_BIN", "target/bin")
found = SHOWN.findall(pathlib.Path("README.md").read_text(encoding="utf-8"))
shown = {file for _, file, _ in found}
wrong = []
for path in map(str, sorted(pathlib.Path("examples").glob("*.txt"))):
    if path not in shown:
        wrong.append(path)
        print(f"examples: README.md does not show {path}")
for command, file, text in found:
    if " levels " in command and not shutil.which(os.environ.get("CC") or "cc"):
        print(f"examples: {file} is left out, since cc is not at hand to link the archive for Python")
        continue
    text = re.sub(r"^    ", "", text, flags=re.M)
    ran = subprocess.run(["bash", "-euo", "pipefail", "-c", command], stdout=subprocess.PIPE, stderr=subprocess.STDOUT, text=True)
    refused = re.search(r"^refused \d+ \d+$", text, re.M) is not None
    if ran.returncode != refused or ran.stdout != text:
        wrong.append(file)
        print(f"examples: {file}: status {ran.returncode}, and README.md shows something else than\n{ran.stdout}")
print(f"examples: {len(found)} run, {len(wrong)} wrong")
sys.exit(1 if wrong or not found else 0)
