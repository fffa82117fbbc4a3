#!/usr/bin/env python3
"""ran.py NAME..: runs the built programs crates/NAME/out/NAME as `rt ci` does, each in a folder that holds its data/, and compares what they write and how they end."""
import pathlib
import shutil
import subprocess
import sys
import tempfile


def wrong(crate):
    """What is wrong with a run of the crate's program, or nothing."""
    stream = lambda name: (crate / name).read_bytes() if (crate / name).is_file() else b""  # noqa: E731
    with tempfile.TemporaryDirectory() as room:
        data = pathlib.Path(room) / "data"
        if (crate / "data").is_dir():
            shutil.copytree(crate / "data", data)
        else:
            data.mkdir()
        words = stream("args").decode().splitlines()
        ran = subprocess.run([(crate / "out" / crate.name).resolve(), *words], cwd=data, input=stream("stdin"), capture_output=True, timeout=120)
    status = int(stream("status").decode().strip() or 0)
    if ran.returncode != status:
        return f"status {ran.returncode} and not {status}: {ran.stderr.decode(errors='replace')[-600:]}"
    return "" if ran.stdout == stream("stdout") else "what it wrote is not what its file stdout has"


failed = 0
for name in sys.argv[1:]:
    said = wrong(pathlib.Path("crates") / name)
    failed += bool(said)
    print(f"ran: {name}: {said or 'wrote what its file stdout has'}")
sys.exit(1 if failed else 0)
