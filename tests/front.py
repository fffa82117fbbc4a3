#!/usr/bin/env python3
"""Runs ./foxentu as a user would, on good and on bad input, and looks at exit status, standard output and the line on standard error.

The programs and the archive are those that the environment names (FOXENTU_BIN, FOXENTU_ARCHIVE), else they are built. Building itself is tried in a folder of
its own, with a stand-in for rt.
"""
import os
import pathlib
import random
import shutil
import subprocess
import sys
import tempfile
import time

ROOT = pathlib.Path(__file__).resolve().parent.parent
os.chdir(ROOT)
room = pathlib.Path(tempfile.mkdtemp(prefix="foxentu-front-"))
count, failed, left = 0, 0, 0
# these commands call the archive, which a C compiler links for Python
ARCHIVE = ("levels", "lists", "checksum", "bound")
HAS_CC = shutil.which(os.environ.get("CC") or "cc") is not None


def foxentu(*words, stdin=None, stdout=subprocess.PIPE, env=None, cwd=ROOT, head="./foxentu"):
    if not HAS_CC and "--help" not in words and any(name in str(word).split() for name in ARCHIVE for word in words):
        return None
    return subprocess.run([head, *map(str, words)], input=stdin, stdin=None if stdin is not None else subprocess.DEVNULL, stdout=stdout, stderr=subprocess.PIPE, env={**os.environ, **(env or {})}, cwd=cwd)


def expect(name, ran, status, out=None, error=None, lines=None):
    """A run's status, its output whole, a part of its standard error, and how many lines that has."""
    global count, failed, left
    if ran is None:
        left += 1
        return ""
    count += 1
    said, wrote = ran.stderr.decode("utf-8", "replace"), (ran.stdout or b"").decode("utf-8", "replace")
    wrong = []
    if ran.returncode != status:
        wrong.append(f"status {ran.returncode} and not {status}")
    if out is not None and wrote != out:
        wrong.append(f"standard output is {wrote[:300]!r}")
    if error is not None and error not in said:
        wrong.append(f"standard error has no {error!r}")
    if lines is not None and said.count("\n") != lines:
        wrong.append(f"standard error has {said.count(chr(10))} lines and not {lines}")
    if "Traceback" in said:
        wrong.append("a traceback")
    if wrong:
        failed += 1
        print(f"front: {name}: {'; '.join(wrong)}\n    standard error: {said[:600]}")
    return wrote


def write(name, data):
    path = room / name
    path.write_bytes(data if isinstance(data, bytes) else data.encode())
    return path


ROWS = "1 1 1 1\n" * 4 + "limited 0\n"
BLOCK = "parameters depth=8 extended=0 qp_prime=4 mode=dct\nlevels 4 2 ..\n"
BYTES = bytes([1, 8, 0, 4, 0, 4, 2]) + bytes(63)


def decoding():
    text = ROWS + "blocks 1\n"
    expect("decode, text", foxentu("decode", write("block.txt", BLOCK)), 0, text, lines=0)
    feed = write("block.feed", BYTES)
    expect("decode, bytes", foxentu("decode", feed), 0, text, lines=0)
    expect("decode, text from standard input", foxentu("decode", "-", stdin=BLOCK.encode()), 0, text, lines=0)
    expect("decode, bytes from standard input", foxentu("decode", "-", stdin=BYTES), 0, text, lines=0)
    expect("decode in a plain locale", foxentu("decode", write("\u00fc.txt", BLOCK), env={"LC_ALL": "C", "PYTHONUTF8": "0", "PYTHONCOERCECLOCALE": "0"}), 0, text, lines=0)
    expect("a mistake in a plain locale", foxentu("decode", write("\u00fc.bad", "\u00fc"), env={"LC_ALL": "C", "PYTHONUTF8": "0", "PYTHONCOERCECLOCALE": "0"}), 2, "", "no record is called", 1)
    expect("decode, byte-order mark and line ends", foxentu("decode", write("mark.txt", b"\xef\xbb\xbf" + BLOCK.replace("\n", "\r\n").encode())), 0, text, lines=0)
    expect("decode from another folder", foxentu("decode", feed, cwd=room, head=str(ROOT / "foxentu")), 0, text, lines=0)
    expect("--bytes says it", foxentu("decode", "--bytes", write("ten", b"\n")), 1, "refused 20 0\n", "ten: byte 0: refused 20: feed: the kind byte is not known", 1)
    expect("a block of 16 and one of 32", foxentu("decode", write("large.txt", BLOCK + "levels 16 .. levels 32 7 ..")), 0, None, lines=0)


def refusing():
    expect("a refused text", foxentu("decode", "examples/damaged.txt"), 1, ROWS + "refused 20 70\n", "examples/damaged.txt:6:1: refused 20: feed: the kind byte is not known (byte 70)", 1)
    expect("refused bytes", foxentu("decode", write("cut.feed", BYTES[:40])), 1, "refused 21 5\n", "cut.feed: byte 5: refused 21: feed: the body ends too early", 1)
    expect("levels before parameters", foxentu("decode", write("early.txt", "\n\n  levels 4 ..")), 1, "refused 22 0\n", "early.txt:3:3: refused 22", 1)
    expect("refused bytes over lines", foxentu("decode", write("lines.txt", "bytes 1 8 0 4 0\n  3\n# a kind that is none\n  77 3")), 1, "refused 20 6\n", "lines.txt:4:3: refused 20", 1)
    expect("a refused text from standard input", foxentu("decode", "-", stdin=b"levels 8 .."), 1, "refused 22 0\n", "standard input:1:1: refused 22", 1)
    expect("trace, refused", foxentu("trace", "examples/damaged.txt"), 1, None, "examples/damaged.txt:6:1: refused 20", 1)
    expect("show, refused", foxentu("show", "examples/damaged.txt"), 1, None, "examples/damaged.txt:6:1: refused 20", 1)
    expect("levels, refused", foxentu("levels", "-", stdin=b"parameters depth=8 extended=0 qp_prime=4 mode=dct\ncoefficients 4 64 0 0 0 0 0 1 .."), 1, None, "standard input:2:1: row 1, column 2, coefficient 1: refused 11: search for levels", 1)
    expect("lists read, refused", foxentu("lists", "read", "-", stdin=b""), 1, None, "standard input: refused 14: scaling list data: the bits end before or in a code (bit 0)", 1)
    expect("checksum, refused", foxentu("checksum", write("wide", bytes(99999)), "99999x1", "--chroma", "400"), 1, None, "refused 13", 1)


def mistaken():
    for command in ("decode", "trace", "show", "pack", "unpack", "levels"):
        expect(f"{command}, a misspelt file", foxentu(command, room / "nosuch"), 2, "", "nosuch: No such file or directory", 1)
        expect(f"{command}, a directory", foxentu(command, room), 2, "", ": Is a directory", 1)
        expect(f"{command}, a file whose reads fail", foxentu(command, "/proc/self/mem"), 2, "", ": ", 1)
        if command != "unpack":
            expect(f"{command}, a mistake in the text", foxentu(command, write("bad.txt", "# x\n levls 4\n")), 2, "", "bad.txt:2:2: no record is called 'levls'", 1)
    expect("decode, an empty file", foxentu("decode", write("empty", b"")), 0, "blocks 0\n", "empty: no record in it", 1)
    expect("trace, an empty file", foxentu("trace", room / "empty"), 0, "", "empty: no record in it", 1)
    expect("show, an empty file", foxentu("show", room / "empty"), 0, "blocks 0\n", "empty: no record in it", 1)
    expect("levels, an empty file", foxentu("levels", room / "empty"), 0, "", lines=0)
    expect("unpack, an empty file", foxentu("unpack", room / "empty"), 0, "", lines=0)
    expect("pack of bytes", foxentu("pack", write("bytes.feed", BYTES)), 2, "", "these are the bytes of a feed already", 1)
    expect("unpack of a text", foxentu("unpack", "examples/blocks.txt"), 2, "", "this is a text already", 1)
    expect("unpack of bytes that look like a text", foxentu("unpack", "--bytes", write("looks", b"a")), 0, "# from byte 0 on: a kind that is not known\nbytes 0x61\n", lines=0)
    expect("coefficients in a feed", foxentu("decode", "examples/coefficients.txt"), 2, "", "examples/coefficients.txt:3:1: coefficients are no record of a feed", 1)
    expect("levels in place of coefficients", foxentu("levels", "examples/blocks.txt"), 2, None, "examples/blocks.txt:3:1: levels are wanted", 1)
    expect("an empty name", foxentu("decode", ""), 2, "", "No such file", 1)
    secret = write("secret", BLOCK)
    secret.chmod(0)
    room.chmod(0o711)
    # root reads everything, so the child gives that up first
    code = "import os, sys; sys.path.insert(0, 'bindings/python'); from foxentu import command, library; library.header(); os.geteuid() or os.seteuid(65534); sys.exit(command.main(['decode', sys.argv[1]]))"
    expect("an unreadable file", foxentu("-c", code, secret, head=sys.executable), 2, "", "secret: Permission denied", 1)
    expect("no command", foxentu(), 2, "", "required")
    expect("an unknown command", foxentu("dcode", "x"), 2, "", "invalid choice: 'dcode'")
    expect("too few words", foxentu("decode"), 2, "", "required: FILE")
    expect("levels without parameters", foxentu("levels", "-", stdin=b"coefficients 4 .."), 2, "", "standard input:1:1: coefficients before any parameters", 1)
    expect("an output that cannot be made", foxentu("pack", room / "block.txt", "-o", room / "no" / "such"), 2, "", "No such file or directory", 1)
    expect("a size that is none", foxentu("checksum", room / "wide", "8"), 2, "", "8 is no size", 1)
    expect("a file that is no whole picture", foxentu("checksum", room / "wide", "64x64"), 2, None, "takes 6144", 1)
    expect("bound without a size", foxentu("bound", "--kind", "dct"), 2, "", "needs --size", 1)
    expect("a row that is none", foxentu("refusals", "99"), 2, "", "no row has the number 99", 1)


def cut():
    """Outputs that end early: a reader that goes away, a full disk, programs that do not come to their last line."""
    big = write("big.txt", BLOCK + "levels 32 5 ..\n" * 400)
    for command in ("decode", "trace", "show", "unpack"):
        source = big
        if command == "unpack":
            source = write("big.feed", BYTES + (bytes([7, 1]) + bytes(4095)) * 4000)
        script = f"set -o pipefail; ./foxentu {command} '{source}' | head -1 > '{room}/first'"
        expect(f"{command} | head -1", foxentu("-c", script, head="bash"), 2, "", "foxentu: standard output was closed before the last line", 1)
    for words in (("decode", "examples/blocks.txt"), ("trace", "examples/blocks.txt"), ("trace", "--words", "examples/blocks.txt"), ("show", "examples/blocks.txt"), ("pack", "examples/blocks.txt"), ("unpack", room / "block.feed"), ("levels", "examples/coefficients.txt"), ("bound",), ("refusals",)):
        with open("/dev/full", "wb") as full:
            expect(f"{words[0]}, a full disk", foxentu(*words, stdout=full), 2, None, "foxentu: standard output: No space left on device", 1)
    for words, error in (("decode examples/blocks.txt >&-", "standard output is closed"), ("decode - <&-", "standard input is closed")):
        expect(words, foxentu("-c", "./foxentu " + words, head="bash"), 2, "", error, 1)
    expect("no standard error", foxentu("-c", "./foxentu decode examples/damaged.txt 2>&-", head="bash"), 1, ROWS + "refused 20 70\n", lines=0)
    expect("pack -o, a full disk", foxentu("pack", "examples/blocks.txt", "-o", "/dev/full"), 2, "", "/dev/full: No space left on device", 1)
    for name, body, error in (("no last line", "cat > /dev/null; echo 1 1 1 1", "did not come to its last line"), ("half a line", "cat > /dev/null; printf 'blocks'", "did not come to its last line"), ("nothing", "cat > /dev/null", "did not come to its last line"), ("a status", "exit 3", "feed_main ended with status 3"), ("a signal", "kill -9 $$", "feed_main ended with status -9")):
        folder = room / name.replace(" ", "_")
        folder.mkdir()
        for program in ("feed_main", "scale_trace_main"):
            (folder / program).write_text(f"#!/bin/sh\n{body}\n")
            (folder / program).chmod(0o755)
        expect(f"a program that ends with {name}", foxentu("decode", room / "block.txt", env={"FOXENTU_BIN": str(folder)}), 2, None, error, 1)
    expect("a listing that is cut", foxentu("trace", room / "block.txt", env={"FOXENTU_BIN": str(room / "nothing")}), 2, "", "wrote 0 of 16 lines", 1)
    expect("a folder without programs", foxentu("decode", room / "block.txt", env={"FOXENTU_BIN": str(room)}), 2, "", "there is no feed_main in it", 1)
    expect("an archive that is not there", foxentu("bound", env={"FOXENTU_ARCHIVE": str(room / "nosuch")}), 2, "", "there is no such file", 1)
    expect("an archive that is none", foxentu("bound", env={"FOXENTU_ARCHIVE": str(room / "block.txt")}), 2, "", "could not link")


def commands():
    listed = "list " + "16 " * 63 + "40 dc=30\n"
    expect("trace", foxentu("trace", room / "block.txt"), 0, "".join(f"{i} 16 none -\n" for i in range(16)), lines=0)
    trace = expect("trace, a list", foxentu("trace", write("listed.txt", listed + BLOCK + "levels 16 ..")), 0, None, lines=0)
    if "0 16 four 0\n" not in trace or "0 30 dc -\n" not in trace or "255 40 repeat 63\n" not in trace:
        expect("trace, its reasons", foxentu("trace", room / "listed.txt"), 0, "the reasons of a list")
    expect("trace --words", foxentu("trace", "--words", room / "block.txt"), 0, f"{room}/block.txt:2:1: block 1, 4 x 4\n" + "".join(f"    row {i // 4}, column {i % 4}: m is 16: no list is in force\n" for i in range(16)), lines=0)
    shown = expect("show", foxentu("show", "examples/blocks.txt"), 0, None, lines=0)
    for part in ("examples/blocks.txt:3:1: block 1: DCT 4 x 4, depth 8, QP' 4, no list", "     9 -3  0  0     -2  -4  -3  -2\n", "blocks 2\n"):
        if part not in shown:
            expect("show, its lines", foxentu("show", "examples/blocks.txt"), 0, part)
    expect("pack", foxentu("pack", "examples/blocks.txt", "-o", room / "packed"), 0, "", lines=0)
    packed = (room / "packed").read_bytes()
    unpacked = expect("unpack", foxentu("unpack", room / "packed"), 0, None, lines=0)
    expect("pack of unpack", foxentu("pack", "-", "-o", room / "again", stdin=unpacked.encode()), 0, "", lines=0)
    if (room / "again").read_bytes() != packed:
        expect("pack of unpack, its bytes", foxentu("unpack", room / "again"), 0, "the same bytes")
    expect("levels, then decode", foxentu("-c", "set -o pipefail; ./foxentu levels examples/coefficients.txt | ./foxentu decode - | tail -1", head="bash"), 0, "blocks 1\n", lines=0)
    # twenty times the default, two bits each
    lists = expect("lists read", foxentu("lists", "read", "-", stdin=b"\x55" * 5), 0, None, lines=0)
    expect("lists write", foxentu("lists", "write", "-", stdin=lists.encode()), 0, "UUUUU", "40 bits in 5 bytes", 1)
    expect("lists write, a mistake", foxentu("lists", "write", "-", stdin=lists.replace("8x8 0", "8x8 1", 1).encode()), 2, "", "where list 8x8 0 is wanted", 1)
    expect("lists write, a value of 0", foxentu("lists", "write", "-", stdin=lists.replace(" 16", "  0", 1).encode()), 1, "", "refused 16", 1)
    expect("checksum", foxentu("checksum", write("zeros", bytes(257)), "257x1", "--chroma", "400"), 0, f"picture 0 y {32641:08x}\n", lines=0)
    expect("checksum, two bytes", foxentu("checksum", write("ones", b"\xff\xff" * 2), "1x1", "--depth", "16", "--chroma", "400"), 0, "".join(f"picture {k} y {510:08x}\n" for k in (0, 1)), lines=0)
    expect("checksum, three planes", foxentu("checksum", write("planes", bytes(96)), "8x8"), 0, None, lines=0)
    expect("bound", foxentu("bound", "--kind", "dct", "--size", "4", "--depth", "8"), 0, "kind size depth extended bound one-step steps\ndct 4 8 0 277952 524288 0.531\n", lines=0)
    expect("refusals", foxentu("refusals", "20"), 0, "20 feed: the kind byte is not known\n", lines=0)
    for words in ((), ("decode",), ("trace",), ("show",), ("bench",), ("pack",), ("unpack",), ("lists",), ("lists", "read"), ("lists", "write"), ("checksum",), ("levels",), ("bound",), ("refusals",), ("build",)):
        told = expect(f"{' '.join(words)} --help", foxentu(*words, "--help"), 0, None, lines=0)
        if "usage: foxentu" not in told:
            expect(f"{' '.join(words)} --help, its text", foxentu(*words, "--help"), 0, "a usage")
    expect("--version", foxentu("--version"), 0, None, lines=0)


def edits():
    """Bug cases: edits and readings, and the lines of a text that a refusal of one names."""
    shown = expect("show, a bug case", foxentu("show", "examples/case.txt"), 0, None, lines=0)
    for part in ("edit 1 of block 1: row 1, column 1: level 3 becomes 0", "block 1 after 3 edits: columns 3", "difference", "blocks 1"):
        if part not in shown:
            expect("show, a bug case", foxentu("show", "examples/case.txt"), 0, part)
    zeros = "0 0 0 0\n" * 4
    case = write("case.txt", BLOCK + "show edit 0 0 0\n show\nedit 0 0 +2 # again\nshow")
    read = ROWS + ROWS.replace("limited 0", "columns 1") + zeros + "columns 0\n" + ROWS.replace("limited 0", "columns 1")
    expect("decode, edits and readings", foxentu("decode", case), 0, read + "blocks 1\n", lines=0)
    expect("pack, edits and readings", foxentu("pack", case, "-o", room / "case.feed"), 0, "", lines=0)
    expect("decode, edits and readings as bytes", foxentu("decode", room / "case.feed"), 0, read + "blocks 1\n", lines=0)
    expect("unpack, edits and readings", foxentu("unpack", room / "case.feed"), 0, BLOCK.replace("levels 4 2 ..", "levels 4\n    2 0 0 0\n    ..") + "show\nedit 0 0 0\nshow\nedit 0 0 2\nshow\n", lines=0)
    expect("trace, edits and readings", foxentu("trace", case), 0, "".join(f"{i} 16 none -\n" for i in range(16)), lines=0)
    shown = expect("show, edits and readings", foxentu("show", case), 0, None, lines=0)
    for part in ("case.txt:3:1: block 1 after 0 edits: columns 1, 0 of 16 samples differ from the block as it came\n", "case.txt:4:2: block 1 after 1 edit: columns 0, 16 of 16", "    0 of 16 samples differ from the block as it came\nblocks 1\n"):
        if part not in shown:
            expect("show, edits and readings", foxentu("show", case), 0, part)
    lone = write("lone.txt", "parameters depth=8 extended=0 qp=4 mode=dct\nedit 0 0 1")
    for command in ("decode", "trace", "show"):
        expect(f"{command}, an edit without a block", foxentu(command, lone), 1, "" if command == "show" else "refused 24 5\n", "lone.txt:2:1: refused 24: feed: an edit or a reading where no block is held", 1)
    for name, text, at, line in (("a list", "nolist show", 71, "3:8"), ("parameters", BLOCK.split("\n")[0] + "\n show", 75, "4:2"), ("a skip block", BLOCK.replace("dct", "skip") + "show", 140, "5:1")):
        ran = foxentu("decode", write("closed.txt", BLOCK + text))
        rows = "" if name != "a skip block" else "2 0 0 0\n" + "0 0 0 0\n" * 3 + "limited 0\n"
        expect(f"a reading behind {name}", ran, 1, ROWS + rows + f"refused 24 {at}\n", f"closed.txt:{line}: refused 24", 1)
    expect("an edit outside its block", foxentu("decode", write("outside.txt", BLOCK + "show\nedit 4 0 1\nshow")), 1, ROWS + ROWS.replace("limited 0", "columns 1") + "refused 8 71\n", "outside.txt:4:1: refused 8", 1)
    expect("show, an edit outside its block", foxentu("show", room / "outside.txt"), 1, None, "outside.txt:4:1: refused 8", 1)
    expect("an edit that is cut", foxentu("decode", write("cut.feed", BYTES + bytes((8, 0, 0, 1)))), 1, ROWS + "refused 21 70\n", "cut.feed: byte 70: refused 21", 1)
    for text, column, told in (("edit 0 0", 1, "this one has 2 numbers"), ("edit 256 0 1", 6, "an edit's row is 0 to 255"), ("edit 0 0 2147483648", 10, "an edit's level is"), ("show 1", 6, "which takes no number")):
        expect(f"a mistake: {text}", foxentu("decode", write("wrong.txt", BLOCK + text)), 2, "", f"wrong.txt:3:{column}: ", 1)
        expect(f"a mistake: {text}, its words", foxentu("decode", room / "wrong.txt"), 2, "", told, 1)
    folder = room / "without_columns"
    folder.mkdir()
    (folder / "feed_main").write_text("#!/bin/sh\ncat > /dev/null\nfor k in 1 2 3 4; do echo 1 1 1 1; done\necho blocks 1\n")
    (folder / "feed_main").chmod(0o755)
    expect("show, a text without its counts", foxentu("show", room / "block.txt", env={"FOXENTU_BIN": str(folder)}), 2, None, "no line 'limited'", 1)


RT = """#!/bin/sh
# a stand-in for rt: it says what rt says, and builds a program that answers
case $1 in
version) echo another kit ;;
run)
    echo 'rt: chose --jobs 2 for integers'
    echo 'logic=proved functions=4 sum=0'
    echo 'rt: chose --jobs 2 for h265'
    echo 'logic=proved functions=2 sum=0'
    echo 'rt: chose --jobs 2 for feed_main'
    [ ! -f ../../fail ] || { echo 'logic=not-proved'; exit 1; }
    mkdir -p out
    printf '#!/bin/sh\\ncat > /dev/null\\necho blocks 0\\n' > out/feed_main
    chmod +x out/feed_main
    echo 'logic=proved functions=1 sum=0'
    echo 'rt: running out/feed_main; to give it other input, run that file yourself' ;;
esac
"""


def building():
    """The first use, in a copy without anything built."""
    clone = room / "clone"
    clone.mkdir()
    for name in ("foxentu", "crates.txt", "KIT"):
        shutil.copy(ROOT / name, clone / name)
    for name in ("bindings/python", "include", "crates/feed_main"):
        shutil.copytree(ROOT / name, clone / name, ignore=shutil.ignore_patterns("__pycache__", "out"))
    tools = room / "tools"
    tools.mkdir()
    for name in ("python3", "sh", "env", "cat", "mkdir", "chmod"):
        (tools / name).symlink_to(shutil.which(name) if name != "python3" else sys.executable)
    empty = write("nothing.txt", "# no record\n")
    env = {"PATH": str(tools), "FOXENTU_BIN": "", "FOXENTU_ARCHIVE": ""}
    run = lambda: foxentu("decode", empty, env=env, cwd=clone)  # noqa: E731
    expect("no rt at all", run(), 2, "", "rt is not on the path: the Rattle kit proves and builds the library")
    (tools / "rt").write_text(RT)
    (tools / "rt").chmod(0o755)
    (clone / "fail").touch()
    expect("a build that fails", run(), 2, "", "rt run in crates/feed_main ended with status 1; target/foxentu/feed_main.log has all it said")
    (clone / "fail").unlink()
    first = run()
    expect("the first use", first, 0, "blocks 0\n", "feed_main is proved and built, in")
    expect("another kit", first, 0, "blocks 0\n", "this kit is 'another kit', and the file KIT pins '" + (ROOT / "KIT").read_text().strip() + "'")
    expect("progress", first, 0, "blocks 0\n", "foxentu: crate 2 of ")
    expect("the second use", run(), 0, "blocks 0\n", lines=1)
    source = clone / "crates/feed_main/src/main.rt"
    source.touch()
    expect("a file that was touched", run(), 0, "blocks 0\n", lines=1)
    source.write_text(source.read_text() + "\n")
    expect("a source that has changed", run(), 0, "blocks 0\n", "its sources have changed")
    (clone / "target/bin/feed_main").write_text("#!/bin/sh\n")
    expect("a program that is another", run(), 0, "blocks 0\n", "is proved and built")


def speed():
    """10 MB of text in a second or so; ten times that is allowed here, since the machine may be busy."""
    chance = random.Random(265)
    blocks = ["levels 16\n" + "\n".join(" ".join(str(chance.randrange(-60, 61)) for _ in range(16)) for _ in range(16)) for _ in range(200)]
    text = (BLOCK + "\n".join(blocks * 60)).encode()
    sys.path.insert(0, str(ROOT / "bindings/python"))
    from foxentu import feedtext

    begun = time.process_time()
    feed = feedtext.read(text, "f")
    took = time.process_time() - begun
    print(f"front: {len(text) / 1e6:.1f} MB of text read in {took:.2f} s of processor time")
    global count, failed
    count += 1
    if took > 10 * len(text) / 1e7 or len(feed.bytes) != 70 + 12000 * 1025:
        failed += 1
        print("front: the text form is read too slowly, or not as it is")


try:
    decoding()
    refusing()
    mistaken()
    cut()
    commands()
    edits()
    building()
    speed()
finally:
    shutil.rmtree(room, ignore_errors=True)
if left:
    print(f"front: LEFT OUT: {left} runs of {', '.join(ARCHIVE)}, since cc is not at hand")
print(f"front: {count} runs, {failed} not as they should be")
sys.exit(1 if failed else 0)
