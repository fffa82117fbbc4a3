"""./foxentu: one command over the proved programs and the archive. It computes no sample itself.

Exit status: 0; 1 for a refusal; 2 for a mistake in the call, or a run that did not come to its last line.
"""
import argparse
import array
import os
import re
import sys

from . import build, feedtext, library, residual, running, showing

DONE, REFUSED, FAILED = 0, 1, 2


class Mistake(Exception):
    """A mistake in the call, as one line."""


# ---- files
def open_input(name):
    """A file to read, with `-` for standard input; a mistake in one line where it cannot be read."""
    if name == "-":
        if sys.stdin is None:
            raise Mistake("standard input is closed")
        return sys.stdin.buffer
    file = open(name, "rb")
    if os.path.isdir(name):
        raise IsADirectoryError(21, os.strerror(21), name)
    return file


def read_all(name):
    with open_input(name) as file:
        return file.read()


def shown_name(name):
    return "standard input" if name == "-" else name


def open_feed(options):
    """A feed from a text or from bytes; which of the two it is shows in its first bytes unless the call says it."""
    file = open_input(options.file)
    name = shown_name(options.file)
    regular = options.file != "-" and os.path.isfile(options.file)
    first = file.read(1 << 16)
    as_text = options.text or not options.bytes and feedtext.is_text(first)
    if not as_text and regular:
        # opened anew: the program reads the file itself, from its start
        file.close()
        return running.Input(name, file=open(options.file, "rb"))
    data = first + file.read()
    if as_text:
        feed = feedtext.read(data, name)
        if not feed.records:
            build.note(f"{name}: no record in it")
        return running.Input(name, feed=feed)
    return running.Input(name, data=data)


class Output:
    """Standard output or the file of -o, as bytes; closing it is part of the run, since a full disk may show only then."""

    def __init__(self, name=None, binary=False):
        if name in (None, "-"):
            if sys.stdout is None:
                raise Mistake("standard output is closed")
            self.name, self.file = "standard output", sys.stdout.buffer
            if binary and sys.stdout.isatty():
                raise Mistake("the bytes of a feed are not for a terminal: give -o FILE, or a pipe")
        else:
            self.name, self.file = name, open(name, "wb")

    def write(self, data):
        try:
            self.file.write(data)
        except OSError as error:
            raise OutputError(self, error)

    def line(self, text):
        self.write(text.encode() + b"\n")

    def close(self):
        try:
            self.file.flush()
            if self.name != "standard output":
                self.file.close()
        except OSError as error:
            raise OutputError(self, error)


class OutputError(Exception):
    def __init__(self, output, error):
        self.gone = isinstance(error, BrokenPipeError)
        super().__init__(f"{output.name} was closed before the last line" if self.gone else f"{output.name}: {error.strerror}")


def say_refusal(given, refusal):
    number, offset = refusal
    byte = f" (byte {offset})" if given.feed else ""
    build.note(f"{given.where(offset)}: refused {number}: {library.refusal_text(number)}{byte}")
    return REFUSED


# ---- the commands
def decode(options):
    given, out = open_feed(options), Output()
    refusal = running.decode(given, out.write)
    out.close()
    return say_refusal(given, refusal) if refusal else DONE


def trace(options):
    given, out = open_feed(options), Output()
    if not options.words:
        refusal = running.trace(given, out.write)
    else:
        pieces = []
        refusal = running.trace(given, pieces.append)
        explain(given, b"".join(pieces).decode("ascii").splitlines(), refusal, out)
    out.close()
    return say_refusal(given, refusal) if refusal else DONE


def explain(given, lines, refusal, out):
    """The listing in words, block by block."""
    stop, index, blocks = refusal[1] if refusal else len(given.data), 0, 0
    for at, kind, _ in feedtext.walk(given.data):
        if at >= stop or kind not in feedtext.KINDS:
            continue
        size, blocks = feedtext.KINDS[kind], blocks + 1
        out.line(f"{given.where(at)}: block {blocks}, {size} x {size}")
        for line in lines[index:index + size * size]:
            place, m, reason, position = line.split(" ")
            out.line(f"    row {int(place) // size}, column {int(place) % size}: m is {m}: {showing.REASONS[reason].format(position)}")
        index += size * size


def show(options):
    given, out, pieces = open_feed(options), Output(), []
    given.whole()
    refusal = running.decode(given, pieces.append)
    showing.Case(given, b"".join(pieces), out.line).show(refusal)
    out.close()
    return say_refusal(given, refusal) if refusal else DONE


def pack(options):
    data = read_all(options.file)
    if not feedtext.is_text(data):
        raise Mistake(f"{shown_name(options.file)}: these are the bytes of a feed already; unpack makes a text of them")
    feed = feedtext.read(data, shown_name(options.file))
    out = Output(options.output, binary=True)
    out.write(feed.bytes)
    out.close()
    return DONE


def unpack(options):
    data = read_all(options.file)
    if data and feedtext.is_text(data) and not options.bytes:
        raise Mistake(f"{shown_name(options.file)}: this is a text already; pack makes bytes of it (--bytes takes it for damaged bytes)")
    out = Output(options.output)
    for part in feedtext.write(data):
        out.line(part)
    out.close()
    return DONE


# ---- scaling lists
def lists_read(options):
    data, out = read_all(options.file), Output(options.output)
    lists, bits = residual.read_scaling_lists(data)
    out.line(f"# 20 scaling lists, read from {bits} bits")
    for (size, matrix), (entries, dc) in zip(residual.LISTS, lists):
        across = 4 if size == 4 else 8
        out.line(f"{size}x{size} {matrix}" + (f" dc={dc}" if size > 8 else ""))
        for k in range(across):
            out.line("    " + " ".join(f"{e:3}" for e in entries[across * k:across * k + across]))
    out.close()
    return DONE


def lists_write(options):
    lists = feed_lists(feedtext.Source(read_all(options.file), shown_name(options.file)))
    out = Output(options.output, binary=True)
    data, bits = residual.write_scaling_lists(lists)
    out.write(data)
    out.close()
    build.note(f"{bits} bits in {len(data)} bytes")
    return DONE


def feed_lists(source):
    """The 20 lists of a text as `lists read` writes it."""
    tokens = [(found.start(), found.group()) for found in feedtext.TOKEN.finditer(source.bare)]
    reader = feedtext.Reader(source, ())
    lists, index = [], 0
    for size, matrix in residual.LISTS:
        head = f"{size}x{size}".encode(), str(matrix).encode()
        for word in head:
            if index >= len(tokens) or tokens[index][1] != word:
                at, token = tokens[index] if index < len(tokens) else (len(source.bare), b"the end")
                raise source.error(at, f"{feedtext.shown(token)} where list {size}x{size} {matrix} is wanted: the 20 lists stand in the order of the bitstream")
            index += 1
        dc = 16
        if size > 8:
            at, token = tokens[index] if index < len(tokens) else (len(source.bare), b"")
            if not token.startswith(b"dc="):
                raise source.error(at, f"list {size}x{size} {matrix} has no dc= before its entries")
            dc = reader.number(at + 3, token[3:], 0, 255, "dc")
            index += 1
        count = 16 if size == 4 else 64
        entries = tokens[index:index + count]
        if len(entries) < count:
            raise source.error(len(source.bare), f"list {size}x{size} {matrix} has {len(entries)} of {count} entries")
        lists.append((bytes(reader.number(at, token, 0, 255, "an entry of a list") for at, token in entries).ljust(64, b"\0"), dc))
        index += count
    if index < len(tokens):
        raise source.error(tokens[index][0], f"{feedtext.shown(tokens[index][1])} after the last of the 20 lists")
    return lists


# ---- pictures
CHROMA = {"400": (), "420": (2, 2), "422": (2, 1), "444": (1, 1)}


def checksum(options):
    found = re.fullmatch(r"([0-9]{1,5})x([0-9]{1,5})", options.size)
    if not found:
        raise Mistake(f"{options.size} is no size: it is written as 1920x1080")
    width, height = int(found[1]), int(found[2])
    if not width or not height:
        raise Mistake(f"{options.size} is no size: a picture has rows and columns")
    planes = [("y", width, height)]
    if CHROMA[options.chroma]:
        across, down = CHROMA[options.chroma]
        planes += [(name, -(-width // across), -(-height // down)) for name in ("cb", "cr")]
    sample = 1 if options.depth == 8 and not options.wide else 2
    length = sample * sum(w * h for _, w, h in planes)
    out, picture = Output(), 0
    with open_input(options.file) as file:
        while True:
            data = file.read(length)
            if not data:
                break
            if len(data) < length:
                raise Mistake(f"{shown_name(options.file)}: picture {picture} has {len(data)} bytes, and {width}x{height} {options.chroma} at depth {options.depth} takes {length}: size, chroma or depth is another")
            at = 0
            for name, w, h in planes:
                plane = samples(data[at:at + sample * w * h], sample)
                at += sample * w * h
                out.line(f"picture {picture} {name} {residual.checksum(plane, w, h, options.depth):08x}")
            picture += 1
    if not picture:
        raise Mistake(f"{shown_name(options.file)}: no picture in it")
    out.close()
    return DONE


def samples(data, sample):
    """Raw samples of one or two bytes (low byte first) as 16-bit numbers."""
    plane = array.array("H")
    if sample == 1:
        wide = bytearray(2 * len(data))
        wide[0 if sys.byteorder == "little" else 1::2] = data
        plane.frombytes(bytes(wide))
    else:
        plane.frombytes(data)
        if sys.byteorder != "little":
            plane.byteswap()
    return plane


# ---- levels and bounds
def levels(options):
    """A text with blocks of coefficients in, the same with their levels out."""
    words = ("parameters", "list", "nolist", "coefficients")
    given = feedtext.read(read_all(options.file), shown_name(options.file), words)
    out, parameters, listed = Output(), None, None
    for record in given.records:
        where = "{}:{}:{}".format(given.source.name, *given.source.place(record.start))
        if record.word == "parameters":
            parameters = record.values
            out.line(feedtext.record_text(1, bytes(parameters)))
        elif record.word == "list":
            listed = (bytes(record.values[:64]), record.values[64])
            out.line(feedtext.record_text(2, bytes(record.values)))
        elif record.word == "nolist":
            listed = None
            out.line("nolist")
        else:
            if parameters is None:
                raise Mistake(f"{where}: coefficients before any parameters")
            out.line(found_levels(given, record, parameters, listed, where))
    out.close()
    return DONE


def found_levels(given, record, parameters, listed, where):
    size, values = record.values
    depth, extended, prime, mode = parameters
    # as the feed does: a transform-skip block above size 4 is scaled as without a list
    used = None if mode == 2 and size > 4 else listed
    try:
        found = residual.find_levels(values, size, prime, depth, extended, used)
    except library.Refused as refused:
        at = f"{where}: row {refused.row}, column {refused.column}, coefficient {values[refused.row * size + refused.column]}" if refused.number == 11 else where
        raise Refusal(f"{at}: refused {refused.number}: {refused.text}")
    return feedtext.block_text("levels", size, found)


class Refusal(Exception):
    """A refusal of a call of the library, as one line."""


def bound(options):
    kinds = [("dct", n) for n in (4, 8, 16, 32)] + [("dst", 4)]
    if options.kind or options.size:
        if options.kind == "dst" and options.size is None:
            options.size = 4
        if options.size is None:
            raise Mistake("--kind dct needs --size")
        kinds = [(options.kind or "dct", options.size)]
    depths = [options.depth] if options.depth is not None else range(8, 17)
    flags = [True] if options.extended else [False] if options.depth is not None else [False, True]
    lines = ["kind size depth extended bound one-step steps"]
    for kind, size in kinds:
        for depth in depths:
            for extended in flags:
                number = residual.rounding_bound(kind == "dst", size, depth, extended)
                step = 1 << (7 + residual.coefficient_range(depth, extended) + 5 - depth)
                lines.append(f"{kind} {size} {depth} {int(extended)} {number} {step} {-(-1000 * number // step) / 1000:.3f}")
    out = Output()
    for line in lines:
        out.line(line)
    out.close()
    return DONE


def refusals(options):
    out = Output()
    for number, row in sorted(library.header().refusals.items()):
        if options.number in (None, number):
            out.line(f"{number:2} {row.text}")
    if options.number is not None and options.number not in library.header().refusals:
        raise Mistake(f"no row has the number {options.number}")
    out.close()
    return DONE


def on_bench(options):
    from . import bench

    for name in (options.file, options.save, *options.target):
        if name == "-":
            raise Mistake("the bench reads and writes files that have a name")
    try:
        out = Output()
        bench.run(options.file, options.save, options.target, options.port, options.discard, out)
    except (bench.Foreign, bench.Unwilling) as error:
        raise Mistake(str(error))
    return DONE


def build_all(options):
    names, out = options.what or ["feed_main", "scale_trace_main", "library"], Output()
    for name in names:
        path = build.archive() if name == "library" else build.program(name)
        out.line(f"{name} {path}")
    out.close()
    return DONE


# ---- the call
def parser():
    top = argparse.ArgumentParser(prog="foxentu", description="The H.265 residual path, by proved programs: from quantized levels to residual samples.", epilog="Exit status: 0; 1 for a refusal; 2 for a mistake in the call, or a run that did not come to its last line. docs/FEED.md has the text form of a feed.")
    top.add_argument("--version", action="version", version=f"foxentu {library.version()}")
    commands = top.add_subparsers(dest="command", metavar="COMMAND", required=True)

    def command(name, run, text, more=None):
        made = commands.add_parser(name, help=text, description=more or text)
        made.set_defaults(run=run)
        return made

    def feed(made):
        made.add_argument("file", metavar="FILE", help="a feed, as text or as bytes; - is standard input")
        form = made.add_mutually_exclusive_group()
        form.add_argument("--text", action="store_true", help="the feed is a text (else its first bytes tell)")
        form.add_argument("--bytes", action="store_true", help="the feed is bytes")
        return made

    feed(command("decode", decode, "the residual rows of a feed's blocks and readings", "Writes the residual rows of every block and every reading of a feed, with 'limited N' or 'columns N' behind them, then 'blocks N'. A text without that last line, or a 'refused' line in its place, is not whole."))
    feed(command("trace", trace, "which m scaling uses at each index of a feed's blocks, and why", "Writes a line for each index of each block: index, m, reason (none, four, eight, dc, repeat, skip), position in the list.")).add_argument("--words", action="store_true", help="in words, block by block")
    feed(command("show", show, "a bug case for reading: blocks, edits and readings with differences", "Runs a feed and shows its blocks, the edits made and what each reading gave: before, after and their difference."))
    made = command("bench", on_bench, "a local page on which a case's blocks are looked at and edited", "Serves a page at the address that it prints, on 127.0.0.1 alone, until Ctrl-C. The page shows the blocks of a case, makes edits of levels by the library and saves them as a bug case. Edits that are not saved are kept in CASE.edits. docs/BENCH.md says more.")
    made.add_argument("file", metavar="CASE", help="a feed, as text or as bytes")
    made.add_argument("--save", metavar="FILE", help="where the page saves; CASE itself unless given. A file that is there is overwritten only after a question")
    made.add_argument("--target", metavar="FILE", action="append", default=[], help="another case whose blocks can be taken as targets; may be given several times")
    made.add_argument("--port", type=int, default=0, choices=range(65536), metavar="N", help="the port; a free one unless given")
    made.add_argument("--discard", action="store_true", help="begin without the edits that are kept in CASE.edits, which is removed")
    for name, run, text in (("pack", pack, "a feed's text to its bytes"), ("unpack", unpack, "a feed's bytes to text")):
        made = command(name, run, text)
        made.add_argument("file", metavar="FILE", help="- is standard input")
        made.add_argument("-o", "--output", metavar="FILE", help="where to write; standard output unless given")
        if name == "unpack":
            made.add_argument("--bytes", action="store_true", help="the feed is bytes, whatever its first one is")
    made = command("lists", None, "scaling lists of the bitstream (H.265, clause 7.3.4)", "Reads scaling list data as text, or writes it back. The defaults are those of Tables 7-5 and 7-6.")
    both = made.add_subparsers(dest="way", metavar="read|write", required=True)
    for name, run, text in (("read", lists_read, "the 20 lists of scaling list data, as text"), ("write", lists_write, "scaling list data of 20 lists in that text")):
        one = both.add_parser(name, help=text, description=text)
        one.set_defaults(run=run)
        one.add_argument("file", metavar="FILE", help="- is standard input")
        one.add_argument("-o", "--output", metavar="FILE", help="where to write; standard output unless given")
    made = command("checksum", checksum, "the checksums of raw planes (H.265, Annex D)", "Writes the checksum of each plane of each picture of a raw planar file: samples of one byte at depth 8, of two bytes (low byte first) above.")
    made.add_argument("file", metavar="FILE", help="- is standard input")
    made.add_argument("size", metavar="WIDTHxHEIGHT")
    made.add_argument("--depth", type=int, default=8, choices=range(8, 17), metavar="B", help="8 to 16; 8 unless given")
    made.add_argument("--chroma", default="420", choices=sorted(CHROMA), help="420 unless given; 400 is one plane")
    made.add_argument("--wide", action="store_true", help="two bytes a sample at depth 8 too")
    made = command("levels", levels, "the levels that give a block's coefficients", "Reads a text with parameters, lists and blocks 'coefficients N ..', and writes it as a feed's text with the level of least size for each coefficient. Refused with 11 where one has none.")
    made.add_argument("file", metavar="FILE", help="- is standard input")
    made = command("bound", bound, "how far a residual may be from the exact product", "Writes, for a kind, size and depth or for all, the rounding bound, one sample step in the same units, and the bound in steps.")
    made.add_argument("--kind", choices=("dct", "dst"))
    made.add_argument("--size", type=int, choices=(4, 8, 16, 32))
    made.add_argument("--depth", type=int, choices=range(8, 17), metavar="B", help="8 to 16")
    made.add_argument("--extended", action="store_true", help="extended precision")
    command("refusals", refusals, "the table of refusals, or one row of it").add_argument("number", nargs="?", type=int)
    made = command("build", build_all, "builds programs and archive, as the first use would")
    made.add_argument("what", nargs="*", choices=["feed_main", "scale_trace_main", "library"], default=[])
    return top


def main(words=None):
    """Runs the command and gives its exit status; whatever happens is said in a line."""
    options = None
    try:
        options = parser().parse_args(words)
        return options.run(options)
    except (Mistake, feedtext.TextError, running.Unfinished, build.BuildError, OutputError) as error:
        build.note(str(error))
        return FAILED
    except Refusal as error:
        build.note(str(error))
        return REFUSED
    except library.Refused as error:
        name = getattr(options, "file", None)
        build.note(f"{shown_name(name)}: {error}" if name else str(error))
        return REFUSED
    except OSError as error:
        build.note(f"{error.filename}: {error.strerror}" if error.filename else f"{error.strerror or error}")
        return FAILED
    except MemoryError:
        build.note("the input does not fit the memory")
        return FAILED
    except KeyboardInterrupt:
        build.note("stopped")
        return FAILED
    finally:
        close_output()


def close_output():
    """What is left in the buffer of a standard output that is closed or full would end Python with a message of its own."""
    if sys.stdout is None:
        return
    try:
        sys.stdout.flush()
    except OSError:
        os.dup2(os.open(os.devnull, os.O_WRONLY), sys.stdout.fileno())
