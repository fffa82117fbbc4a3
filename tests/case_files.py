"""Where the scripts that write cases put them, and the form in which the programs of cases read numbers."""
import pathlib
import sys


def write_files(crate, files):
    """Writes files of a crate's folder, each bytes or text by its name. The folder stands in the one that the script was given, crates by default."""
    folder = pathlib.Path(sys.argv[1] if len(sys.argv) > 1 else "crates") / crate
    for name, content in files.items():
        path = folder / name
        path.parent.mkdir(parents=True, exist_ok=True)
        path.write_bytes(content.encode() if isinstance(content, str) else bytes(content))


def named(text):
    """A text that is written as it is."""
    return bytes([len(text.encode())]) + text.encode()


def word(n):
    return n.to_bytes(8, "little")


def short(n):
    return n.to_bytes(2, "little")


def wide(values):
    return b"".join(v.to_bytes(4, "little", signed=True) for v in values)


def narrow(values):
    return b"".join(v.to_bytes(2, "little", signed=True) for v in values)


def shown(*values):
    """Numbers, each after a space; a list after a bar."""
    return "".join(" |" + shown(*v) if isinstance(v, (list, tuple)) else f" {int(v)}" for v in values)
