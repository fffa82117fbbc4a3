"""The archive as a shared library, and calls of its functions by the declarations of the headers."""
import array
import ctypes
import hashlib
import os
import pathlib
import shutil
import subprocess
import tempfile

from . import build
from .header import Header

# the array module's letters for the element types of the headers
LETTERS = {ctypes.c_bool: "B", ctypes.c_int32: "i", ctypes.c_int16: "h", ctypes.c_uint16: "H", ctypes.c_uint8: "B", ctypes.c_size_t: "Q", ctypes.c_int64: "q"}


class Refused(Exception):
    """A call that was refused: the number of its row in docs/RULES.md, the row's text, and the place that it names.

    A row that names a coefficient gives row and column, any other place is one number; all three are 0 where the row names none.
    """

    def __init__(self, number, row=0, column=0, place=0):
        self.number, self.row, self.column, self.place = number, row, column, place
        self.text = refusal_text(number)
        super().__init__(str(self))

    def __str__(self):
        return f"refused {self.number}: {self.text}{self._where()}"

    def _where(self):
        if self.number in (9, 11, 19):
            return f" (row {self.row}, column {self.column})"
        if self.number == 12:
            return f" (index {self.place})"
        return f" (bit {self.place})" if self.number in (14, 15, 16) else ""


_header = None
_library = None


def include_folder():
    prefix = os.environ.get("FOXENTU_PREFIX")
    return pathlib.Path(prefix) / "include" / "foxentu" if prefix else build.ROOT / "include"


def header():
    """The declarations of the headers, read once."""
    global _header
    if _header is None:
        try:
            _header = Header(include_folder())
        except OSError as error:
            raise build.BuildError(f"the C headers are not at hand: {error}")
    return _header


def version():
    return header().version


def refusal_text(number):
    row = header().refusals.get(number)
    return row.text if row else "a refusal that this version does not know"


def _archive():
    prefix = os.environ.get("FOXENTU_PREFIX")
    return pathlib.Path(prefix) / "lib" / "libfoxentu.a" if prefix else build.archive()


def _shared(archive):
    """A shared library of the archive: linked once for each content, under a name that has its hash."""
    digest = hashlib.sha256(archive.read_bytes()).hexdigest()[:16]
    folder = build.KEPT if (build.ROOT / "crates.txt").is_file() else pathlib.Path.home() / ".cache" / "foxentu"
    path = folder / f"libfoxentu-{digest}.so"
    if path.is_file():
        return path
    compiler = os.environ.get("CC") or "cc"
    if not shutil.which(compiler):
        raise build.BuildError(f"{compiler} is not on the path: a C compiler links the archive to a shared library for Python")
    folder.mkdir(parents=True, exist_ok=True)
    with tempfile.TemporaryDirectory(dir=folder) as room:
        made = pathlib.Path(room) / "made.so"
        told = subprocess.run([compiler, "-shared", "-o", made, "-Wl,--whole-archive", archive, "-Wl,--no-whole-archive"], capture_output=True, text=True)
        if told.returncode != 0:
            raise build.BuildError(f"{compiler} could not link {archive}:\n{told.stderr.strip()}")
        os.replace(made, path)
    return path


def load():
    """The shared library with the argument and result types of every function set; built where it has to be."""
    global _library
    if _library is None:
        archive = _archive()
        try:
            library = ctypes.CDLL(str(_shared(archive)))
        except OSError as error:
            raise build.BuildError(f"{archive}: {error.strerror or error}")
        missing = [name for name in header().functions if not hasattr(library, name)]
        if missing:
            raise build.BuildError(f"{archive} has no {missing[0]}, which the headers of version {version()} declare: archive and headers are of different versions")
        for function in header().functions.values():
            linked = getattr(library, function.name)
            linked.restype = function.result
            linked.argtypes = [p.ctype() for p in function.parameters]
        if library.residual_version() != header().version_number:
            raise build.BuildError(f"{archive} says version {library.residual_version()}, and the headers {header().version_number}: archive and headers are of different versions")
        _library = library
    return _library


def elements(values, kind, what="a number"):
    """A buffer of a C type from any sequence of integers."""
    letter = LETTERS[kind]
    if isinstance(values, array.array) and values.typecode == letter:
        return values
    if letter == "B" and isinstance(values, (bytes, bytearray, memoryview)):
        return array.array("B", bytes(values))
    try:
        return array.array(letter, values)
    except OverflowError:
        bits = 8 * ctypes.sizeof(kind)
        raise ValueError(f"{what} does not fit {bits} bits") from None


def call(name, *arguments):
    """Calls a function of the headers. A buffer goes in as one argument, and its length is filled in; a refusal comes back as Refused.

    Gives the record that the function answers. Buffers that the function writes are arrays of the right type, which it writes in place.
    """
    answer = answered(name, *arguments)
    told = answer if hasattr(answer, "number") else answer.block
    if told.number != 0:
        raise Refused(told.number, told.row, told.column, told.place)
    return answer


def answered(name, *arguments):
    """The same of a function that has no refusals: what it answers, as it is."""
    library, function = load(), header().functions[name]
    given, left, words = [], list(arguments), function.parameters
    index = 0
    while index < len(words):
        if not left:
            raise TypeError(f"{name}: {words[index].name} is missing")
        parameter, value = words[index], left.pop(0)
        if parameter.pointer:
            held = elements(value, parameter.kind, parameter.name) if parameter.constant else value
            if not isinstance(held, array.array) or held.typecode != LETTERS[parameter.kind]:
                raise TypeError(f"{name}: {parameter.name} is written, so it is an array of type '{LETTERS[parameter.kind]}'")
            # a pointer is not null, also where there is no element
            memory = (parameter.kind * len(held)).from_buffer(held) if len(held) else (parameter.kind * 1)()
            given += [memory, len(held)]
            index += 2
        else:
            given.append(_fitting(value, parameter))
            index += 1
    if left:
        raise TypeError(f"{name}: {len(left)} arguments too many")
    return getattr(library, name)(*given)


def _fitting(value, parameter):
    """ctypes cuts a number that does not fit; here it is a mistake of the caller."""
    kind = parameter.kind
    if issubclass(kind, ctypes.Structure):
        return value
    if kind is ctypes.c_bool:
        return bool(value)
    if kind(value).value != value:
        raise ValueError(f"{parameter.name} is {value}, which does not fit {8 * ctypes.sizeof(kind)} bits")
    return value
