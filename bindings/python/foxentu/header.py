"""The C headers read as a table: structs, functions, refusals and version. include/ is the one place where they are declared."""
import ctypes
import pathlib
import re

HEADERS = ("residual_refusals.h", "residual.h", "picture.h")

SCALARS = {
    "bool": ctypes.c_bool,
    "uint8_t": ctypes.c_uint8,
    "uint16_t": ctypes.c_uint16,
    "uint32_t": ctypes.c_uint32,
    "uint64_t": ctypes.c_uint64,
    "int8_t": ctypes.c_int8,
    "int16_t": ctypes.c_int16,
    "int32_t": ctypes.c_int32,
    "int64_t": ctypes.c_int64,
    "size_t": ctypes.c_size_t,
}


class Parameter:
    """One argument: its name, its type as a word of C and for ctypes, and whether it is a pointer to elements of that type."""

    def __init__(self, name, word, kind, pointer, constant):
        self.name, self.word, self.kind, self.pointer, self.constant = name, word, kind, pointer, constant

    def ctype(self):
        return ctypes.POINTER(self.kind) if self.pointer else self.kind


class Function:
    def __init__(self, name, word, result, parameters):
        self.name, self.word, self.result, self.parameters = name, word, result, parameters


class Refusal:
    """A row of the table of refusals."""

    def __init__(self, number, name, text):
        self.number, self.name, self.text = number, name, text


class Header:
    """What the headers of a folder declare."""

    def __init__(self, folder):
        self.structs, self.functions, self.refusals, self.version = {}, {}, {}, None
        for name in HEADERS:
            path = pathlib.Path(folder) / name
            self._read(path.read_text(encoding="utf-8"), str(path))

    def _read(self, text, where):
        for number, name, row in re.findall(r'^\s*ROW\((\d+), (\w+), "([^"]*)"\)', text, re.M):
            self.refusals[int(number)] = Refusal(int(number), name, row)
        found = re.search(r'^#define RESIDUAL_VERSION "([^"]*)"', text, re.M)
        if found:
            self.version = found[1]
            self.version_number = int(re.search(r"^#define RESIDUAL_VERSION_NUMBER (\d+)", text, re.M)[1])
        text = re.sub(r"/\*.*?\*/", " ", text, flags=re.S)
        text = re.sub(r"\\\n", " ", text)
        text = re.sub(r"^\s*#.*$", "", text, flags=re.M)
        text = re.sub(r"static inline [^{]*\{.*?\n\}", "", text, flags=re.S)
        for body, name in re.findall(r"typedef struct(?:\s+\w+)?\s*\{([^{}]*)\}\s*(\w+);", text):
            self.structs[name] = self._struct(name, body, where)
        for result, name, arguments in re.findall(r"(\w+)\s+((?:residual|picture)_\w+)\(([^()]*)\);", text):
            self.functions[name] = Function(name, result, self._type(result, where), [self._parameter(a, where) for a in arguments.split(",") if a.strip() not in ("", "void")])

    def _type(self, word, where):
        kind = SCALARS.get(word) or self.structs.get(word)
        if kind is None:
            raise ValueError(f"{where}: no type is called {word}")
        return kind

    def _struct(self, name, body, where):
        fields, words = [], []
        for line in filter(None, (part.strip() for part in body.split(";"))):
            word, field, _, count = re.fullmatch(r"(\w+)\s+(\w+)(\[(\d+)\])?", line).groups()
            kind = self._type(word, where)
            fields.append((field, kind * int(count) if count else kind))
            words.append((field, word, int(count or 0)))
        return type(name, (ctypes.Structure,), {"_fields_": fields, "words": words})

    def _parameter(self, text, where):
        constant, word, star, name = re.fullmatch(r"(const\s+)?(\w+)\s*(\*?)\s*(\w+)", text.strip()).groups()
        return Parameter(name, word, self._type(word, where), bool(star), bool(constant))
