#!/usr/bin/env python3
"""bindings.py [--write]: holds the headers, the Rust crate and docs/RULES.md together; --write writes bindings/rust/src/ffi.rs from the headers.

The headers are the one place of the declarations: Python reads them, and ffi.rs is written from them. The table of refusals stands in docs/RULES.md, in
include/residual_refusals.h and in bindings/rust/src/refusal.rs, with the same numbers and texts; the version in the headers and in Cargo.toml.
"""
import pathlib
import re
import sys

sys.path.insert(0, "bindings/python")
from foxentu.header import Header  # noqa: E402

RUST = {"bool": "bool", "size_t": "usize", **{f"{s}int{b}_t": f"{'u' if s else 'i'}{b}" for s in ("", "u") for b in (8, 16, 32, 64)}}
FFI = pathlib.Path("bindings/rust/src/ffi.rs")
HEAD = """//! What include/residual.h and include/picture.h declare, one to one. `python3 tests/bindings.py --write` writes this file.
//!
//! The functions of the crate's root are safe over these. Here a buffer is a pointer and a length: the pointer is valid for that many elements and not null,
//! and an output overlaps no other buffer.
"""

found = []


def rust_name(struct):
    return "".join(part.capitalize() for part in re.sub("^residual_", "", struct).split("_"))


def rust_type(word, count=0):
    one = RUST.get(word) or rust_name(word)
    return f"[{one}; {count}]" if count else one


def rust_struct(name, struct):
    fields = "".join(f"    pub {field}: {rust_type(word, count)},\n" for field, word, count in struct.words)
    # Default is derived for arrays of up to 32 elements
    derived = all(count <= 32 for _, _, count in struct.words)
    text = f"/// `{name}`\n#[repr(C)]\n#[derive(Clone, Copy, Debug, {'Default, ' if derived else ''}PartialEq, Eq)]\npub struct {rust_name(name)} {{\n{fields}}}\n"
    if not derived:
        values = ", ".join(f"{field}: " + (f"[0; {count}]" if count else "Default::default()") for field, word, count in struct.words)
        text += f"\nimpl Default for {rust_name(name)} {{\n    fn default() -> Self {{\n        {rust_name(name)} {{ {values} }}\n    }}\n}}\n"
    return text


def ffi(header):
    parts = [HEAD]
    parts += [rust_struct(name, struct) for name, struct in header.structs.items()]
    lines = ['unsafe extern "C" {']
    for function in header.functions.values():
        words = [f"{p.name}: {('*const ' if p.constant else '*mut ') if p.pointer else ''}{rust_type(p.word)}" for p in function.parameters]
        line = f"    pub fn {function.name}({', '.join(words)}) -> {rust_type(function.word)};"
        if len(line) > 150:
            line = f"    pub fn {function.name}(\n" + "".join(f"        {word},\n" for word in words) + f"    ) -> {rust_type(function.word)};"
        lines.append(line)
    return "\n".join(parts + lines + ["}", ""])


def rules_table():
    """Number and condition of each row of docs/RULES.md, written as a C text has it."""
    text = pathlib.Path("docs/RULES.md").read_text(encoding="utf-8").split("\n## Refusals\n")[1].split("\n## ")[0]
    plain = {"`": "", "²": " * n", "×": "*", "′": "'"}
    rows = re.findall(r"^\| (\d+) \| (.*?) \| .* \|$", text, re.M)
    return {int(number): "".join(plain.get(c, c) for c in condition) for number, condition in rows}


def rust_table():
    text = pathlib.Path("bindings/rust/src/refusal.rs").read_text(encoding="utf-8")
    return {int(number): (name, row) for number, name, row in re.findall(r'^    (\d+) (\w+) \(\w*\) "(.*)"$', text, re.M)}


def camel(name):
    return "".join(part.capitalize() for part in name.lower().split("_"))


def compare(header):
    rules, rust = rules_table(), rust_table()
    for number in sorted(set(rules) | set(header.refusals) | set(rust)):
        row = header.refusals.get(number)
        if row is None or number not in rules or number not in rust:
            where = {"docs/RULES.md": rules, "include/residual_refusals.h": header.refusals, "bindings/rust/src/refusal.rs": rust}
            found.append(f"row {number} is not in " + ", ".join(name for name, table in where.items() if number not in table))
            continue
        if row.text != rules[number]:
            found.append(f"row {number}: docs/RULES.md has '{rules[number]}', include/residual_refusals.h '{row.text}'")
        if (camel(row.name), row.text) != rust[number]:
            found.append(f"row {number}: include/residual_refusals.h has {camel(row.name)} '{row.text}', bindings/rust/src/refusal.rs {rust[number][0]} '{rust[number][1]}'")
    if FFI.read_text(encoding="utf-8") != ffi(header):
        found.append(f"{FFI} is not what the headers declare: python3 tests/bindings.py --write")
    versions = {"bindings/rust/Cargo.toml": re.search(r'^version = "(.*)"', pathlib.Path("bindings/rust/Cargo.toml").read_text(), re.M)[1]}
    number = int(re.search(r"^#define RESIDUAL_VERSION_NUMBER (\d+)", pathlib.Path("include/residual_refusals.h").read_text(), re.M)[1])
    versions["RESIDUAL_VERSION_NUMBER"] = f"{number // 10000}.{number // 100 % 100}.{number % 100}"
    proved = int(re.search(r"\bresult ≡ (\d+) \}", pathlib.Path("crates/c_api/src/version.rt").read_text(encoding="utf-8"))[1])
    versions["crates/c_api/src/version.rt"] = f"{proved // 10000}.{proved // 100 % 100}.{proved % 100}"
    versions["CHANGELOG.md"] = re.search(r"^## ([0-9.]+)", pathlib.Path("CHANGELOG.md").read_text(encoding="utf-8"), re.M)[1]
    for where, version in versions.items():
        if version != header.version:
            found.append(f"{where} has version {version}, and RESIDUAL_VERSION is {header.version}")


header = Header("include")
if sys.argv[1:] == ["--write"]:
    FFI.write_text(ffi(header), encoding="utf-8")
else:
    compare(header)
    for line in found:
        print(f"bindings: {line}")
    print(f"bindings: {len(header.functions)} functions, {len(header.structs)} records and {len(header.refusals)} rows compared, {len(found)} wrong")
    sys.exit(1 if found else 0)
