#!/usr/bin/env python3
"""Brings the names of definitions and lemmas to today's spelling, once, after port.py: words in snake case, types and modules as they are.

usage: spell_names.py [--table]      at the top of the repository; --table prints old and new names and changes nothing

A name that a file of specs/ or proofs/ declares turns: a lower-case name in camel case gets underscores, and a dash becomes an underscore but between two
defined words. Names bound to a goal of a proof by hand stay. Strings of .rt files stay."""
import collections
import glob
import re
import sys

MODS = r"(?:(?:abbrev|unfoldable|opaque|pub|instance|irreducible) )*"
DECL = re.compile(r"^(\s*)" + MODS + r"(record |data )?([^\s:(){}]+)((?: \(.*?\)| \{.*?\})*) :(?: (.*))?$")
TOKEN = re.compile(r"[^\s(){}.;,@\"«»\[\]|`/:\\*…⟨⟩#!&?=<>+%^~$λ∷×→≡≤∙]+")
STD = {"length", "append", "take", "drop", "map", "replicate", "get_or", "cond", "set", "min", "max", "clip3", "pow2"}
# names that no declaration of their own has: parameters, and imports under another name
LOCAL = ("sourceLength", "targetLength", "outLength", "thinLength", "defaultsRefused", "answerOutcome", "refusedWith", "inForce", "isDefault")
SYMBOL = re.compile(r"^[^A-Za-z0-9_']+ℤ?$|^.*[≤+*]ℤ?$")


def snake(part):
    if part[:1].isupper() or not re.search("[A-Z]", part):
        return part
    part = re.sub(r"([a-z0-9'])([A-Z])", r"\1_\2", part)
    return re.sub(r"([A-Z])([A-Z][a-z])", r"\1_\2", part).lower() if "ℤ" not in part else re.sub(r"[A-Z]", lambda m: m.group().lower(), part)


def declarations(path):
    for line in open(path):
        m = DECL.match(line)
        if m:
            yield m.group(1), m.group(3), m.group(5) or "", bool(m.group(2))


def main():
    specs = sorted(glob.glob("crates/*/specs/**/*.antt", recursive=True))
    lemmas = sorted(glob.glob("crates/*/proofs/*.antt"))
    walks = sorted(set(glob.glob("crates/*/proofs/*/**/*.antt", recursive=True)))
    defined, names, goals, everything = set(STD), set(), set(), set()
    written, stated, fields = set(), set(), set()
    for path in specs + lemmas + walks:
        for indent, name, kind, _ in declarations(path):
            everything.add(name)
            if path in specs and not indent:
                defined.add(name)
            if path in specs:
                written.add(name)
            if path in specs + lemmas:
                stated.add(name)
            if indent:
                fields.add(name)
            (goals if kind.startswith("tie.") else names).add(name)
    table = {}
    for name in sorted(names):
        if not re.search(r"[A-Z]|-", name) or name[:1].isupper() and "-" not in name:
            continue
        parts = name.replace("getD", "get_or").split("-")
        if any(p == "" for p in parts):
            continue
        new = snake(parts[0])
        for left, right in zip(parts, parts[1:]):
            both = (left in defined or SYMBOL.match(left)) and (right in defined or SYMBOL.match(right)) and parts[-1] != "spec"
            new += ("-" if both else "_") + snake(right)
        if new != name:
            table[name] = new
    for name in LOCAL:
        table[name] = snake(name)
    taken = collections.defaultdict(set)
    for name in everything:
        taken[table.get(name, name)].add(name)
    moved = {}
    for new, olds in sorted(taken.items()):
        if len(olds) > 1 and olds & written:
            # a lemma that would have its function's name gets _lem
            for old in sorted(olds - written):
                if old not in stated:
                    continue
                (table if old in table else moved)[old] = new + "_lem"
                print(f"look: {old} would fall together with {sorted(olds & written)}: {new}_lem", file=sys.stderr)
    if "--table" in sys.argv:
        for old, new in sorted(list(table.items()) + list(moved.items())):
            print(f"{old}\t{new}")
        return
    turned = 0
    for path in specs + lemmas + walks + sorted(glob.glob("crates/*/src/*.rt")):
        text = open(path).read()
        rust, walk = path.endswith(".rt"), path in walks
        here = {n for _, n, kind, _ in declarations(path) if kind.startswith("tie.")} if walk else set()
        rows = {k: v for k, v in table.items() if k not in here}
        if not rust:
            imported = set(re.findall(r"[^\s,{}]+", " ".join(re.findall(r"^use [^{\n]*\{([^}]*)\}", text, re.M))))
            own = {n for _, n, _, _ in declarations(path)}
            rows.update({k: v for k, v in moved.items() if k in imported or k in own})
        new = respell(text, rows, rust, {k for k in table if k not in fields and not re.search("[A-Z]", k)} | set(moved) if walk else set(moved))
        if new != text:
            open(path, "w").write(new)
            turned += 1
    print(f"spell_names: {len(table) + len(moved)} names, {turned} files")


IDENT = re.compile(r"(?<![\w'ℤ≤₀-₉-])(?:[^\W\d]|[+*<≤◌])(?:[\w'ℤ≤₀-₉+*-]*[\w'ℤ≤₀-₉])?")
STRING = re.compile(r'"(?:[^"\\\n]|\\.)*"')


# The names of `kept` stay behind a dot: there a walk names a step of the code.
def respell(text, table, rust, kept):
    def word(m):
        name = m.group()
        if name in kept and text_of[0][m.start() - 1 : m.start()] == ".":
            return name
        return table.get(name, name)

    text_of = [text]

    def piece(part):
        text_of[0] = part
        return IDENT.sub(word, part)

    if not rust:
        return piece(text)
    out, last = [], 0
    for m in STRING.finditer(text):
        out.append(piece(text[last : m.start()]))
        out.append(m.group())
        last = m.end()
    out.append(piece(text[last:]))
    return "".join(out)


if __name__ == "__main__":
    main()
