#!/usr/bin/env python3
"""Statements that stand in two files under whatever names. A statement is a signature `name : type` with its bound names taken by the order in
which they come, so that `(n i : ℕ) → i < n` and `(k j : ℕ) → j < k` are one. Prints each with the places where it stands; tests/lint.py holds
the number down. A short statement, or one that says nothing of its variables, may well stand twice."""
import pathlib
import re

HEAD = re.compile(r"(?:(?:unfoldable|abbrev|pub|private) )*([^\s:(){}]+) : (.+)")
WORD = re.compile(r"[^\s(){}.,;λ∷]+")
FACT = re.compile(r"[≡≤<]|Within|Fits")
SHORTEST = 25


def signatures(path):
    """Name, type and line of each declaration that begins a line; what is indented under it belongs to it."""
    lines = path.read_text().split("\n")
    for number, line in enumerate(lines, 1):
        head = HEAD.fullmatch(line)
        if not head or line.startswith(("--", "use ")):
            continue
        text = [head[2]]
        for more in lines[number:]:
            if not more.startswith(" "):
                break
            text.append(more.strip())
        yield head[1], " ".join(text), number


def statement(text):
    """A type with its bound names by their order, or nothing where it is no fact of variables."""
    bound = [name for group in re.findall(r"[({]([^(){}:]+) :", text) for name in group.split()]
    bound += re.findall(r"λ (\S+?)\.", text)
    order = {name: f"v{at}" for at, name in enumerate(dict.fromkeys(bound))}
    plain = " ".join(WORD.sub(lambda word: order.get(word[0], word[0]), text).split())
    return plain if order and FACT.search(plain) and len(plain) >= SHORTEST else None


def repeated(root=pathlib.Path("crates")):
    """Each statement of more than one file, with its names and places."""
    places = {}
    for path in sorted(root.glob("*/proofs/**/*.antt")) + sorted(root.glob("*/specs/**/*.antt")):
        if path.name in ("Invariants.antt", "Answers.antt", "Proof.antt") or "declared" in path.parts:
            continue
        for name, text, number in signatures(path):
            plain = statement(text)
            if plain:
                places.setdefault(plain, []).append((name, path, number))
    return {plain: at for plain, at in places.items() if len({path for _, path, _ in at}) > 1}


if __name__ == "__main__":
    found = repeated()
    for plain, at in sorted(found.items(), key=lambda item: (-len(item[1]), item[0])):
        print(plain)
        for name, path, number in at:
            print(f"    {name}  {path}:{number}")
    print(f"{len(found)} statements stand more than once")
