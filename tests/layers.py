#!/usr/bin/env python3
"""The layers of the crates as a picture, docs/layers.svg, made from crates.txt: a crate stands one row below the lowest crate that it builds on.
A line goes to each crate that it builds on, but where another on the way does already. Programs of cases are left out. tests/lint.py asks whether
the picture is what this makes."""
import pathlib
import sys

PICTURE = pathlib.Path("docs/layers.svg")
LETTER, PAD, GAP, BOX, ROW, EDGE = 7.3, 9, 16, 24, 74, 20
FILL = {"internal": "#e8e8e8", "library": "#cfe3f7", "program": "#f7e6c4"}
SAYS = {"internal": "internal", "library": "entry points, or definitions", "program": "program"}


def crates():
    """Each crate of crates.txt in its order, with the crates of the repository that it builds on and what its comment says."""
    listed = {}
    for line in pathlib.Path("crates.txt").read_text().split("\n"):
        body, _, note = line.partition("#")
        head, colon, on = body.partition(":")
        if colon:
            # behind a name may stand what is made of it, as `staticlib`
            listed[head.split()[0]] = (on.split(), note.strip())
    return {name: ([on for on in builds if on in listed], note) for name, (builds, note) in listed.items()}


def program(name):
    return pathlib.Path("crates", name, "src", "main.rt").exists()


def kind(name, note):
    return "program" if program(name) else "internal" if note.startswith("internal") else "library"


def reach(name, builds):
    """All that a crate stands on."""
    below = set()
    for on in builds[name]:
        below |= {on} | reach(on, builds)
    return below


def rows(builds):
    """The crates of each layer, in an order that keeps lines short."""
    depth = {}
    for name in builds:
        depth[name] = 1 + max((depth[on] for on in builds[name]), default=-1)
    layers = [[name for name in builds if depth[name] == at] for at in range(max(depth.values()) + 1)]
    for _ in range(12):
        place = {name: (at + 0.5) / len(layer) for layer in layers for at, name in enumerate(layer)}
        for layer in layers[1:]:
            layer.sort(key=lambda name: sum(place[on] for on in builds[name]) / len(builds[name]))
            place.update({name: (at + 0.5) / len(layer) for at, name in enumerate(layer)})
    return layers


def boxes(layers):
    """Left, top and width of each crate's box, rows centred."""
    wide = {name: round(len(name) * LETTER) + 2 * PAD for layer in layers for name in layer}
    widths = [sum(wide[name] for name in layer) + GAP * (len(layer) - 1) for layer in layers]
    page = max(widths) + 2 * EDGE
    at = {}
    for row, (layer, width) in enumerate(zip(layers, widths)):
        x = (page - width) // 2
        for name in layer:
            at[name] = (x, EDGE + row * ROW, wide[name])
            x += wide[name] + GAP
    return at, page, EDGE + len(layers) * ROW


def svg():
    listed = {name: entry for name, entry in crates().items() if not name.endswith("cases")}
    builds = {name: [on for on in on_these if on in listed] for name, (on_these, _) in listed.items()}
    direct = {name: [on for on in on_these if not any(on in reach(other, builds) for other in on_these)] for name, on_these in builds.items()}
    at, width, height = boxes(rows(direct))
    out = [
        f'<svg xmlns="http://www.w3.org/2000/svg" width="{width}" height="{height + 30}" viewBox="0 0 {width} {height + 30}" '
        'font-family="monospace" font-size="12">',
        "<title>The crates in layers: each builds only on those above it</title>",
        f'<rect width="{width}" height="{height + 30}" fill="#ffffff"/>',
    ]
    for name, on_these in direct.items():
        x, y, wide = at[name]
        for on in on_these:
            left, top, other = at[on]
            a, b, c, d = left + other // 2, top + BOX, x + wide // 2, y
            out.append(f'<path d="M{a} {b} C{a} {b + 26} {c} {d - 26} {c} {d}" fill="none" stroke="#8a8a8a" stroke-width="0.8"/>')
    for name, (x, y, wide) in at.items():
        fill = FILL[kind(name, listed[name][1])]
        out.append(f'<rect x="{x}" y="{y}" width="{wide}" height="{BOX}" rx="4" fill="{fill}" stroke="#555555" stroke-width="0.8"/>')
        out.append(f'<text x="{x + wide // 2}" y="{y + 16}" text-anchor="middle">{name}</text>')
    x = EDGE
    for sort, says in SAYS.items():
        out.append(f'<rect x="{x}" y="{height}" width="14" height="14" rx="3" fill="{FILL[sort]}" stroke="#555555" stroke-width="0.8"/>')
        out.append(f'<text x="{x + 20}" y="{height + 11}">{says}</text>')
        x += 40 + round(len(says) * LETTER)
    return "\n".join(out + ["</svg>", ""])


if __name__ == "__main__":
    if sys.argv[1:] == ["--check"]:
        sys.exit(0 if PICTURE.exists() and PICTURE.read_text() == svg() else f"{PICTURE} is not what crates.txt says: run tests/layers.py")
    PICTURE.write_text(svg())
