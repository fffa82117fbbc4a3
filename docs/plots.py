#!/usr/bin/env python3
"""plots.py [--check]: draws each table of docs/BENCHMARKS.md whose cells are 'time / instructions' as docs/plots/NAME.svg.

With --check nothing is written: it fails where a plot is not what its table says, or where the page does not show it.
"""
import html
import pathlib
import re
import sys

DOCS = pathlib.Path(__file__).resolve().parent
PAGE, FOLDER = DOCS / "BENCHMARKS.md", DOCS / "plots"
CELL = re.compile(r"([0-9.]+) / ([0-9.]+)")
# told apart also by those who do not see red and green alike
COLOURS = ("#0072b2", "#e69f00", "#009e73", "#cc79a7", "#56b4e9")
LEFT, WIDTH, ROW, TOP, RIGHT = 370, 420, 28, 74, 30
STYLE = """
    text { font: 12px sans-serif; fill: #222 } .name { font: 11px monospace } .head { font: bold 14px sans-serif }
    .line { stroke: #ccc } .one { stroke: #222; stroke-dasharray: 4 3 } .paper { fill: #fff }
    @media (prefers-color-scheme: dark) { text { fill: #ddd } .line { stroke: #444 } .one { stroke: #ddd } .paper { fill: #161616 } }
"""


def tables(text):
    """Heading, column names and rows of each table of the page that can be drawn."""
    for part in re.split(r"^## ", text, flags=re.M)[1:]:
        heading, lines = part.split("\n", 1)[0], [line for line in part.split("\n") if line.startswith("|")]
        rows = [[cell.strip(" `") for cell in line.strip("|").split("|")] for line in lines]
        if len(rows) > 2 and any(CELL.fullmatch(cell) for row in rows[2:] for cell in row[1:]):
            yield heading, rows[0][1:], [(row[0], [tuple(map(float, CELL.fullmatch(cell).groups())) if CELL.fullmatch(cell) else None for cell in row[1:]]) for row in rows[2:]]


def slug(heading):
    return re.sub(r"[^a-z0-9]+", "-", heading.lower()).strip("-")


def drawn(heading, columns, rows):
    most = max(max(pair) for _, cells in rows for pair in cells if pair)
    top = max(1.2, most * 1.05)
    at = lambda value: LEFT + WIDTH * value / top  # noqa: E731
    height = TOP + ROW * len(rows) + 34
    parts = [f'<svg xmlns="http://www.w3.org/2000/svg" width="{LEFT + WIDTH + RIGHT}" height="{height}" viewBox="0 0 {LEFT + WIDTH + RIGHT} {height}" role="img">']
    parts += [f"<title>{html.escape(heading)}</title>", "<desc>Drawn by docs/plots.py from the table of the same heading in docs/BENCHMARKS.md.</desc>", f"<style>{STYLE}</style>", '<rect class="paper" width="100%" height="100%"/>']
    parts.append(f'<text class="head" x="12" y="22">{html.escape(heading)}</text>')
    x = 12
    for index, column in enumerate(columns):
        parts.append(f'<circle cx="{x + 5}" cy="42" r="5" fill="{COLOURS[index % 5]}"/><text x="{x + 15}" y="46">{html.escape(column)}</text>')
        x += 36 + 7 * len(column)
    parts.append(f'<circle cx="{x + 13}" cy="42" r="4.5" fill="#888"/><text x="{x + 23}" y="46">time</text><circle cx="{x + 69}" cy="42" r="4" fill="none" stroke="#888" stroke-width="1.6"/><text x="{x + 79}" y="46">instructions</text>')
    tick, end = 0.0, TOP + ROW * len(rows)
    step = 0.2 if top <= 2.4 else 0.5
    while tick <= top + 1e-9:
        kind = "one" if abs(tick - 1) < 1e-9 else "line"
        parts.append(f'<line class="{kind}" x1="{at(tick):.1f}" x2="{at(tick):.1f}" y1="{TOP - 8}" y2="{end}"/><text x="{at(tick):.1f}" y="{end + 16}" text-anchor="middle">{tick:.1f}</text>')
        tick += step
    for number, (name, cells) in enumerate(rows):
        y = TOP + ROW * number + ROW / 2 - 4
        parts.append(f'<text class="name" x="{LEFT - 12}" y="{y + 4:.0f}" text-anchor="end">{html.escape(name)}</text>')
        for index, pair in enumerate(cells):
            if pair:
                # columns side by side in the row, so that equal values stay apart
                line = y + (index - (len(columns) - 1) / 2) * 4
                told = f"{html.escape(name)}, {html.escape(columns[index])}"
                parts.append(f'<circle cx="{at(pair[0]):.1f}" cy="{line:.1f}" r="4.5" fill="{COLOURS[index % 5]}"><title>{told}: time {pair[0]}</title></circle>')
                parts.append(f'<circle cx="{at(pair[1]):.1f}" cy="{line:.1f}" r="4" fill="none" stroke="{COLOURS[index % 5]}" stroke-width="1.6"><title>{told}: instructions {pair[1]}</title></circle>')
    return "\n".join(parts + ["</svg>", ""])


def main():
    page, wrong, names = PAGE.read_text(encoding="utf-8"), [], set()
    for heading, columns, rows in tables(page):
        path = FOLDER / (slug(heading) + ".svg")
        names.add(path.name)
        text = drawn(heading, columns, rows)
        if f"(plots/{path.name})" not in page:
            wrong.append(f"docs/BENCHMARKS.md does not show plots/{path.name}")
        if sys.argv[1:] == ["--check"]:
            if not path.is_file() or path.read_text(encoding="utf-8") != text:
                wrong.append(f"docs/plots/{path.name} is not what its table says: python3 docs/plots.py")
        else:
            FOLDER.mkdir(exist_ok=True)
            path.write_text(text, encoding="utf-8")
    wrong += [f"docs/plots/{path.name} belongs to no table" for path in FOLDER.glob("*.svg") if path.name not in names]
    for line in wrong:
        print(f"plots: {line}")
    print(f"plots: {len(names)} tables, {len(wrong)} wrong")
    return 1 if wrong else 0


sys.exit(main())
