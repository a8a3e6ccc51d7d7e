#!/usr/bin/env python3
"""Writes the tables docs/figures/*.tsv into docs/FIGURES.md, and draws some of them as SVG pictures beside them, with logarithmic axes.
With --check it writes nothing, and ends with 1 where the page isn't as the tables say.

A table has lines `# KEY: TEXT` first: `commit`, of which the measured program is; `machine`; `by`, the script that measures it; and
`note`, if there is one. Then comes a line of heads, and a line for each row. In the page it stands between the lines
`<!-- made by bench/plots.py: NAME -->` and `<!-- end of bench/plots.py -->`, with where it is from below."""
import math
import os
import re
import sys

TOP = os.path.dirname(os.path.dirname(os.path.abspath(__file__)))
FOLDER = f"{TOP}/docs/figures"
PAGE = f"{TOP}/docs/FIGURES.md"
TITLES = {
    "command_by_size": ("an allocation, a store and a load: instructions", "fields of the block"),
    "full_major_by_blocks": ("a complete collection over a chain: instructions", "blocks that live"),
    "minor_by_domains": ("a minor collection with nothing to copy: microseconds", "domains"),
}
# Told apart by their dashes as by their colours.
STYLES = {"camlheap": ("#1f4e79", ""), "the twin": ("#777777", "6,3"), "OCaml 5": ("#b35900", "2,3")}
WIDTH, HEIGHT, LEFT, RIGHT, TOP_EDGE, BOTTOM = 480, 280, 64, 16, 36, 44
PART = re.compile(r"(<!-- made by bench/plots.py: (\w+) -->\n).*?(<!-- end of bench/plots.py -->\n)", re.S)


def read(name):
    """What is said of a table, its heads and its rows."""
    with open(f"{FOLDER}/{name}.tsv", encoding="utf-8") as it:
        lines = it.read().splitlines()
    said = dict(line[2:].split(": ", 1) for line in lines if line.startswith("# "))
    heads, *rows = [line.split("\t") for line in lines if not line.startswith("# ")]
    return said, heads, rows


def cell(text):
    """A cell as the page has it: a number of four digits and more gets commas."""
    return f"{int(text):,}" if text.isdigit() and len(text) > 3 else text


def source(said):
    """Where a table is from."""
    parts = [f"Commit {said['commit']}", said["machine"], f"by {said['by']}"]
    return "; ".join(parts) + "." + (f" {said['note']}" if "note" in said else "")


def table(name):
    said, heads, rows = read(name)
    lines = [f"| {' | '.join(heads)} |", "|" + "---|" * len(heads)]
    lines += [f"| {' | '.join(cell(it) for it in row)} |" for row in rows]
    return "\n".join([*lines, "", source(said), ""])


def page(text):
    """The page with each table as its file has it."""
    return PART.sub(lambda it: it[1] + table(it[2]) + it[3], text)


def scale(low, high, begin, end):
    a, b = math.log(low), math.log(high)
    return lambda v: begin + (math.log(v) - a) / (b - a) * (end - begin)


def short(v):
    return f"{v / 1e6:g}M" if v >= 1e6 else f"{v / 1e3:g}k" if v >= 1e3 else f"{v:g}"


def marks(low, high):
    """The numbers 1, 2 and 5 with as many noughts as lie between the two."""
    first = math.floor(math.log10(low))
    found = (m * 10.0**k for k in range(first, first + 12) for m in (1, 2, 5))
    return [v for v in found if low <= v <= high]


def text(x, y, anchor, it):
    return f'<text x="{x:.0f}" y="{y:.0f}" text-anchor="{anchor}">{it}</text>'


def picture(name, heads, rows):
    title, below = TITLES[name]
    rows = [[float(it) for it in row] for row in rows]
    values = [v for row in rows for v in row[1:]]
    low, high = min(values) / 1.4, max(values) * 1.4
    x = scale(rows[0][0], rows[-1][0], LEFT, WIDTH - RIGHT)
    y = scale(low, high, HEIGHT - BOTTOM, TOP_EDGE)
    out = [
        f'<svg xmlns="http://www.w3.org/2000/svg" width="{WIDTH}" height="{HEIGHT}" font-family="Helvetica,sans-serif" font-size="11">',
        f'<rect width="{WIDTH}" height="{HEIGHT}" fill="white"/>',
        text(WIDTH / 2, 16, "middle", title),
        text((LEFT + WIDTH - RIGHT) / 2, HEIGHT - 8, "middle", below),
    ]
    for v in marks(low, high):
        out.append(f'<line x1="{LEFT}" x2="{WIDTH - RIGHT}" y1="{y(v):.1f}" y2="{y(v):.1f}" stroke="#dddddd"/>')
        out.append(text(LEFT - 6, y(v) + 4, "end", short(v)))
    for row in rows:
        out.append(text(x(row[0]), HEIGHT - BOTTOM + 16, "middle", short(row[0])))
    for at, column in enumerate(heads[1:], 1):
        colour, dashes = STYLES[column]
        points = [(x(row[0]), y(row[at])) for row in rows]
        line = " ".join(f"{a:.1f},{b:.1f}" for a, b in points)
        out.append(f'<polyline points="{line}" fill="none" stroke="{colour}" stroke-width="2" stroke-dasharray="{dashes}"/>')
        out += [f'<circle cx="{a:.1f}" cy="{b:.1f}" r="3" fill="{colour}"/>' for a, b in points]
        key = TOP_EDGE + 6 + 15 * (at - 1)
        out.append(f'<line x1="{LEFT + 10}" x2="{LEFT + 40}" y1="{key}" y2="{key}" stroke="{colour}" stroke-width="2" stroke-dasharray="{dashes}"/>')
        out.append(text(LEFT + 46, key + 4, "start", column))
    return "\n".join(out + ["</svg>", ""])


def made():
    """What this script makes, by the files."""
    with open(PAGE, encoding="utf-8") as it:
        files = {PAGE: page(it.read())}
    for name in TITLES:
        _, heads, rows = read(name)
        files[f"{FOLDER}/{name}.svg"] = picture(name, heads, rows)
    return files


def is_as(path, it):
    if not os.path.exists(path):
        return False
    with open(path, encoding="utf-8") as file:
        return file.read() == it


def main():
    if sys.argv[1:] not in ([], ["--check"]):
        sys.exit("usage: bench/plots.py [--check]")
    stale = {path: it for path, it in made().items() if not is_as(path, it)}
    for path, it in stale.items():
        if sys.argv[1:]:
            print(f"{os.path.relpath(path, TOP)} isn't as the tables say: run bench/plots.py")
        else:
            with open(path, "w", encoding="utf-8") as out:
                out.write(it)
    sys.exit(1 if stale and sys.argv[1:] else 0)


if __name__ == "__main__":
    main()
