#!/usr/bin/env python3
"""Draws the pictures of the pages anew: docs/pictures/make.py [NAME..]. Each picture is a strip of frames side by side, in which
a box keeps its place from frame to frame.

NAME.strip has scripts, which the program heap_picture draws: a line `= CAPTION` begins a frame, whose script is that of the
frame before with the lines below it added, or, behind `=2 CAPTION`, that of the second frame. Two lines before each script say
that it is of version 1 and has one domain.

NAME.dot is drawn by hand: a graph, and behind it frames that begin with `= CAPTION`, each with the nodes and the arrows that it
adds to the graph or draws otherwise.

Wants the command dot, which is Graphviz's, and builds heap_picture first where that is needed; with --try, without its proof."""
import argparse
import os
import re
import subprocess
import sys

HERE = os.path.dirname(os.path.abspath(__file__))
TOP = os.path.dirname(os.path.dirname(HERE))
# The widest row of frames, in points, and the room around a frame and for its caption.
WIDEST, GAP, CAPTION = 1000, 18, 20
NODE = re.compile(r'^  ("[^"]+"|\w+) \[(.*)\];$')
ARROW = re.compile(r'^  ("[^"]+"|\w+)(:\w+)? -> ("[^"]+"|\w+)(:\w+)?(?: \[(.*)\])?;$')


class Frame:
    """What one frame draws besides what all have: nodes with their attributes, and arrows with theirs."""

    def __init__(self, caption, lines):
        self.caption, self.nodes, self.arrows = caption, {}, {}
        for line in lines:
            if node := NODE.match(line):
                self.nodes[node[1]] = node[2]
            elif arrow := ARROW.match(line):
                ends = (arrow[1] + (arrow[2] or ""), arrow[3] + (arrow[4] or ""))
                self.arrows[ends] = arrow[5] or ""
            elif line.strip():
                sys.exit(f"make.py: a frame has the line {line!r}")


def cells(attributes):
    """The cells of a node's label by their ports, and the rest of its attributes."""
    label = re.search(r'label="([^"]*)"', attributes)
    parts = label[1].split("|") if label else [""]
    named = [re.match(r"<(\w+)> ?(.*)", it) for it in parts]
    ports = {it[1]: it[2] for it in named if it}
    plain = [part for part, it in zip(parts, named) if not it]
    return plain, ports, re.sub(r'label="[^"]*"', "", attributes).strip(" ,").replace(", ,", ",")


def in_order(ports):
    """Ports of one kind by their numbers, and the kinds as they come."""
    kinds = list(dict.fromkeys(it.rstrip("0123456789") for it in ports))
    return sorted(dict.fromkeys(ports), key=lambda it: (kinds.index(it.rstrip("0123456789")), int("0" + it.lstrip("abcdefghijklmnopqrstuvwxyz"))))


class Strip:
    """The frames of a picture over a graph that all have, with the nodes and the arrows of each put in one order."""

    def __init__(self, graph, frames):
        self.graph, self.frames = graph, frames
        self.nodes = list(dict.fromkeys(it for frame in frames for it in frame.nodes))
        self.arrows = list(dict.fromkeys(it for frame in frames for it in frame.arrows))
        self.ports = {node: in_order([port for it in frames if node in it.nodes for port in cells(it.nodes[node])[1]]) for node in self.nodes}
        self.sizes = {}

    def attributes(self, node, frame):
        """How a frame draws a node: with a cell for each port that it has in any frame. What it doesn't draw takes its room unseen."""
        given = frame.nodes.get(node) or next(it.nodes[node] for it in self.frames if node in it.nodes)
        plain, ports, rest = cells(given)
        label = "|".join([*plain, *[f"<{p}> {ports.get(p, '')}" for p in self.ports[node]]])
        size = [f"width={self.sizes[node][0]}, height={self.sizes[node][1]}"] if node in self.sizes else []
        unseen = [] if node in frame.nodes else ["style=invis"]
        return ", ".join([f'label="{label}"', *([rest] if rest else []), *size, *unseen])

    def text(self, frame):
        """A frame as text for dot."""
        lines = [f"  {node} [{self.attributes(node, frame)}];" for node in self.nodes]
        for ends in self.arrows:
            how = frame.arrows.get(ends, "style=invis")
            lines.append(f"  {ends[0]} -> {ends[1]}{f' [{how}]' if how else ''};")
        return "\n".join([self.graph.rstrip()[:-1].rstrip(), *lines, "}\n"])

    def draw(self):
        """The picture. Each box is made as large as its largest, so that dot finds the same places for all frames."""
        for frame in self.frames:
            for node, (_, size) in places(self.text(frame)).items():
                known = self.sizes.get(node, (0, 0))
                self.sizes[node] = tuple(max(pair) for pair in zip(known, size))
        texts = [self.text(frame) for frame in self.frames]
        first = places(texts[0])
        for frame, text in zip(self.frames, texts):
            moved = [node for node, (at, _) in places(text).items() if max(abs(a - b) for a, b in zip(at, first[node][0])) > 0.02]
            if moved:
                sys.exit(f"make.py: in the frame '{frame.caption}' {', '.join(moved)} would move")
        return side_by_side([frame.caption for frame in self.frames], [run(["dot", "-Tsvg"], text) for text in texts])


def places(text):
    """Where dot puts each node, and how large it is, in inches."""
    found = {}
    for line in run(["dot", "-Tplain"], text).splitlines():
        if node := re.match(r'node ("[^"]+"|\S+) (\S+) (\S+) (\S+) (\S+) ', line):
            found[node[1]] = ((float(node[2]), float(node[3])), (float(node[4]), float(node[5])))
    return found


def run(words, text):
    return subprocess.run(words, input=text, stdout=subprocess.PIPE, check=True, text=True).stdout


def side_by_side(captions, pictures):
    """One SVG file of several, in rows that aren't too wide, each with its caption above. What changes with the version of dot alone is left out."""
    width = max(float(re.search(r'<svg width="(\d+)pt"', it)[1]) for it in pictures)
    width = max([width, *[6.4 * len(it) + 24 for it in captions]])
    height = max(float(re.search(r'height="(\d+)pt"', it)[1]) for it in pictures)
    a_row = max(1, min(len(pictures), int((WIDEST + GAP) // (width + GAP))))
    rows = -(-len(pictures) // a_row)
    wide, high = a_row * (width + GAP) + GAP, rows * (height + CAPTION + GAP) + GAP
    out = [f'<svg xmlns="http://www.w3.org/2000/svg" xmlns:xlink="http://www.w3.org/1999/xlink" width="{wide:.0f}" height="{high:.0f}">', f'<rect width="{wide:.0f}" height="{high:.0f}" fill="white"/>']
    for at, (caption, picture) in enumerate(zip(captions, pictures)):
        x, y = GAP + at % a_row * (width + GAP), GAP + at // a_row * (height + CAPTION + GAP)
        out.append(f'<rect x="{x - GAP / 2:.0f}" y="{y - GAP / 2:.0f}" width="{width + GAP:.0f}" height="{height + CAPTION + GAP:.0f}" fill="none" stroke="#cccccc"/>')
        out.append(f'<text x="{x:.0f}" y="{y + 8:.0f}" font-family="Helvetica,sans-Serif" font-size="11" font-weight="bold">{at + 1}. {caption}</text>')
        inner = re.search(r'<g id="graph0".*</g>', picture, re.S)[0]
        inner = re.sub(r"<!--.*?-->\n|<title>.*?</title>\n| (id|class)=\"[^\"]*\"", "", inner, flags=re.S)
        inner = re.sub(r'<polygon fill="white" stroke="(none|transparent|white)"[^>]*/>\n', "", inner, count=1)
        out.append(f'<g transform="translate({x:.0f} {y + CAPTION:.0f})">\n{inner}\n</g>')
    return "\n".join([*out, "</svg>", ""])


def sections(path):
    """What stands in a file before its first frame, and each frame's mark, caption and lines."""
    with open(path, encoding="utf-8") as it:
        before, *behind = re.split(r"^=(\d*) (.*)\n", it.read(), flags=re.M)
    return before, list(zip(behind[::3], behind[1::3], behind[2::3]))


def of_scripts(path, how):
    """The strip of the scripts in a file."""
    _, parts = sections(path)
    scripts, frames = [], []
    for mark, caption, lines in parts:
        before = scripts[int(mark) - 1] if mark else scripts[-1] if scripts else "heap 1\ndomain 0\n"
        scripts.append(before + lines)
        drawn = run([f"{TOP}/heap_picture", *how], scripts[-1]).splitlines()
        frames.append(Frame(caption, drawn[3:-1]))
    return Strip("\n".join([*drawn[:3], "}"]), frames)


def by_hand(path):
    """The strip of a graph that was drawn by hand."""
    graph, parts = sections(path)
    return Strip(graph, [Frame(caption, lines.splitlines()) for _, caption, lines in parts])


def main():
    reader = argparse.ArgumentParser(description=__doc__, formatter_class=argparse.RawDescriptionHelpFormatter)
    reader.add_argument("names", nargs="*", metavar="NAME")
    reader.add_argument("--try", action="store_const", const=["try"], default=[], dest="how")
    words = reader.parse_args()
    files = sorted(it for it in os.listdir(HERE) if it.endswith((".strip", ".dot")))
    for file in files:
        name, kind = os.path.splitext(file)
        if words.names and name not in words.names:
            continue
        strip = by_hand(f"{HERE}/{file}") if kind == ".dot" else of_scripts(f"{HERE}/{file}", words.how)
        with open(f"{HERE}/{name}.svg", "w", encoding="utf-8") as out:
            out.write(strip.draw())


if __name__ == "__main__":
    main()
