#!/usr/bin/env python3
"""Draws docs/drawings/*.svg: the crates by layer, from crates.txt; a tree with a path through a pointing block, from its bytes; a header and a record
byte by byte, from the same tree.

    docs/drawings/draw.py            # write the drawings
    docs/drawings/draw.py --check    # status 1 if one of them is not what would be written

Needs python3 and nothing else."""

import html
import re
import struct
import sys
from pathlib import Path

ROOT = Path(__file__).resolve().parents[2]
HERE = Path(__file__).resolve().parent
INK, LINE, KEPT, POINTS, PATH, SOFT = "#1c2430", "#8a94a3", "#cfe3f5", "#f9dcc0", "#c0392b", "#f4f6f9"
# a colour for each layer, in the order of crates.txt
LAYERS = ["#cfe3f5", "#dcd6f2", "#e6e9ee", "#f9dcc0", "#fdf0b8", "#cdeccf", "#f6cfd0", "#c9ecec", "#f3c9e4", "#ecd9c6", "#ffffff"]
STYLE = f"text{{font:13px system-ui,sans-serif;fill:{INK}}} .s{{font-size:11px}} .m{{font:12px ui-monospace,monospace}} .h{{font-weight:600}}"


class Svg:
    """Shapes, in the order in which they are drawn."""

    def __init__(self, width, height, title):
        self.size, self.title, self.parts = (width, height), title, []

    def box(self, x, y, w, h, fill, dash=False, stroke=LINE, wide=1):
        dashed = ' stroke-dasharray="4 3"' if dash else ""
        self.parts.append(f'<rect x="{x:g}" y="{y:g}" width="{w:g}" height="{h:g}" rx="3" fill="{fill}" stroke="{stroke}" stroke-width="{wide}"{dashed}/>')

    def text(self, x, y, words, kind="", anchor="start"):
        self.parts.append(f'<text x="{x:g}" y="{y:g}" class="{kind}" text-anchor="{anchor}">{html.escape(words)}</text>')

    def line(self, x1, y1, x2, y2, colour=LINE, wide=1, arrow=False):
        head = ' marker-end="url(#a)"' if arrow else ""
        self.parts.append(f'<path d="M{x1:g} {y1:g}L{x2:g} {y2:g}" stroke="{colour}" stroke-width="{wide}" fill="none"{head}/>')

    def curve(self, x1, y1, x2, y2, bend, colour, wide):
        self.parts.append(f'<path d="M{x1:g} {y1:g}C{x1:g} {y1 + bend:g} {x2:g} {y2 + bend:g} {x2:g} {y2:g}" stroke="{colour}" stroke-width="{wide}" fill="none" marker-end="url(#a)"/>')

    def done(self):
        w, h = self.size
        arrow = "".join(
            f'<marker id="{name}" viewBox="0 0 8 8" refX="7" refY="4" markerWidth="7" markerHeight="7" orient="auto"><path d="M0 0L8 4L0 8z" fill="{colour}"/></marker>'
            for name, colour in (("a", PATH), ("b", LINE))
            if name == "a" or any(f"url(#{name})" in part for part in self.parts)
        )
        head = f'<svg xmlns="http://www.w3.org/2000/svg" viewBox="0 0 {w} {h}" width="{w}" height="{h}" role="img"><title>{html.escape(self.title)}</title>'
        return "\n".join([head, f"<style>{STYLE}</style><defs>{arrow}</defs>", f'<rect width="{w}" height="{h}" fill="white"/>', *self.parts, "</svg>", ""])


# ---- the crates

def crates():
    """Each crate with what it depends on, and its layer: the heading above it in crates.txt, up to the first punctuation mark."""
    found, layer, fresh = {}, "", True
    for line in (ROOT / "crates.txt").read_text().splitlines():
        if line.startswith("# ") and fresh:
            layer, fresh = re.split(r"[:.;,]", line[2:])[0], False
        elif not line.strip():
            fresh = True
        elif not line.startswith("#"):
            name, _, below = line.partition(":")
            found[name.split(" ")[0]] = (layer, below.split())  # `staticlib` may follow the name
    return found


def depths(found):
    """The height of each crate above the lowest ones; a circle is an error."""
    depth = {}

    def of(name, above):
        if name in above:
            raise SystemExit(f"crates.txt goes in a circle: {' '.join([*above, name])}")
        if name not in depth:
            depth[name] = 1 + max((of(below, [*above, name]) for below in found[name][1] if below in found), default=-1)
        return depth[name]

    for name in found:
        of(name, [])
    return depth


def needed(found):
    """The arrows: for each crate the crates that it depends on and does not reach through another."""
    reached = {}

    def below(name):
        if name not in reached:
            direct = [dep for dep in found[name][1] if dep in found]
            reached[name] = set(direct).union(*(below(dep) for dep in direct), set())
        return reached[name]

    for name in found:
        below(name)
    return {name: [dep for dep in found[name][1] if dep in found and not any(dep in reached[other] for other in found[name][1] if other in found)] for name in found}


def heights(found):
    """The row of each crate, counted from below: as low as possible, then as close as possible below the lowest crate that needs it."""
    height = depths(found)
    for name in sorted(found, key=lambda name: -height[name]):
        above = [height[other] for other in found if name in found[other][1]]
        height[name] = max([height[name], min(above) - 1] if above else [height[name]])
    return height


def apart(row, wish, sizes, width):
    """The centres of a row's nodes, in order and without overlap, as near as possible to the wanted places (isotonic regression)."""
    starts, at = [], 0
    for node in row:
        starts.append(at + sizes[node] / 2)
        at += sizes[node]
    groups = []
    for node, start in zip(row, starts):
        groups.append([wish[node] - start, 1])
        while len(groups) > 1 and groups[-2][0] > groups[-1][0]:
            (a, n), (b, m) = groups[-2:]
            groups[-2:] = [[(a * n + b * m) / (n + m), n + m]]
    moved = [min(max(value, 0), width - at) for value, count in groups for _ in range(count)]
    return {node: start + by for node, start, by in zip(row, starts, moved)}


def places(rows, links, sizes, width):
    """The centre of each node. Nodes of a row are repeatedly ordered and moved towards the nodes that they are linked with, and never overlap."""
    middle = {}
    for row in rows:
        gap = (width - sum(sizes[node] for node in row)) / len(row)
        x = gap / 2
        for node in row:
            middle[node] = x + sizes[node] / 2
            x += sizes[node] + gap
    for turn in range(60):
        for row in rows if turn % 2 else reversed(rows):
            wish = {node: sum(middle[other] for other in links[node]) / len(links[node]) if links[node] else middle[node] for node in row}
            row.sort(key=lambda node: wish[node])
            middle.update(apart(row, wish, sizes, width))
    return middle


def draw_crates():
    found = crates()
    height, arrows = heights(found), needed(found)
    rows = [[name for name in found if height[name] == h] for h in range(max(height.values()) + 1)]
    sizes = {name: 24 + 6.4 * len(name) for name in found}
    # an arrow over several rows has a bend, a node of its own, in each row that it passes
    links, ways = {name: [] for name in found}, []
    for name, below in arrows.items():
        for dep in below:
            bends = [(name, dep, h) for h in range(height[name] - 1, height[dep], -1)]
            way = [name, *bends, dep]
            for bend in bends:
                rows[bend[2]].append(bend)
                links[bend], sizes[bend] = [], 10
            for one, other in zip(way, way[1:]):
                links[one].append(other)
                links[other].append(one)
            ways.append(way)
    layers = list(dict.fromkeys(layer for layer, _ in found.values()))
    width, step, top, tall = 1060, 58, 76, 24
    middle = places(rows, links, sizes, width - 32)
    svg = Svg(width, top + step * len(rows), "The crates, and what each depends on")
    svg.text(16, 26, "The crates, and what each depends on: an arrow for each crate that it reaches by no other way; all arrows go down", "h")
    x = 16
    for layer in layers:
        svg.box(x, 40, 14, 14, LAYERS[layers.index(layer) % len(LAYERS)])
        svg.text(x + 18, 51, layer, "s")
        x += 34 + 6.1 * len(layer)
    svg.text(16, 70, "dashed: no functions", "s")

    def spot(node):
        h = height[node] if node in height else node[2]
        return 16 + middle[node], top + step * (len(rows) - 1 - h)

    for way in ways:
        (x, y), parts = spot(way[0]), []
        parts.append(f"M{x:.0f} {y + tall}")
        y += tall
        for node in way[1:]:
            x2, y2 = spot(node)
            half = (y2 - y) / 2
            parts.append(f"C{x:.0f} {y + half:g} {x2:.0f} {y2 - half:g} {x2:.0f} {y2:g}")
            x, y = x2, y2
            if node in height:
                break
            parts.append(f"V{y + tall}")
            y += tall
        svg.parts.append(f'<path d="{"".join(parts)}" stroke="{LINE}" stroke-width="0.9" fill="none" marker-end="url(#b)"/>')
    for name in found:
        x, y = spot(name)
        source = ROOT / "crates" / name / "src"
        code = any(" fn " in f" {line}" for f in source.glob("*.rt") for line in f.read_text().splitlines() if not line.lstrip().startswith("//"))
        w = sizes[name] - 12
        svg.box(x - w / 2, y, w, tall, LAYERS[layers.index(found[name][0]) % len(LAYERS)], dash=not code)
        svg.text(x, y + 16, name, "s", "middle")
    return svg.done()


# ---- a tree

class Tree:
    """A tree's bytes, read by docs/FORMAT.md."""

    def __init__(self, data):
        self.data = data
        self.layout, self.n, self.m, self.r, self.levels, self.k = (self.word(4 * i) for i in range(6))
        self.counted = data[24:24 + self.k]
        self.counts = [(self.word(28 + 8 * i), self.word(32 + 8 * i)) for i in range(self.levels)]
        self.leaf, self.leaves = self.word(92), self.word(96)
        self.record = 16 + 12 * self.k + (2 * self.m if self.layout == 2 else 0)

    def word(self, at):
        return struct.unpack_from("<I", self.data, at)[0]

    def length(self, level):
        return self.m * self.r ** (self.levels - 1 - level)

    def fields(self, level, i):
        return [self.word(self.counts[level][1] + i * self.record + 4 * f) for f in range(4 + 3 * self.k)]

    def path(self, p):
        """The blocks entered on the path of place p: level, block, place in it."""
        level, block, place, steps = 0, p // self.length(0), p % self.length(0), []
        while True:
            steps.append((level, block, place))
            _, kind, link, gap = self.fields(level, block)[:4]
            if kind == 1:
                block, place = (link, gap + place) if gap + place < self.length(level) else (link + 1, gap + place - self.length(level))
                steps.append((level, block, place))
                link = self.fields(level, block)[2]
            if level + 1 == self.levels:
                return steps, link + place
            below = self.length(level + 1)
            level, block, place = level + 1, link + place // below, place % below

    def text(self):
        return bytes(self.data[self.leaf + self.path(p)[1]] for p in range(self.n))


def draw_tree(tree, place):
    cell, left, top, gap = 40, 120, 92, 92
    svg = Svg(left + cell * tree.n + 24, top + gap * tree.levels + 130, "The worked book's tree, and the path of a place")
    steps, leaf = tree.path(place)
    text = tree.text().decode("latin-1")
    svg.text(16, 26, f"The tree of {text} (leaf {tree.m}, arity {tree.r}, levels {tree.levels}), and the path of place {place}, byte {text[place]}", "h")
    svg.text(16, 46, "kept blocks: blue; blocks that point: orange, dashed. Red: the blocks entered, in their order", "s")
    for p, byte in enumerate(text):
        x = left + cell * p
        svg.text(x + cell / 2, top - 8, byte, "m", "middle")
        svg.text(x + cell / 2, top - 24, str(p), "s", "middle")
    entered = {(level, block): number for number, (level, block, _) in enumerate(steps)}
    centre = {}
    for level in range(tree.levels):
        y = top + gap * level
        svg.text(16, y + 24, f"level {level}", "h")
        svg.text(16, y + 40, f"b = {tree.length(level)}", "s")
        for i in range(tree.counts[level][0]):
            start, kind, link, gap_in = tree.fields(level, i)[:4]
            size = min(tree.length(level), tree.n - start)
            x = left + cell * start
            on = (level, i) in entered
            svg.box(x + 2, y, cell * size - 4, 48, POINTS if kind else KEPT, dash=bool(kind), stroke=PATH if on else LINE, wide=2.5 if on else 1)
            svg.text(x + cell * size / 2, y + 20, f"block {i}", "s", "middle")
            svg.text(x + cell * size / 2, y + 36, f"to {link} + {gap_in}" if kind else f"link {link}", "s", "middle")
            centre[level, i] = (x + cell * size / 2, y)
    for (level, block, _), (level2, block2, _) in zip(steps, steps[1:]):
        (x1, y1), (x2, y2) = centre[level, block], centre[level2, block2]
        if level == level2:
            svg.curve(x1, y1 + 48, x2, y2 + 50, 34, PATH, 2)
        else:
            svg.line(x1, y1 + 48, x2, y2 - 2, PATH, 2, True)
    y = top + gap * tree.levels
    svg.text(16, y + 24, "leaf bytes", "h")
    for i in range(tree.leaves):
        on = i == leaf
        svg.box(left + cell * i + 2, y, cell - 4, 34, "white", stroke=PATH if on else LINE, wide=2.5 if on else 1)
        svg.text(left + cell * i + cell / 2, y + 22, chr(tree.data[tree.leaf + i]), "m", "middle")
    level, block, _ = steps[-1]
    svg.line(centre[level, block][0], centre[level, block][1] + 48, left + cell * leaf + cell / 2, y - 2, PATH, 2, True)
    svg.text(16, y + 68, f"{len(steps)} blocks entered: " + ", ".join(f"level {l} block {b} at {o}" for l, b, o in steps) + f"; leaf byte {leaf}", "s")
    return svg.done()


# ---- the header and a record, byte by byte

def draw_bytes(tree):
    header = [("layout", 4), ("n", 4), ("m leaf", 4), ("r arity", 4), ("H levels", 4), ("k", 4), ("counted", 4)]
    for level in range(8):
        header += [(f"blocks {level}", 4), (f"offset {level}", 4)]
    header += [("leaf offset", 4), ("leaf count", 4)]
    record = [("start", 4), ("kind", 4), ("link", 4), ("gap", 4)]
    for c in range(tree.k):
        record += [(f"before {c}", 4), (f"inside {c}", 4), (f"skip {c}", 4)]
    if tree.layout == 2:
        record += [("first edge", tree.m), ("last edge", tree.m)]
    width, height = 1080, 84
    per = 100
    rows = -(-len(header) // 10)
    svg = Svg(width, 72 + height * rows + 70 + height * -(-len(record) // 10) + 24, "The header and a record, byte by byte")
    svg.text(16, 26, "The header of the worked book's tree: 100 bytes, words of four bytes, lowest first", "h")

    def strip(fields, base, y, first):
        at = first
        for i, (name, size) in enumerate(fields):
            x, row = 16 + per * (i % 10) * 1.05, y + height * (i // 10)
            svg.box(x, row, per, 58, KEPT if i % 2 else SOFT)
            svg.text(x + per / 2, row + 17, name, "h s", "middle")
            raw = tree.data[base + at - first:base + at - first + size]
            svg.text(x + per / 2, row + 35, " ".join(f"{b:02x}" for b in raw), "m", "middle")
            value = f"= {int.from_bytes(raw, 'little')}" if size == 4 and name != "counted" and "edge" not in name else repr(bytes(raw).rstrip(b'\0').decode("latin-1"))
            svg.text(x + per / 2, row + 51, value, "s", "middle")
            svg.text(x, row - 3, str(at), "s")
            at += size
        return y + height * -(-len(fields) // 10)

    y = strip(header, 0, 52, 0)
    last = tree.counts[0][0] - 1
    svg.text(16, y + 26, f"The record of block {last} of level 0, which points: {tree.record} bytes, from {tree.counts[0][1] + last * tree.record}", "h")
    strip(record, tree.counts[0][1] + last * tree.record, y + 50, 0)
    return svg.done()


def main():
    tree = Tree((ROOT / "conformance/good/cases-T2-1.tree").read_bytes())
    drawings = {"crates.svg": draw_crates(), "tree.svg": draw_tree(tree, 18), "bytes.svg": draw_bytes(tree)}
    stale = [name for name, svg in drawings.items() if not (HERE / name).exists() or (HERE / name).read_text() != svg]
    if "--check" in sys.argv:
        if stale:
            raise SystemExit(f"not current: {', '.join(stale)}; run docs/drawings/draw.py")
        return
    for name in stale:
        (HERE / name).write_text(drawings[name])
        print(f"docs/drawings/{name}")


if __name__ == "__main__":
    main()
