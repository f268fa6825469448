#!/usr/bin/env python3
"""Draws the pictures of docs/figures from crates.txt, from the tables of docs/measurements.md and from examples/cluster.

    scripts/figures.py            writes docs/figures/*.svg
    scripts/figures.py --check    writes nothing, and fails if a picture isn't what would be drawn
"""
import json
import math
import re
import sys
from html import escape
from pathlib import Path

ROOT = Path(__file__).resolve().parent.parent
FIGURES = ROOT / "docs/figures"
FONT = "font-family='DejaVu Sans, Helvetica, Arial, sans-serif'"
INK, SOFT, PALE = "#1f2933", "#5f6b76", "#eef2f6"
COLORS = ["#1f6fb4", "#c2541b", "#2e7d4f"]


class Drawing:
    def __init__(self, width, height):
        self.width, self.height, self.parts = width, height, []
        self.box(0, 0, width, height, "#ffffff", "none", 0)

    def box(self, x, y, width, height, fill=PALE, stroke=SOFT, radius=6):
        self.parts.append(f"<rect x='{x}' y='{y}' width='{width}' height='{height}' rx='{radius}' fill='{fill}' stroke='{stroke}'/>")

    def text(self, x, y, words, size=12, color=INK, anchor="start", weight="normal"):
        self.parts.append(
            f"<text x='{x:g}' y='{y:g}' {FONT} font-size='{size}' fill='{color}' text-anchor='{anchor}' font-weight='{weight}'>{escape(words)}</text>")

    def line(self, x1, y1, x2, y2, color=SOFT, width=1.0, dash=""):
        dashed = f" stroke-dasharray='{dash}'" if dash else ""
        self.parts.append(f"<line x1='{x1:g}' y1='{y1:g}' x2='{x2:g}' y2='{y2:g}' stroke='{color}' stroke-width='{width}'{dashed}/>")

    def arrow(self, x1, y1, x2, y2, color=INK):
        self.line(x1, y1, x2, y2, color, 1.4)
        angle = math.atan2(y2 - y1, x2 - x1)
        ends = [(x2 - 8 * math.cos(angle + turn), y2 - 8 * math.sin(angle + turn)) for turn in (0.45, -0.45)]
        points = " ".join(f"{x:.1f},{y:.1f}" for x, y in [(x2, y2)] + ends)
        self.parts.append(f"<polygon points='{points}' fill='{color}'/>")

    def dot(self, x, y, color):
        self.parts.append(f"<circle cx='{x:g}' cy='{y:g}' r='3.5' fill='{color}'/>")

    def svg(self, title):
        size = f"width='{self.width}' height='{self.height}' viewBox='0 0 {self.width} {self.height}'"
        return f"<svg xmlns='http://www.w3.org/2000/svg' {size} role='img'><title>{escape(title)}</title>\n" + "\n".join(self.parts) + "\n</svg>\n"


def layers_of():
    """The layers of crates.txt, lowest first: a comment's words, and the crates below it."""
    layers = []
    for line in (ROOT / "crates.txt").read_text().splitlines():
        if line.startswith("# ") and not line.startswith("# Crates,"):
            layers.append((line[2:].strip(), []))
        crate = re.match(r"(\w+):", line)
        if crate and layers:
            layers[-1][1].append(crate.group(1))
    return [layer for layer in layers if layer[1]]


def wrapped(words, limit):
    lines = [""]
    for word in words:
        if lines[-1] and len(lines[-1]) + 5 + len(word) > limit:
            lines.append("")
        lines[-1] += ("  ·  " if lines[-1] else "") + word
    return lines


def draw_layers():
    layers = list(reversed(layers_of()))
    rows = [wrapped(crates, 104) for _, crates in layers]
    heights = [44 + 18 * len(lines) for lines in rows]
    drawing = Drawing(760, 20 + sum(heights) + 14 * len(layers))
    y = 14
    for (title, _), lines, height in zip(layers, rows, heights):
        drawing.box(14, y, 732, height)
        drawing.text(28, y + 23, title, 14, weight="bold")
        for number, line in enumerate(lines):
            drawing.text(28, y + 45 + 18 * number, line, 12, SOFT)
        y += height + 14
    return drawing.svg("The layers of crates: each uses crates of its own layer and of those drawn below it")


STEPS = [
    ("folder or input", "bytes", "olm_folder, olm_io, fbc_read"),
    ("text", "blobs, one after another", "catalog_stream"),
    ("catalog", "packages, channels, bundles", "fbc_read"),
    ("checked catalog", "breaks none of V1 to V15", "fbc_check"),
    ("view", "one catalog, one subscription", "one_subscription, view_basis"),
    ("problem", "variables and constraints", "problem_build"),
]


def draw_resolve():
    drawing = Drawing(760, 560)
    y, left, width, height = 16, 130, 500, 48
    for number, (name, what, crates) in enumerate(STEPS):
        drawing.box(left, y, width, height)
        drawing.text(left + 14, y + 20, name, 13, weight="bold")
        drawing.text(left + 14, y + 38, what, 11, SOFT)
        drawing.text(left + width - 14, y + 29, crates, 12, SOFT, "end")
        if number + 1 < len(STEPS):
            drawing.arrow(left + width / 2, y + height, left + width / 2, y + height + 18)
        y += height + 18
    for x, color, rows in [
        (40, COLORS[0], [("resolve: search", "preference_search"), ("print it", "catalog_choice, answer_lines"), ("output and status", "olm_cli")]),
        (400, COLORS[1], [("verify: read a certificate", "derivations"), ("check it", "derivation_check"), ("one line and status", "answer_lines, olm_cli")]),
    ]:
        drawing.arrow(left + width / 2, y - 18, x + 160, y + 6, color)
        for number, (name, crates) in enumerate(rows):
            top = y + 6 + 46 * number
            drawing.box(x, top, 320, 38, "#ffffff", color)
            drawing.text(x + 12, top + 24, name, 12, weight="bold")
            drawing.text(x + 308, top + 24, crates, 11, SOFT, "end")
            if number:
                drawing.arrow(x + 160, top - 8, x + 160, top, color)
    return drawing.svg("The path of resolve and verify: both build the same problem; only resolve searches")


def event_words(event):
    """An event of a script in a few words."""
    word = event.get("event")
    if word is None:
        return "apply " + event["kind"] + " " + event["metadata"]["name"]
    return " ".join([word] + [event[key] for key in ("kind", "name") if key in event])


def draw_run():
    """The run of examples/cluster: each event, the write that it makes, and its line."""
    events = [json.loads(line) for line in (ROOT / "examples/cluster/events.json").read_text().splitlines()]
    lines = (ROOT / "examples/cluster/run.txt").read_text().splitlines()
    drawing = Drawing(980, 60 + 46 * len(events))
    for x, head in ((30, "events of the input"), (330, "writes in the cluster file"), (540, "lines printed")):
        drawing.text(x, 30, head, 13, weight="bold")
    last = None
    for number, (event, line) in enumerate(zip(events, lines)):
        y = 46 + 46 * number
        written = re.search(r"version (\d+)$", line)
        color = COLORS[0] if written else COLORS[1] if "refused" in line else SOFT
        drawing.box(20, y, 260, 34, "#ffffff", color)
        drawing.text(34, y + 22, event_words(event), 12)
        drawing.text(540, y + 22, line, 11, INK)
        if written:
            drawing.box(330, y, 150, 34)
            drawing.text(344, y + 22, "write " + written.group(1), 12, weight="bold")
            drawing.arrow(280, y + 17, 330, y + 17, color)
            drawing.arrow(480, y + 17, 532, y + 17, color)
            if last is not None:
                drawing.arrow(405, last + 34, 405, y)
            last = y
        else:
            drawing.line(280, y + 17, 532, y + 17, color, 1.2, "4 4")
    return drawing.svg("A run with its writes: an event writes once at most, and its line is printed after its write")


def table_of(head):
    """The rows of the first table of docs/measurements.md whose head begins with these cells."""
    lines = (ROOT / "docs/measurements.md").read_text().splitlines()
    for number, line in enumerate(lines):
        cells = [cell.strip() for cell in line.strip("|").split("|")]
        if cells[:len(head)] == head:
            rows = []
            for row in lines[number + 2:]:
                if not row.startswith("|"):
                    break
                rows.append([cell.strip() for cell in row.strip("|").split("|")])
            return rows
    sys.exit(f"docs/measurements.md has no table that begins with {head}")


def number_in(cell):
    found = re.search(r"\d[\d,]*(?:\.\d+)?", cell)
    return float(found.group(0).replace(",", "")) if found else None


def points(rows, x, y):
    pairs = [(number_in(row[x]), number_in(row[y])) for row in rows]
    return [(a, b) for a, b in pairs if a and b]


def decades(values):
    low = math.floor(math.log10(min(values)))
    high = math.ceil(math.log10(max(values)))
    return low, max(high, low + 1)


def panel(drawing, left, title, x_name, series):
    top, width, height = 56, 240, 230
    xs = decades([x for _, data in series for x, _ in data])
    ys = decades([y for _, data in series for _, y in data])
    at_x = lambda x: left + (math.log10(x) - xs[0]) / (xs[1] - xs[0]) * width
    at_y = lambda y: top + height - (math.log10(y) - ys[0]) / (ys[1] - ys[0]) * height
    drawing.text(left, top - 26, title, 13, weight="bold")
    for power in range(xs[0], xs[1] + 1):
        drawing.line(at_x(10 ** power), top, at_x(10 ** power), top + height, "#dde3e9")
        drawing.text(at_x(10 ** power), top + height + 16, label(10 ** power), 10, SOFT, "middle")
    for power in range(ys[0], ys[1] + 1):
        drawing.line(left, at_y(10.0 ** power), left + width, at_y(10.0 ** power), "#dde3e9")
        drawing.text(left - 6, at_y(10.0 ** power) + 4, label(10.0 ** power), 10, SOFT, "end")
    drawing.text(left + width / 2, top + height + 34, x_name, 11, SOFT, "middle")
    for number, (name, data) in enumerate(series):
        color = COLORS[number]
        places = [(at_x(x), at_y(y)) for x, y in data]
        for (x1, y1), (x2, y2) in zip(places, places[1:]):
            drawing.line(x1, y1, x2, y2, color, 2)
        for x, y in places:
            drawing.dot(x, y, color)
        drawing.dot(left + 8, top + 12 + 16 * number, color)
        drawing.text(left + 18, top + 16 + 16 * number, name, 11)


def label(value):
    for size, unit in ((1e6, " M"), (1e3, " k")):
        if value >= size:
            return f"{value / size:g}{unit}"
    return f"{value:g}"


def draw_growth():
    check = table_of(["`check`", "Bytes", "Seconds"])
    graph = table_of(["`graph`"])
    resolve = table_of(["Wide, packages"])
    entries = [[re.sub(r"one channel", "", row[0]), row[1]] for row in graph]
    drawing = Drawing(960, 350)
    panel(drawing, 60, "check: seconds", "bytes", [
        ("packages", points([row for row in check if row[0].startswith("packages")], 1, 2)),
        ("one channel", points([row for row in check if not row[0].startswith("packages")], 1, 2)),
    ])
    panel(drawing, 380, "graph: seconds", "entries of one channel", [("graph", points(entries, 0, 1))])
    panel(drawing, 700, "resolve and verify: seconds", "packages of a wide catalog", [
        ("resolve", points(resolve, 0, 1)),
        ("verify", points(resolve, 0, 3)),
    ])
    return drawing.svg("Seconds of check, graph, resolve and verify as their input grows, from docs/measurements.md")


def main():
    stale = []
    for name, draw in (("layers", draw_layers), ("resolve", draw_resolve), ("run", draw_run), ("growth", draw_growth)):
        path, text = FIGURES / f"{name}.svg", draw()
        if "--check" not in sys.argv:
            FIGURES.mkdir(exist_ok=True)
            path.write_text(text)
        elif not path.exists() or path.read_text() != text:
            stale.append(path.name)
    if stale:
        sys.exit("to be drawn again: " + ", ".join(stale))


if __name__ == "__main__":
    main()
