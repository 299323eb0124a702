"""Draws docs/figures/NAME.svg from the figures in docs/figures/NAME.json, which benchmarks write with `--json`.

    python3 bench/plots.py [--folder docs/figures] [NAME ..]

A point is a median, and the line through it goes from one quartile to the other. One document always makes the same
bytes.
"""

import argparse
import json
import math
import pathlib
import re
import sys
import xml.etree.ElementTree as xml
from dataclasses import dataclass

TOP = pathlib.Path(__file__).resolve().parent.parent
FOLDER = TOP / "docs" / "figures"
# Okabe and Ito's colours, which those tell apart who see few.
COLOURS = ("#0072b2", "#d55e00", "#009e73", "#cc79a7", "#e69f00", "#56b4e9")
INK, PALE = "#222222", "#dddddd"
WIDTH, HEIGHT, LEFT, RIGHT, ABOVE, BELOW = 760, 340, 64, 118, 58, 76


@dataclass(frozen=True)
class Panel:
    """A chart of lines: `pattern` finds the figures whose place from left to right is what its group has."""

    title: str
    pattern: str
    across: str
    up: str = "microseconds"
    is_logarithmic: bool = True
    # Of whom the lines are.
    lines: tuple = ("snapd", "redis", "etcd", "PostgreSQL", "SQLite")
    scale: float = 1.0


@dataclass(frozen=True)
class Plot:
    """A drawing: its panels side by side, or one bar of parts."""

    title: str
    source: str
    panels: tuple = ()
    parts: str = ""


def of_updates(what, title, flush):
    return Panel(title, rf"{what}, (\d+) writers?, {flush}", "writers at once")


BESIDE = ("snapd", "yardstick")
OWN, SLOW = "the disk's own flush", "a flush of 1 ms"
PLOTS = {
    "updates": Plot("The time of a durable update of 1,024 bytes", "updates", (
        of_updates("update", OWN, OWN), of_updates("update", SLOW, SLOW))),
    "processor": Plot("The server's processor time of an update (of SQLite with its clients')", "updates", (
        of_updates("processor of an update", OWN, OWN), of_updates("processor of an update", SLOW, SLOW))),
    "scans": Plot("The time of a scan of 16 values of 1,000 bytes", "scans", (
        Panel("median", r"scan beside (\d+) writers?", "writers at once", lines=BESIDE, is_logarithmic=False),
        Panel("99th percentile", r"its 99th percentile, beside (\d+)", "writers at once", lines=BESIDE))),
    "stages": Plot("Where the time of an update goes, one writer, in microseconds", "stages",
                   parts="where an update's time goes"),
    "starts": Plot("From the start of the process to its first reply", "starts", (
        Panel("", r"start of (\d+) files? to a reply, and bare opening", "files, with a scanner each", "milliseconds",
              False, ("snapd", "opening"), 1e-3),)),
}
# What a line's figures are of, in a reader's words.
CALLED = {"yardstick": "least server", "opening": "the files' opening"}


def number(value):
    return f"{value:.1f}".rstrip("0").rstrip(".")


def add(parent, tag, text=None, **attributes):
    names = {name.replace("_", "-"): it if isinstance(it, str) else number(it) for name, it in attributes.items()}
    made = xml.SubElement(parent, tag, names)
    made.text = text
    return made


def words(parent, x, y, text, anchor="middle", size=12, fill=INK, **more):
    return add(parent, "text", text, x=x, y=y, text_anchor=anchor, font_size=size, fill=fill, **more)


def figures_of(document, panel):
    """The points of each line: where from left to right, the median, and the quartiles."""
    found = {}
    for it in document["figures"]:
        at = re.fullmatch(panel.pattern, it["what"].strip())
        if at and it["of"] in panel.lines:
            low, high = it["quartiles"] or (it["median"], it["median"])
            heights = [value * panel.scale for value in (it["median"], low, high)]
            found.setdefault(it["of"], []).append((int(at[1]), *heights))
    return {of: sorted(found[of]) for of in panel.lines if of in found}


def ticks(panel, most, least):
    """What is written up the side: powers of ten, or at most eight even steps from 0 on."""
    if panel.is_logarithmic:
        return [10**it for it in range(math.floor(math.log10(least)), math.ceil(math.log10(most)) + 1)]
    step = 10 ** math.floor(math.log10(most))
    step = next(it for it in (step / 5, step / 2, step) if most / it <= 7)
    return [step * it for it in range(math.ceil(most / step) + 1)]


def spread(ends, least, room):
    """Where each name is written: as near as may be to the end of its line, and as far below the name above it."""
    placed = []
    for of, y in sorted(ends.items(), key=lambda it: it[1]):
        placed.append((of, max(y, placed[-1][1] + room) if placed else y))
    late = max(0, placed[-1][1] - least)
    return {of: y - late for of, y in placed}


def title_of(document, panel):
    """A panel's title; that of the disk's own flush says how long this takes."""
    own = [it["median"] for it in document["figures"] if (it["what"], it["of"]) == (panel.title, "disk")]
    return f"{panel.title}, {own[0] / 1e3:.2g} ms" if own else panel.title


def draw_panel(svg, panel, title, lines, marks, left, right):
    """One chart of lines, between two places across."""
    across = sorted({it[0] for points in lines.values() for it in points})
    top, bottom = ABOVE + 18, HEIGHT - BELOW
    scaled = math.log10 if panel.is_logarithmic else float

    def up(value):
        low, high = scaled(marks[0]), scaled(marks[-1])
        return bottom - (scaled(value) - low) / (high - low) * (bottom - top)

    def over(value):
        return left + 20 + across.index(value) * (right - left - 40) / max(1, len(across) - 1)

    words(svg, (left + right) / 2, ABOVE + 4, title)
    for it in marks:
        add(svg, "line", x1=left, x2=right, y1=up(it), y2=up(it), stroke=PALE)
        words(svg, left - 6, up(it) + 4, f"{it:,.10g}", "end", 11)
    for it in across:
        words(svg, over(it), bottom + 18, str(it), size=11)
    words(svg, (left + right) / 2, bottom + 36, panel.across, size=11)
    middle = (top + bottom) / 2
    words(svg, left - 50, middle, panel.up, size=11, transform=f"rotate(-90 {number(left - 50)} {number(middle)})")
    draw_lines(svg, panel, lines, over, up)
    return {of: up(points[-1][1]) for of, points in lines.items()}


def draw_lines(svg, panel, lines, over, up):
    for of, points in lines.items():
        colour = COLOURS[panel.lines.index(of)]
        places = " ".join(f"{number(over(at))},{number(up(middle))}" for at, middle, _, _ in points)
        add(svg, "polyline", points=places, fill="none", stroke=colour, stroke_width=2)
        for at, middle, low, high in points:
            ends = {"x1": over(at), "x2": over(at), "y1": up(low), "y2": up(high)}
            add(svg, "line", stroke=colour, stroke_width=5, stroke_opacity="0.4", **ends)
            add(svg, "circle", cx=over(at), cy=up(middle), r=3.5, fill=colour)


def draw_panels(svg, document, plot):
    """The panels side by side, with one scale where both are of one kind. The lines are named at their right ends."""
    room = (WIDTH - RIGHT - LEFT - 70 * (len(plot.panels) - 1)) / len(plot.panels)
    found = [figures_of(document, it) for it in plot.panels]
    if not all(found):
        sys.exit(f"there are no figures of a panel of {plot.title}")
    for place, (panel, lines) in enumerate(zip(plot.panels, found)):
        alike = [of for of, it in zip(found, plot.panels) if it.is_logarithmic == panel.is_logarithmic]
        heights = [it for of in alike for points in of.values() for _, *each in points for it in each]
        left, marks = LEFT + place * (room + 70), ticks(panel, max(heights), min(heights))
        ends = draw_panel(svg, panel, title_of(document, panel), lines, marks, left, left + room)
    for of, y in spread(ends, HEIGHT - BELOW, 15).items():
        words(svg, WIDTH - RIGHT, y + 4, CALLED.get(of, of), "start", fill=COLOURS[panel.lines.index(of)])


def draw_parts(svg, document, plot):
    """One bar, as long as all parts are together, and a row for each part."""
    parts = [(it["of"], it["median"]) for it in document["figures"] if it["what"] == plot.parts]
    whole, left = sum(it for _, it in parts), LEFT - 40
    scale, x = (WIDTH - 2 * left) / whole, left
    for place, (name, length) in enumerate(parts):
        colour, y = COLOURS[place], ABOVE + 74 + 26 * place
        add(svg, "rect", x=x, y=ABOVE, width=length * scale, height=40, fill=colour)
        add(svg, "rect", x=left, y=y - 11, width=14, height=14, fill=colour)
        words(svg, left + 22, y, name, "start")
        words(svg, left + 330, y, f"{length:.1f}", "end")
        words(svg, left + 390, y, f"{length / whole:.0%}", "end")
        x += length * scale
    words(svg, left + 22, ABOVE + 74 + 26 * len(parts), f"all: {whole:.1f}", "start")


def drawn(name, document):
    """The text of a drawing."""
    plot = PLOTS[name]
    svg = xml.Element("svg", {
        "xmlns": "http://www.w3.org/2000/svg", "viewBox": f"0 0 {WIDTH} {HEIGHT}", "width": str(WIDTH),
        "height": str(HEIGHT), "font-family": "sans-serif", "role": "img",
    })
    add(svg, "title", plot.title)
    add(svg, "rect", width=WIDTH, height=HEIGHT, fill="#ffffff")
    words(svg, 24, 28, plot.title, "start", 15)
    (draw_panels if plot.panels else draw_parts)(svg, document, plot)
    rounds = max(it["rounds"] for it in document["figures"] if it["of"] != "disk")
    told = f"{document['date']}; {document['machine']}; medians of {rounds} rounds"
    words(svg, 24, HEIGHT - 12, told, "start", 10, "#666666")
    xml.indent(svg, " ")
    return xml.tostring(svg, encoding="unicode") + "\n"


def main():
    parser = argparse.ArgumentParser(description="Draws the figures of the documents.")
    parser.add_argument("--folder", type=pathlib.Path, default=FOLDER)
    parser.add_argument("names", nargs="*", metavar="NAME", choices=[[], *PLOTS])
    given = parser.parse_args()
    for name in given.names or PLOTS:
        document = json.loads((given.folder / f"{PLOTS[name].source}.json").read_text(encoding="utf-8"))
        (given.folder / f"{name}.svg").write_text(drawn(name, document), encoding="utf-8")


if __name__ == "__main__":
    main()
