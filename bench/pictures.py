#!/usr/bin/env python3
"""Draws the two pictures of README.md as SVG, with Python's own library alone.

    bench/pictures.py

1. docs/pictures/creations.svg: how much processor time the creation of one instance takes, by the number of instances of its project, from
   bench/peers.json (`bench/peers.py speed --save`).
2. docs/pictures/request.svg: the way of a request through the groups of crates (docs/ARCHITECTURE.md).
"""
import json
import math
import re
from html import escape
from pathlib import Path

TOP = Path(__file__).resolve().parent.parent
INK, GREY, FAINT, PAPER = "#1f2933", "#52606d", "#d9dee4", "#ffffff"
OURS, THEIRS = "#0b6bcb", "#c2410c"
FONT = "font-family='Helvetica, Arial, sans-serif'"


def text(x, y, words, size=13, color=INK, anchor="start", weight="normal"):
    return f"<text x='{x:.1f}' y='{y:.1f}' {FONT} font-size='{size}' fill='{color}' text-anchor='{anchor}' font-weight='{weight}'>{escape(words)}</text>"


def line(x1, y1, x2, y2, color=FAINT, width=1, more=""):
    return f"<line x1='{x1:.1f}' y1='{y1:.1f}' x2='{x2:.1f}' y2='{y2:.1f}' stroke='{color}' stroke-width='{width}' {more}/>"


def page(width, height, title, parts):
    head = (f"<svg xmlns='http://www.w3.org/2000/svg' viewBox='0 0 {width} {height}' width='{width}' height='{height}' role='img'>"
            f"<title>{escape(title)}</title><rect x='0.5' y='0.5' width='{width - 1}' height='{height - 1}' rx='8' fill='{PAPER}' stroke='{FAINT}'/>")
    return "\n".join([head, *parts, "</svg>"]) + "\n"


# ---- how long a creation takes

WIDE, HIGH, LEFT, RIGHT, ABOVE, BELOW, INSET = 760, 430, 70, 124, 84, 84, 34


class Axes:
    """Where a number of instances and a time lie, both on log axes."""

    def __init__(self, counts, times):
        self.counts = (min(counts), max(counts))
        self.times = (10 ** math.floor(math.log10(min(times))), 10 ** math.ceil(math.log10(max(times))))

    def x(self, count):
        return LEFT + INSET + (WIDE - LEFT - RIGHT - 2 * INSET) * part_of(count, *self.counts)

    def y(self, time):
        return HIGH - BELOW - (HIGH - ABOVE - BELOW) * part_of(time, *self.times)


def part_of(value, least, most):
    return math.log(value / least) / math.log(most / least)


def named_time(milliseconds):
    if milliseconds >= 1000:
        return f"{milliseconds / 1000:.3g} s"
    return f"{milliseconds:.3g} ms"


def creations_of(figures):
    """The times of creations by the number of instances, in their order."""
    found = {}
    for name, figure in figures.items():
        count = re.match(r"creation of instance ([\d,]+)", name)
        if count and figure["status"].startswith("2"):
            found[int(count[1].replace(",", ""))] = figure["processor"]
    return sorted(found.items())


def creations_picture(kept):
    lines = {name: creations_of(kept["speed"].get(name, {})) for name in ("Incus", "ours")}
    points = [point for each in lines.values() for point in each]
    axes = Axes([count for count, _ in points], [time for _, time in points])
    parts = [text(24, 34, "Creating one instance in a project with five limits", 18, weight="bold"),
             text(24, 56, "processor time until the operation has ended, by the number of instances in the project; both axes are logarithmic", 12, GREY)]
    time = axes.times[0]
    while time <= axes.times[1]:
        parts += [line(LEFT, axes.y(time), WIDE - RIGHT, axes.y(time)), text(LEFT - 8, axes.y(time) + 4, named_time(time), 11, GREY, "end")]
        time *= 10
    for count in sorted({count for count, _ in points}):
        parts += [line(axes.x(count), ABOVE, axes.x(count), HIGH - BELOW), text(axes.x(count), HIGH - BELOW + 18, f"{count:,}", 11, GREY, "middle")]
    parts.append(text((LEFT + WIDE - RIGHT) / 2, HIGH - BELOW + 38, "instances in the project", 12, GREY, "middle"))
    for name, label, color, above in (("Incus", "Incus 6.0.4", THEIRS, -10), ("ours", "incusd, here", OURS, -10)):
        parts += curve(axes, lines[name], label, color, above)
    parts.append(text(24, HIGH - 18, f"{kept['when']}, {kept['processors']} processors, both over files; the host of ours is a model that does nothing."
                      " Measured by: bench/peers.py speed", 11, GREY))
    return page(WIDE, HIGH, "Time of a creation by number of instances", parts)


def curve(axes, points, label, color, above):
    if not points:
        return []
    places = [(axes.x(count), axes.y(time), time) for count, time in points]
    path = " ".join(f"{x:.1f},{y:.1f}" for x, y, _ in places)
    drawn = [f"<polyline points='{path}' fill='none' stroke='{color}' stroke-width='2.5' stroke-linejoin='round'/>"]
    for x, y, time in places:
        drawn += [f"<circle cx='{x:.1f}' cy='{y:.1f}' r='4' fill='{color}'/>", text(x, y + above, named_time(time), 12, color, "middle", "bold")]
    x, y, _ = places[-1]
    return [*drawn, text(x + INSET + 8, y + 4, label, 13, color, weight="bold")]


# ---- the way of a request

def box(x, y, width, height, title, words, color=OURS):
    parts = [f"<rect x='{x}' y='{y}' width='{width}' height='{height}' rx='6' fill='{color}' fill-opacity='0.07' stroke='{color}'/>",
             text(x + width / 2, y + 21, title, 14, INK, "middle", "bold")]
    return parts + [text(x + width / 2, y + 40 + 16 * number, it, 11.5, GREY, "middle") for number, it in enumerate(words)]


def arrow(points, words="", at=None, anchor="middle", dashed=False):
    path = " ".join(f"{x},{y}" for x, y in points)
    dash = "stroke-dasharray='5 4'" if dashed else ""
    drawn = [f"<polyline points='{path}' fill='none' stroke='{GREY}' stroke-width='1.6' {dash} marker-end='url(#head)'/>"]
    return drawn + ([text(*at, words, 11.5, GREY, anchor)] if words else [])


HEAD = (f"<defs><marker id='head' viewBox='0 0 10 10' refX='9' refY='5' markerWidth='7' markerHeight='7' orient='auto-start-reverse'>"
        f"<path d='M0,0 L10,5 L0,10 z' fill='{GREY}'/></marker></defs>")


def request_picture():
    parts = [HEAD, text(24, 34, "The way of a request", 18, weight="bold"),
             text(24, 56, "each blue box is a group of crates; what lies outside is grey", 12, GREY)]
    parts += box(24, 96, 92, 70, "client", ["HTTP/1.1,", "WebSocket"], GREY)
    parts += box(180, 82, 170, 100, "HTTP and REST", ["bytes in any pieces", "become a command,", "a reply becomes bytes"])
    parts += box(414, 82, 170, 100, "Serving", ["connections, workers", "and listeners, one turn", "after the other"])
    parts += box(648, 82, 170, 100, "Core", ["the daemon: rows,", "operations, their shares,", "the last 1,024 events"])
    parts += box(882, 82, 120, 84, "keeper", ["SQLite, a journal", "or memory"], GREY)
    parts += box(24, 262, 326, 84, "Programs", ["incusd: many connections to 127.0.0.1", "incus_run: requests on standard input"])
    parts += box(414, 262, 170, 84, "host", ["a model: instances", "are names in memory"], GREY)
    parts += box(640, 262, 110, 84, "Rules", ["the first rule", "that is broken"])
    parts += box(766, 262, 110, 84, "Plans", ["what a command", "does or begins"])
    parts += box(892, 262, 110, 84, "Rows", ["what there is,", "read and made"])
    parts += box(24, 386, 978, 56, "The machine", ["what the server has to do, as definitions over plain lists"], THEIRS)
    parts += box(24, 462, 978, 56, "Values", ["sizes, settings, devices, limits, policies, operations, shares, rows as entries"])
    parts += arrow([(116, 122), (180, 122)], "request", (148, 114)) + arrow([(180, 150), (116, 150)], "reply", (148, 168))
    parts += arrow([(350, 122), (414, 122)], "command", (382, 114)) + arrow([(414, 150), (350, 150)], "answer", (382, 168))
    parts += arrow([(584, 122), (648, 122)], "turn", (616, 114)) + arrow([(648, 150), (584, 150)], "answer", (616, 168))
    parts += arrow([(818, 122), (882, 122)], "commit", (850, 114)) + arrow([(499, 182), (499, 262)], "calls of the workers", (490, 226), "end")
    parts += arrow([(695, 182), (695, 262)]) + arrow([(760, 182), (760, 230), (821, 230), (821, 262)])
    parts += arrow([(795, 182), (795, 206), (947, 206), (947, 262)])
    parts += arrow([(664, 182), (664, 206), (612, 206), (612, 386)], "each turn is proved to be", (604, 366), "end", dashed=True)
    parts += [text(620, 366, "one step of the machine", 11.5, GREY)]
    return page(1026, 540, "The way of a request through the groups of crates", parts)


def main():
    folder = TOP / "docs/pictures"
    folder.mkdir(exist_ok=True)
    (folder / "creations.svg").write_text(creations_picture(json.loads((TOP / "bench/peers.json").read_text())))
    (folder / "request.svg").write_text(request_picture())


if __name__ == "__main__":
    main()
