#!/usr/bin/env python3
"""Draws what the heap holds in the run of ring_is_freed as an SVG picture, to standard output: docs/pictures/ring_is_freed.svg.

    python3 tools/ring.py > docs/pictures/ring_is_freed.svg

Three moments, from left to right. It is drawn by hand, but that the calls and the cycle under it are lines of the run's text.
"""
import sys
from pathlib import Path

import svg

if __name__ == "__main__" and sys.argv[1:] == ["--help"]:
    sys.exit(print(__doc__.strip()))

TEXT = Path(__file__).resolve().parent.parent / "crates" / "checks" / "data" / "workloads" / "ring_is_freed.txt"
WIDTH, HEIGHT, PANEL = 900, 230, 300
INK, LINK = "#222", "#1f5fa8"
LIVE, GONE = "#e4f3e6", "#ffffff"
MOMENTS = [
    ("put r1 0 r0 = ok", "two registers hold a ring of two cells", True, True),
    ("drop r1 = ok", "nobody holds it: it holds itself", False, True),
    ("cycle 1 kept 0 freed 2: #0 #1", "the cycle freed both", False, False),
]


def text(x, y, words, size=13, fill=INK, **style):
    return svg.text(x, y, words, size=size, fill=fill, **style)


def arrow(path):
    return svg.arrow(path, LINK, 2, "tip")


def moment(left, line, says, held, live):
    one, other = left + 90, left + 210
    shapes = []
    for x, name in ((one, "#0"), (other, "#1")):
        dash = "" if live else 'stroke-dasharray="4 4"'
        shapes.append(f'<circle cx="{x}" cy="120" r="26" fill="{LIVE if live else GONE}" stroke="#555" {dash}/>')
        shapes.append(text(x, 125, name, 14, INK if live else "#999"))
    if live:
        shapes += [arrow(f"M{one + 22} 106C{one + 45} 90 {other - 45} 90 {other - 24} 105")]
        shapes += [arrow(f"M{other - 22} 134C{other - 45} 150 {one + 45} 150 {one + 24} 135")]
    for x, name in ((one, "r0"), (other, "r1")):
        shapes.append(svg.box(x - 20, 22, 40, 26, "#eef2f6", 4))
        shapes.append(text(x, 40, name, 13))
        if held:
            shapes.append(arrow(f"M{x} 48V91"))
    return shapes + [text(left + 150, 186, line, font_family="monospace"), text(left + 150, 210, says)]


def main():
    lines = TEXT.read_text().splitlines()
    lost = [line for line, *_ in MOMENTS if line not in lines]
    if lost:
        sys.exit(f"no lines of {TEXT.name}: {lost}")
    shapes = svg.tips({"tip": LINK})
    for place, (line, says, held, live) in enumerate(MOMENTS):
        shapes += moment(PANEL * place, line, says, held, live)
    sys.stdout.write(svg.page(WIDTH, HEIGHT, [*shapes, '<path d="M300 15V215M600 15V215" stroke="#ddd"/>']))


if __name__ == "__main__":
    main()
