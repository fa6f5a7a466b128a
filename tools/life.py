#!/usr/bin/env python3
"""Draws the life of a cell and of an array as an SVG picture, to standard output: docs/pictures/life_of_a_cell.svg.

    python3 tools/life.py > docs/pictures/life_of_a_cell.svg

The numbers at the arrows are those of the table in docs/LIFE-OF-A-CELL.md, which names the function of each.
"""
import sys

import svg

if __name__ == "__main__" and sys.argv[1:] == ["--help"]:
    sys.exit(print(__doc__.strip()))

WIDTH, HEIGHT = 1000, 890
CALL, FREEZE = "#1f5fa8", "#b8520a"
TIPS = {"call": CALL, "freeze": FREEZE}
FREE, LIVE, SPENT, DEAD = "#eef2f6", "#e4f3e6", "#fdf3d3", "#f9e3e0"
MARKS = {"white": ("#ffffff", "#222"), "grey": ("#a9adb2", "#222"), "black": ("#333333", "#fff")}


def text(x, y, words, size=13, anchor="middle", fill="#222", weight="normal"):
    return svg.text(x, y, words, anchor, size, fill=fill, font_weight=weight)


def state(x, y, width, height, fill, name, *lines):
    """A state, with what the words of its block say."""
    shapes = [svg.box(x, y, width, height, fill, 10), text(x + width / 2, y + 26, name, 17, weight="bold")]
    return shapes + [text(x + width / 2, y + 46 + 17 * place, line, 12) for place, line in enumerate(lines)]


def mark(x, y, name):
    fill, ink = MARKS[name]
    return [f'<circle cx="{x}" cy="{y}" r="30" fill="{fill}" stroke="#333"/>', text(x, y + 4, name, 13, fill=ink)]


def arrow(path, colour):
    return svg.arrow(path, colour, 2.4, "call" if colour == CALL else "freeze")


def number(x, y, shown, colour):
    return [f'<circle cx="{x}" cy="{y}" r="11" fill="{colour}"/>', text(x, y + 5, shown, 13, fill="#fff", weight="bold")]


def cell():
    shapes = [text(40, 88, "A cell", 18, "start", weight="bold")]
    shapes += state(40, 180, 170, 100, FREE, "free", "its Free bit is set,", "its words 0, but its colour")
    shapes += state(330, 105, 350, 335, LIVE, "live", "neither bit is set", "2 and 3: in a freeze, or by a visitor in a part")
    shapes += state(800, 180, 160, 100, DEAD, "dead", "its Dead bit is set,", "nothing leads to it")
    for place, name in enumerate(MARKS):
        shapes += mark(395 + 110 * place, 240, name)
    # 1: a call takes it
    shapes += [arrow("M210 230H328", CALL), *number(268, 206, 1, CALL)]
    shapes += [text(268, 256, "alloc,", 13, fill=CALL), text(268, 273, "table", 13, fill=CALL)]
    # 2 to 4: marking, and the barrier, whether a cycle marks or not
    shapes += [arrow("M425 232H473", FREEZE), *number(449, 192, 2, FREEZE), text(449, 218, "marked", 12, fill=FREEZE)]
    shapes += [arrow("M535 232H583", FREEZE), *number(559, 192, 3, FREEZE), text(559, 218, "visited", 12, fill=FREEZE)]
    shapes += [arrow("M598 264C575 300 545 300 524 268", CALL), *number(561, 312, 4, CALL)]
    shapes += [text(545, 317, "barrier", 12, "end", CALL)]
    # 5: the beginning of a full cycle
    shapes += [arrow("M615 270C600 400 410 400 396 272", FREEZE), *number(505, 368, 5, FREEZE)]
    shapes += [text(505, 394, "a full cycle begins", 12, fill=FREEZE)]
    shapes += [text(505, 412, "born white, or black while a cycle marks;", 12)]
    shapes += [text(505, 429, "an end, and an Eden cycle, leave all marks", 12)]
    # 6: the end of a cycle
    shapes += [arrow("M680 230H798", FREEZE), *number(740, 188, 6, FREEZE), text(740, 218, "condemned", 13, fill=FREEZE)]
    shapes += [text(740, 256, "end: not", 13, fill=FREEZE), text(740, 273, "marked", 13, fill=FREEZE)]
    # 7: the sweep
    shapes += [arrow("M880 280C880 550 125 550 125 282", CALL), *number(505, 483, 7, CALL)]
    return shapes + [text(505, 512, "its block is swept: by who finds nothing free in it, or by a freeze", 13, fill=CALL)]


def array():
    """The array's states, below those of the cell."""
    shapes = ['<g transform="translate(0 60)">', text(40, 500, "An array of properties", 18, "start", weight="bold")]
    shapes += state(40, 580, 150, 80, FREE, "free", "its Free bit is set")
    shapes += state(310, 580, 150, 80, LIVE, "live", "one live cell's")
    shapes += state(570, 570, 160, 100, SPENT, "spent", "replaced: no cell's,", "its words as they were")
    shapes += state(830, 580, 130, 80, DEAD, "dead", "its Dead bit is set")
    shapes += [arrow("M190 620H308", CALL), *number(250, 597, 8, CALL), text(250, 644, "add", 13, fill=CALL)]
    shapes += [arrow("M460 620H568", CALL), *number(514, 597, 9, CALL), text(514, 644, "add: a", 13, fill=CALL)]
    shapes += [text(514, 660, "larger one", 13, fill=CALL)]
    shapes += [arrow("M730 620H828", FREEZE), *number(778, 597, 10, FREEZE), text(778, 644, "end", 13, fill=FREEZE)]
    shapes += [arrow("M385 580C385 505 895 505 895 578", FREEZE), *number(640, 524, 11, FREEZE)]
    shapes += [text(660, 518, "end: its cell is dead", 13, "start", FREEZE)]
    shapes += [arrow("M895 660C895 760 115 760 115 662", CALL), *number(505, 735, 12, CALL)]
    swept = "its block is swept: by who finds none free in it, or by a freeze"
    return shapes + [text(505, 763, swept, 13, fill=CALL), "</g>"]


def legend():
    shapes = [text(40, 32, "The life of a cell", 21, "start", weight="bold")]
    shapes += [arrow("M330 26H375", CALL), text(385, 31, "in a running part, by a mutator's call", 13, "start", CALL)]
    shapes += [arrow("M640 26H685", FREEZE), text(695, 31, "in a freeze, by the collector", 13, "start", FREEZE)]
    shapes += ['<path d="M40 50H960M40 528H960M40 835H960" stroke="#ccc"/>']
    says = "In a part no live cell becomes dead or free: one that is live when a part opens is live when it ends."
    return shapes + [text(40, 860, says, 13, "start")]


def main():
    sys.stdout.write(svg.page(WIDTH, HEIGHT, [*svg.tips(TIPS), *legend(), *cell(), *array()]))


if __name__ == "__main__":
    main()
