#!/usr/bin/env python3
"""Draws the printed text of a run as an SVG picture.

    python3 tools/timeline.py [--visitors N | --plain] [WORKLOAD.toml] TEXT [PICTURE.svg]

TEXT is a file with what riptide printed; either file may be named first, and be - for standard input. Without a PICTURE the
picture goes to standard output.

Above, a row a mutator has a mark for each of its calls, in order, by the kind of its reply. Below, each cycle has a bar:
the cells that it kept and, on top of them, those that it freed, with both numbers; the last bar is what lives at the end.
A text doesn't tell between which calls a cycle came, nor which calls of two mutators came first, so calls and cycles have
an axis each.

With the WORKLOAD the freezes are drawn between the calls, by the first way through them that tools/schedule.py finds: a
line each, with the cycles that began and ended there, and the parts in which a cycle marked in grey. Below each bar stands
the cycle's kind. N is the number of visitors that the run had, and --plain stands for a run with that option; without either
all three kinds of runs are tried. Where no way is found, a line says so, no PICTURE is written, and the status is 1.
"""
import argparse
import re
import sys
from pathlib import Path

import schedule
import svg

if __name__ == "__main__" and sys.argv[1:] in ([], ["--help"]):
    sys.exit(print(__doc__.strip()) or len(sys.argv) < 2)

# the kinds of replies: a name, a colour, and how high the mark is among twelve
KINDS = {
    "born": ("a cell is born", "#2e8b57", 12),
    "seen": ("a value is seen", "#3d8fe0", 8),
    "ok": ("ok", "#b9c0c8", 5),
    "asked": ("a cycle is asked for", "#e08a00", 12),
    "refused": ("refused", "#c0392b", 12),
}
KEPT, FREED, FREEZE, MARKED = "#1f3b57", "#d9a5a0", "#8a6d00", "#eeeeee"
LEFT, WIDTH, ROW, BARS, GAP = 90, 800, 22, 120, 16


def kind_of(call, reply):
    """The kind of a reply to a call, as the text has both."""
    if reply in ("ok", "asked"):
        return reply
    if reply.startswith("#"):
        return "born" if call.split(" ")[0] in ("alloc", "table") else "seen"
    return "seen" if reply == "-" or reply.isdigit() else "refused"


def read(lines):
    """The kinds of each mutator's replies, the cycles as (number, kept, freed), and how many cells live at the end."""
    mutators, cycles, live = [], [], None
    for at, line in enumerate(lines, 1):
        cycle = re.fullmatch(r"cycle (\d+) kept (\d+) freed (\d+)(?::(?: #\d+)+)?", line)
        if re.fullmatch(r"mutator \d+", line):
            mutators.append([])
        elif cycle:
            cycles.append(tuple(int(number) for number in cycle.groups()))
        elif re.fullmatch(r"live \d+", line):
            live = int(line[5:])
        elif " = " in line and mutators:
            mutators[-1].append(kind_of(*line.split(" = ", 1)))
        else:
            sys.exit(f"line {at} is none of a run's text: {line}")
    if live is None:
        sys.exit("the text has no last line: live N")
    return mutators, cycles, live


def text(x, y, words, anchor="start", size=11):
    return svg.text(x, y, words, anchor, size)


def bar(x, y, width, height, colour):
    return f'<rect x="{x:.2f}" y="{y:.2f}" width="{width:.2f}" height="{height:.2f}" fill="{colour}"/>'


def places_of(mutators, parts):
    """Where each call of each mutator stands, and where each part begins and ends: all in one without parts."""
    if not parts:
        step = min(13, WIDTH / max(1, max(map(len, mutators), default=0)))
        return step, [[LEFT + place * step for place in range(len(replies))] for replies in mutators], []
    widths = [max(b - a for a, b in part.calls) for part in parts]
    step = min(13, max(1, WIDTH - GAP * len(parts)) / max(1, sum(widths)))
    places, spans, x = [[] for _ in mutators], [], LEFT
    for part, width in zip(parts, widths):
        for row, (a, b) in zip(places, part.calls):
            row += [x + place * step for place in range(b - a)]
        spans.append((x, x + width * step))
        x += width * step + GAP
    return step, places, spans


def draw_parts(parts, spans, top, bottom):
    """The freeze behind each part as a line, with the cycles that began and ended there, and what was marked in grey."""
    shapes = []
    for part, (left, right) in zip(parts, spans):
        if part.marks:
            shapes.append(bar(left - GAP / 2, top, right - left + GAP, bottom - top, MARKED))
    for part, (_, right) in zip(parts, spans):
        x = right + GAP / 2 - 1
        shapes.append(bar(x, top, 2 if part.events else 1, bottom - top, FREEZE))
        began = [str(event.cycle) for event in part.events if isinstance(event, schedule.Begin)]
        ended = [str(event.cycle) for event in part.events if isinstance(event, schedule.End)]
        for height, words in ((-14, began and "+" + ",".join(began)), (-3, ended and "-" + ",".join(ended))):
            if words and len(parts) <= 40:
                shapes.append(text(f"{x + 1:.2f}", top + height, words, "middle", 9))
    return shapes


def draw_calls(mutators, parts):
    """A row a mutator, with the freezes where they are known, and the legend; with where the picture goes on."""
    step, places, spans = places_of(mutators, parts)
    top = 60 if parts else 34
    shapes, y = draw_parts(parts, spans, top, top + ROW * len(mutators)), top
    for number, (replies, row) in enumerate(zip(mutators, places)):
        shapes.append(text(LEFT - 8, y + 12, f"mutator {number}", "end"))
        for x, kind in zip(row, replies):
            _, colour, height = KINDS[kind]
            shapes.append(bar(x, y + 14 - height, step * 0.8, height, colour))
        y += ROW
    said = f"calls, in each mutator's order; the longest row has {max(map(len, mutators), default=0)}"
    shapes.append(text(LEFT, y + 12, said))
    if parts:
        said = "a line is a freeze, with +N where cycle N begins and -N where it ends; in grey a cycle marks beside the calls"
        shapes.append(text(LEFT, y + 27, said))
        y += 15
    return shapes, y + 34


def draw_cycles(cycles, live, kinds, top):
    """A bar a cycle with its numbers and, where it is known, its kind, and one for what lives at the end."""
    most = max([kept + freed for _, kept, freed in cycles] + [live, 1])
    step = min(60, WIDTH / (len(cycles) + 1))
    top += 14
    shapes = [text(LEFT - 8, top + 10, f"{most}", "end"), text(LEFT - 8, top + BARS, "0 cells", "end")]
    numbered = step >= 24
    for place, (number, kept, freed) in enumerate(cycles + [("live", live, 0)]):
        x, low = LEFT + place * step, BARS * kept / most
        high = BARS * freed / most
        shapes.append(bar(x, top + BARS - low, step * 0.8, low, KEPT))
        shapes.append(bar(x, top + BARS - low - high, step * 0.8, high, FREED))
        middle = f"{x + step * 0.4:.2f}"
        if numbered:
            held = f"{kept}+{freed}" if freed else f"{kept}"
            shapes.append(text(middle, f"{top + BARS - low - high - 3:.2f}", held, "middle", 10))
        if numbered or number == "live":
            shapes.append(text(middle, top + BARS + 14, number, "middle", 10))
        if numbered and number in kinds:
            shapes.append(text(middle, top + BARS + 26, kinds[number], "middle", 10))
    said = f"cycles, in their order: {len(cycles)} in all; at a bar the cells that it kept + those that it freed"
    shapes.append(text(LEFT, top + BARS + 44, said))
    return shapes, top + BARS + 66


def draw_legend(y):
    shapes, x = [], LEFT
    named = [(name, colour) for name, colour, _ in KINDS.values()] + [("kept", KEPT), ("freed", FREED)]
    for name, colour in named:
        shapes += [bar(x, y - 9, 9, 9, colour), text(x + 13, y, name)]
        x += 27 + 6.4 * len(name)
    return shapes


# runs by their visitors, and whether they are plain
RUNS = ((0, False), (8, False), (0, True))


def parts_of(document, printed, runs):
    """The parts of the first way through the freezes that gives this text as that of one of these runs."""
    for visitors, is_plain in runs:
        found, _ = schedule.ways_through(document, printed, visitors, is_plain)
        if found:
            return found[0].parts
    sys.exit(schedule.no_way(document, printed))


def picture(name, printed, document=None, runs=RUNS):
    mutators, cycles, live = read([line for line in printed.splitlines() if not line.startswith(("cell ", "stats "))])
    parts = parts_of(document, printed, runs) if document else ()
    begins = [event for part in parts for event in part.events if isinstance(event, schedule.Begin)]
    calls, y = draw_calls(mutators, parts)
    ends, y = draw_cycles(cycles, live, {event.cycle: event.kind for event in begins}, y)
    shapes = [text(LEFT, 20, name, size=13)] + calls + ends + draw_legend(y)
    return svg.page(LEFT + WIDTH + 20, y + 16, shapes, fill="#222")


def main():
    usage = "python3 tools/timeline.py [--visitors N | --plain] [WORKLOAD.toml] TEXT [PICTURE.svg]"
    parser = argparse.ArgumentParser(usage=usage, add_help=False)
    parser.add_argument("files", nargs="+")
    kinds = parser.add_mutually_exclusive_group()
    kinds.add_argument("--visitors", type=int)
    kinds.add_argument("--plain", action="store_true")
    given = parser.parse_args()
    to = given.files.pop() if given.files[-1].endswith(".svg") else None
    if len(given.files) not in (1, 2):
        parser.error("a text is wanted, and no more than its workload beside it")
    workload, (name, printed) = schedule.told_apart(given.files)
    runs = RUNS if given.visitors is None and not given.plain else [(given.visitors or 0, given.plain)]
    name = "a run" if name == "-" else re.sub(r".*/|\.txt$", "", name)
    drawn = picture(name, printed, workload[1] if workload else None, runs)
    try:
        Path(to).write_text(drawn, encoding="utf-8") if to else sys.stdout.write(drawn)
    except OSError as error:
        sys.exit(f"{to or 'the output'}: {error.strerror}")


if __name__ == "__main__":
    main()
