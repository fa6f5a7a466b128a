#!/usr/bin/env python3
"""Draws the lines of a snapshot as an SVG picture, to standard output.

    python3 tools/heap.py TEXT [CELL] > PICTURE.svg      # TEXT is a file with such lines, or - for standard input

Lines that aren't a cell's are passed over, so the whole text of a run may be given. Each cell is a box, coloured by its
class, in the column of its distance: how many steps the shortest path to it has. What nothing retains stands in a column
of its own, and is grey whatever its class. An arrow is a link, dotted where it is the value of a pair, whose key stands
beside it; cells of one group have its number, and a line joins each with the next of them. The path of CELL is drawn over
all that; where no cell is given, it is that of the last one among the farthest. A column with many cells shows the first
of them, and how many more there are; of many columns the first and the last are shown, and that of CELL with the one
before it.
"""
import html
import re
import sys
from itertools import groupby

if __name__ == "__main__" and sys.argv[1:] in ([], ["--help"]):
    sys.exit(print(__doc__.strip()) or len(sys.argv) < 2)

CLASSES = {
    0: ("class 0: 2 slots", "#dbe9f6"), 1: ("class 1: 4 slots", "#b9d7ee"), 2: ("class 2: 8 slots", "#8fbfe0"),
    3: ("class 3: 16 slots", "#5f9fce"), 4: ("class 4: a table", "#f3d9a4"),
}
PATH, LINK, PAIR, GROUP, LOST = "#c0392b", "#8b98a5", "#b07d1a", "#6f4fa0", "#f4f4f4"
LEFT, TOP, WIDE, HIGH, ACROSS, DOWN, MOST, ENDS = 118, 52, 86, 34, 176, 50, 14, 5


class Cell:
    """What a line says of a cell."""

    def __init__(self, number, kind):
        self.number, self.kind = number, kind
        self.links, self.pairs, self.group, self.root, self.path = [], [], 0, None, []

    def distance(self):
        return len(self.path) - 1


def read_cell(line):
    """The cell of a line, or none."""
    match = re.fullmatch(r"cell #(\d+) class (\d) (slots|pairs)(.*?)( props.*?)?( group \d+)? path (.+)", line)
    if not match:
        return None
    cell = Cell(int(match[1]), int(match[2]))
    for word in match[4].split():
        if match[3] == "pairs":
            key, value = word.split("=")
            cell.pairs.append((int(key[1:]), int(value[1:]) if value.startswith("#") else None))
        elif word.startswith("#"):
            cell.links.append((f"slot {len(cell.links)}", int(word[1:])))
    for word in (match[5] or "").split()[1:]:
        key, value = word.split("=")
        if value.startswith("#"):
            cell.links.append((key, int(value[1:])))
    cell.group = int((match[6] or " group 0").split()[1])
    if match[7] != "none":
        cell.root = match[7][:match[7].index(" #")]
        cell.path = [int(number) for number in re.findall(r"#(\d+)", match[7])]
    return cell


def columns_of(cells, path, chosen):
    """The cells of each distance that are shown, the chosen one and its path among them, and how many aren't; what nothing
    retains last."""
    columns, first = {}, {chosen, *path}
    for cell in sorted(cells.values(), key=lambda cell: cell.number):
        columns.setdefault(cell.distance() if cell.path else -1, []).append(cell)
    shown = []
    for distance in sorted(columns, key=lambda d: (d < 0, d)):
        column = columns[distance]
        kept = sorted(column, key=lambda cell: cell.number not in first)[:MOST]
        shown.append((distance, sorted(kept, key=lambda cell: cell.number), len(column) - len(kept)))
    here = next((at for at, (_, kept, _) in enumerate(shown) if any(cell.number == chosen for cell in kept)), 0)
    return with_gaps(shown, {*range(ENDS), *range(len(shown) - ENDS, len(shown)), here - 1, here})


def with_gaps(columns, wanted):
    """The columns that are wanted, and how many are between them; a single one between them is shown."""
    found = []
    for is_wanted, those in groupby(enumerate(columns), lambda column: column[0] in wanted):
        those = [column for _, column in those]
        found += those if is_wanted or len(those) == 1 else [(None, [], len(those))]
    return found


def text(x, y, words, anchor="start", size=11, colour="#222", weight="normal"):
    return (f'<text x="{x:.0f}" y="{y:.0f}" text-anchor="{anchor}" font-size="{size}" fill="{colour}" '
            f'font-weight="{weight}" paint-order="stroke" stroke="white" stroke-width="{2 if colour == PAIR else 0}">{html.escape(words)}</text>')


def many(count, word):
    return f"{count} {word}{'' if count == 1 else 's'}"


def curve(one, other, colour, width, dashes="", mark=""):
    """A line from a box to another: to the right, back to the left, or beside the two where one is under the other."""
    (x, y), (a, b) = one, other
    back = a < x
    x, y, a, b = x + WIDE, y + HIGH / 2, a, b + HIGH / 2
    if back:
        x, a, y, b = x - WIDE, a + WIDE, y + 9, b + 9
        bend, lane = (x - a) / 2, y + (DOWN - 18) / 2
        way = f"M {x:.0f} {y:.0f} C {x - bend:.0f} {y + 14:.0f} {a + bend:.0f} {b + 14:.0f} {a:.0f} {b:.0f}"
        if x - a > ACROSS:  # over the columns between, below the box that it comes from
            turn = (ACROSS - WIDE) / 2
            way = (f"M {x:.0f} {y:.0f} C {x - turn:.0f} {y:.0f} {x - turn:.0f} {lane:.0f} {x - 2 * turn:.0f} {lane:.0f} "
                   f"L {a + 2 * turn:.0f} {lane:.0f} C {a + turn:.0f} {lane:.0f} {a + turn:.0f} {b:.0f} {a:.0f} {b:.0f}")
    elif a > x:
        bend = (a - x) / 2
        way = f"M {x:.0f} {y:.0f} C {x + bend:.0f} {y:.0f} {a - bend:.0f} {b:.0f} {a:.0f} {b:.0f}"
    elif one == other:
        way = f"M {x:.0f} {y - 6:.0f} C {x + 26:.0f} {y - 24:.0f} {x + 26:.0f} {y + 24:.0f} {x:.0f} {y + 6:.0f}"
    else:
        out = 24 + abs(b - y) / 12
        a += WIDE
        way = f"M {x:.0f} {y + 5:.0f} C {x + out:.0f} {y + 5:.0f} {a + out:.0f} {b + 5:.0f} {a:.0f} {b + 5:.0f}"
    return (f'<path d="{way}" fill="none" stroke="{colour}" stroke-width="{width}"'
            f'{f" stroke-dasharray={chr(34)}{dashes}{chr(34)}" if dashes else ""} marker-end="url(#{mark})"/>')


def joined_groups(places, cells):
    """A line from each member of a group to the next one, below the middle, where a step of the path may lie."""
    groups, shapes = {}, []
    for number in sorted(places):
        if cells[number].group:
            groups.setdefault(cells[number].group, []).append(number)
    for members in groups.values():
        for one, other in zip(members, members[1:]):
            (x, y), (a, b) = places[one], places[other]
            x, y, a, b = x + WIDE / 2, y + HIGH - 7, a + WIDE / 2, b + HIGH - 7
            shapes.append(f'<path d="M {x:.0f} {y:.0f} L {a:.0f} {b:.0f}" stroke="{GROUP}" stroke-width="1.5" '
                          'stroke-dasharray="2 4" fill="none"/>')
    return shapes


def is_link(cells, one, other):
    """Whether a cell holds another in a slot or a property."""
    return any(target == other for _, target in cells[one].links)


def arrows(places, cells, path):
    """The links and pairs between the cells that are shown; those of the path over the others."""
    steps, below, above = set(zip(path, path[1:])), [], []
    for number in sorted(places):
        for _, target in cells[number].links:
            if target in places and (number, target) not in steps:
                below.append(curve(places[number], places[target], LINK, 1, "", "link"))
        for key, target in cells[number].pairs:
            if target in places:
                if (number, target) not in steps:
                    below.append(curve(places[number], places[target], PAIR, 1, "4 3", "pair"))
                (x, y), (a, b) = places[number], places[target]
                if a > x:
                    below.append(text(a - 8, b + HIGH / 2 - 6, f"key #{key}", "end", 9, PAIR))
    for one, other in zip(path, path[1:]):
        if one in places and other in places:
            dashes = "" if is_link(cells, one, other) else "6 3"
            above.append(curve(places[one], places[other], PATH, 2.5, dashes, "path"))
    return below, above


def box(place, cell, is_marked):
    """A cell's box, with its number, and its group where it is in one."""
    x, y = place
    fill = CLASSES[cell.kind][1] if cell.path else LOST
    edge, width = (PATH, 2.5) if is_marked else ("#556", 1)
    shapes = [f'<rect x="{x:.0f}" y="{y:.0f}" width="{WIDE}" height="{HIGH}" rx="5" fill="{fill}" stroke="{edge}" '
              f'stroke-width="{width}"/>', text(x + WIDE / 2, y + 15, f"#{cell.number}", "middle", 13, weight="bold")]
    holds = many(len(cell.pairs), "pair") if cell.kind == 4 else f"class {cell.kind}"
    shapes.append(text(x + WIDE / 2, y + 28, holds + (f", group {cell.group}" if cell.group else ""), "middle", 9, "#333"))
    return shapes


def legend(y, cells, path):
    """What the colours and lines mean, for those that there are."""
    shapes, x = [], 14
    for kind in sorted({cell.kind for cell in cells.values()}):
        shapes.append(f'<rect x="{x}" y="{y - 11}" width="16" height="13" rx="3" fill="{CLASSES[kind][1]}" stroke="#556"/>')
        shapes.append(text(x + 22, y, CLASSES[kind][0]))
        x += 132
    lines = [("a link", LINK, "")] + ([("the path", PATH, "")] if path else [])
    if any(cell.pairs for cell in cells.values()):
        lines.insert(1, ("a pair's value", PAIR, "4 3"))
    if any(cell.group for cell in cells.values()):
        lines.insert(1, ("one group", GROUP, "2 4"))
    if not all(is_link(cells, one, other) for one, other in zip(path, path[1:])):
        lines.append(("a step that is no link", PATH, "6 3"))
    x, y = 14, y + 20
    for words, colour, dashes in lines:
        extra = f' stroke-dasharray="{dashes}"' if dashes else ""
        shapes.append(f'<path d="M {x} {y - 4} h 24" stroke="{colour}" stroke-width="2"{extra}/>')
        shapes.append(text(x + 30, y, words))
        x += 132
    return shapes


def heads():
    """The points of the arrows."""
    return ["<defs>"] + [
        f'<marker id="{name}" viewBox="0 0 8 8" refX="7" refY="4" markerWidth="{size}" markerHeight="{size}" orient="auto">'
        f'<path d="M 0 0 L 8 4 L 0 8 z" fill="{colour}"/></marker>'
        for name, colour, size in (("link", LINK, 7), ("pair", PAIR, 7), ("path", PATH, 5))] + ["</defs>"]


def draw(cells, chosen):
    """The picture."""
    path = cells[chosen].path if chosen is not None else []
    shown = columns_of(cells, path, chosen)
    places, titles, high = {}, [], 1
    for at, (distance, column, more) in enumerate(shown):
        x = LEFT + at * ACROSS
        if distance is None:
            titles.append(text(x + WIDE / 2, TOP + 22, f"\u2026 {more} columns \u2026", "middle", 11, "#555"))
            continue
        title = "nothing retains it" if distance < 0 else "in a root" if distance == 0 else many(distance, "step")
        titles.append(text(x + WIDE / 2, TOP - 14, title, "middle", 11, "#555"))
        for row, cell in enumerate(column):
            places[cell.number] = (x, TOP + row * DOWN)
        if more:
            titles.append(text(x + WIDE / 2, TOP + len(column) * DOWN + 12, f"and {more} more", "middle", 11, "#555"))
        high = max(high, len(column) + (1 if more else 0))
    below, above = arrows(places, cells, path)
    width, height = LEFT + max(1, len(shown)) * ACROSS, TOP + high * DOWN + 62
    roots = []
    for number, (x, y) in places.items():
        if cells[number].path == [number]:
            on = path and path[0] == number
            roots.append(text(x - 16, y + 21, cells[number].root, "end", 11, PATH if on else "#222", "bold" if on else "normal"))
            roots.append(f'<path d="M {x - 13} {y + 17} h 11" stroke="{PATH if on else LINK}" stroke-width="{2.5 if on else 1}" '
                         f'marker-end="url(#{"path" if on else "link"})"/>')
    marked = {chosen, *path}
    boxes = [shape for number in sorted(places) for shape in box(places[number], cells[number], number in marked)]
    head = many(len(cells), "live cell")
    if chosen is not None and not path:
        head += f"; nothing retains #{chosen}"
    elif path:
        head += f"; why #{chosen} is one: {many(cells[chosen].distance(), 'step')} from {cells[chosen].root}"
    return "\n".join([
        f'<svg xmlns="http://www.w3.org/2000/svg" viewBox="0 0 {max(width, 720)} {height}" font-family="sans-serif">',
        f'<rect width="{max(width, 720)}" height="{height}" fill="white"/>', text(14, 20, head, size=13, weight="bold"),
        *heads(), *titles, *joined_groups(places, cells), *below, *boxes, *roots, *above, *legend(height - 34, cells, path), "</svg>"])


def lines_of(name):
    """The lines of a file, or of the standard input."""
    try:
        with sys.stdin if name == "-" else open(name, encoding="utf-8") as text:
            return text.read().splitlines()
    except (OSError, UnicodeDecodeError) as fault:
        sys.exit(f"{name} can't be read: {getattr(fault, 'strerror', None) or 'it is no text'}")


def number_of(word):
    """The number of a cell, with or without its #."""
    if not re.fullmatch(r"#?[0-9]+", word):
        sys.exit(f"{word} is no cell: give its number")
    return int(word.lstrip("#"))


def main():
    if len(sys.argv) not in (2, 3):
        sys.exit(__doc__.strip())
    found = [cell for cell in map(read_cell, lines_of(sys.argv[1])) if cell]
    cells = {cell.number: cell for cell in found}
    if not cells:
        sys.exit("the text has no line of a cell")
    if len(sys.argv) == 3:
        chosen = number_of(sys.argv[2])
        if chosen not in cells:
            sys.exit(f"the text has no line of #{chosen}")
    else:
        chosen = max((cell.distance(), cell.number) for cell in found)[1] if any(cell.path for cell in found) else None
    print(draw(cells, chosen))


main()
