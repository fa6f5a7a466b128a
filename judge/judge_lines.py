#!/usr/bin/env python3
"""Runs random workloads with `--snapshot`, and judges the lines of their cells.

    python3 judge/judge_lines.py PROGRAM [FIRST [COUNT]]

PROGRAM is a built `riptide`. The workloads are those of model.py for the seeds FIRST (0) to FIRST + COUNT (200) - 1, with more
operations behind them that build what strong handles hold; half of those of several mutators are run with visitors. How far
each cell is is found here anew, from what the lines say that cells hold. All of this has to hold:

- there is one line for each cell that lives at the end, in rising order, and something retains each, since the last cycle
  freed all else;
- what it holds lives, the keys of its pairs rise, and each path leads to its cell, from a strong handle by steps: along a
  slot or a property, from a table to the value of a pair whose key is retained, or to another cell of its group;
- no path is longer than the distance that was found.

Of one mutator the model tells the whole state at the end: the text before the lines, what each cell holds and what the
strong handles hold have to be the model's. Of several the roots are the cells with which some path begins: a handle
that no line names isn't missed where another one retains its cell. Where something is otherwise, the workload is kept in a
temporary file, and the status is 1.
"""
import random
import re
import subprocess
import sys
import tempfile

import model

if __name__ == "__main__" and sys.argv[1:] in ([], ["--help"]):
    sys.exit(print(__doc__.strip()) or len(sys.argv) < 2)

VALUE = r"(?:-|#?\d+)"
LINE = re.compile(rf"cell #(\d+) class (\d) (?:slots((?: {VALUE})*)|pairs((?: #\d+={VALUE})*))(?: props((?: [a-z]\w*={VALUE})+))?"
                  r"(?: group (\d+))? path (none|strong (\d+)((?: #\d+)+))")


class Wrong(Exception):
    pass


class Line:
    """What a line says of its cell."""

    def __init__(self, words):
        match = LINE.fullmatch(words)
        if not match:
            raise Wrong(f"no line of a cell: {words!r}")
        self.number, self.group = int(match[1]), int(match[6] or 0)
        self.body = words[: words.index(" path ")]
        entries = [entry.split("=") for entry in (match[4] or "").split()]
        self.pairs = [(int(key[1:]), value) for key, value in entries]
        values = (match[3] or "").split() + [entry.split("=")[1] for entry in (match[5] or "").split()]
        self.links = cells(values)
        self.handle = int(match[8]) if match[8] else None
        self.path = cells((match[9] or "").split())


def cells(values):
    return [int(value[1:]) for value in values if value.startswith("#")]


def body_of(number, cell):
    """What the line of a model's cell says before its path."""
    line = f"cell #{number} class {cell.kind} " + ("pairs" if cell.kind == model.TABLE else "slots")
    line += "".join(f" {model.shown(value)}" for value in cell.slots)
    line += "".join(f" #{key}={model.shown(cell.pairs[key])}" for key in sorted(cell.pairs))
    if cell.keys:
        line += " props" + "".join(f" {key}={model.shown(value)}" for key, value in zip(cell.keys, cell.properties))
    return line + (f" group {cell.group}" if cell.group else "")


def steps_from(line, lines, retained):
    """The cells to which one step leads."""
    found = set(line.links)
    found.update(number for key, value in line.pairs if key in retained for number in cells([value]))
    if line.group:
        found.update(other.number for other in lines.values() if other.group == line.group)
    return found


def distances(roots, lines):
    """How far each cell is that is retained: a fixpoint, and then rounds."""
    grown, retained = set(roots), None
    while grown != retained:
        retained, grown = grown, grown.union(*(steps_from(lines[number], lines, grown) for number in grown))
    far, level, steps = {}, set(roots), 0
    while level:
        far.update((number, steps) for number in level)
        level = set().union(*(steps_from(lines[number], lines, retained) for number in level)) - set(far)
        steps += 1
    return far


def judge_path(line, lines, far, holds):
    """The path of a line is a shortest one."""
    if line.number not in far:
        raise Wrong(f"#{line.number} isn't retained")
    if line.path[-1] != line.number or not holds(line.handle, line.path[0]):
        raise Wrong(f"the path of #{line.number} doesn't lead to it from a root")
    for one, other in zip(line.path, line.path[1:]):
        if other not in steps_from(lines[one], lines, far):
            raise Wrong(f"no step leads from #{one} to #{other}")
    if len(line.path) - 1 != far[line.number]:
        raise Wrong(f"#{line.number} is {far[line.number]} steps far")


def judge_store(text, lines, store, expected):
    """What the model has, where one mutator ran."""
    if text != expected:
        raise Wrong("another text before the lines")
    for number, line in lines.items():
        if line.body != body_of(number, store.cells[number]):
            raise Wrong(f"{line.body!r}, and not {body_of(number, store.cells[number])!r}")


def judge(work, printed):
    """Raises where a printed text isn't right. Answers how many lines it has, and the length of its longest path."""
    text, live, told = printed.partition("\nlive ")
    count, *rest = told.splitlines()
    read = [Line(words) for words in rest]
    lines = {line.number: line for line in read}
    if [line.number for line in read] != sorted(lines) or len(lines) != int(count):
        raise Wrong("not one line for each live cell, in rising order")
    for line in read:
        if any(number not in lines for number in line.links + cells(value for _, value in line.pairs)):
            raise Wrong(f"#{line.number} holds a cell that doesn't live")
        if [key for key, _ in line.pairs] != sorted({key for key, _ in line.pairs} & set(lines)):
            raise Wrong(f"the keys of #{line.number}'s pairs don't rise, or one doesn't live")
        if not line.path:
            raise Wrong(f"nothing retains #{line.number}, which lives at the end")
    if len(work["mutators"]) == 1:
        store, expected = model.model_run(work)
        judge_store(f"{text}{live}{count}\n", lines, store, expected)
        strong = dict(enumerate(store.strong))
        roots = {value[1] for value in store.strong if isinstance(value, tuple)}
    else:
        strong = {line.handle: ("cell", line.path[0]) for line in read if line.handle < work["strong"]}
        roots = {line.path[0] for line in read}
    if not roots <= set(lines):
        raise Wrong("a root that doesn't live")
    far = distances(roots, lines)
    for line in read:
        judge_path(line, lines, far, lambda handle, cell: strong.get(handle) == ("cell", cell))
    return len(read), max(far.values(), default=0)


def building(draw, work):
    """Operations that build something out of cells of all kinds, and put parts of it into strong handles."""
    def register():
        return draw.randrange(work["registers"])

    def new():
        one, other = register(), register()
        slot = draw.randrange(2)
        return [("alloc", one, draw.randrange(4)), draw.choice([("put", other, slot, one), ("put", one, slot, other)])]

    def table():
        one = register()
        return [("table", one), ("claim", one), ("strong", draw.randrange(work["strong"]), one)]

    def property():
        one, key = register(), draw.choice(work["shapes"])[0]
        return [("claim", one), ("add", one, key, register()), ("release", one)]

    def pair():
        one = register()
        return [("claim", one), ("pair", one, register(), register()), ("release", one)]

    kinds = [(new, 8), (table, 2), (property, 3), (pair, 6),
             (lambda: [("put", register(), draw.randrange(2), register())], 5),
             (lambda: [("get", register(), register(), draw.randrange(2))], 3),
             (lambda: [("group", register(), draw.randint(1, 4))], 2),
             (lambda: [("move", register(), register())], 2),
             (lambda: [("strong", draw.randrange(work["strong"]), register())], 2)]
    made = draw.choices([make for make, _ in kinds], [weight for _, weight in kinds], k=draw.randint(10, 120))
    return [op for make in made for op in make()]


def drawn(seed):
    """A workload, its document, and the words of its command line."""
    work, _ = model.drawn(seed)
    draw = random.Random(f"lines {seed}")
    work["registers"], work["strong"] = draw.choice([8, 16]), draw.choice([8, 16])
    work["blocks"], work["arrays"] = [draw.randint(1, 2) for _ in range(5)], [1, 1, 1, 0, 0]
    if draw.random() < 0.6:
        work["mutators"] = work["mutators"][:1]
    for ops in work["mutators"]:
        ops += building(draw, work)
    words = ["--snapshot"]
    if len(work["mutators"]) > 1 and draw.random() < 0.5:
        words += ["--visitors", str(draw.randint(1, 8))]
    return work, model.document_of(work), words


def main():
    program, first, count = sys.argv[1], *[int(word) for word in (sys.argv[2:] + ["0", "200"][len(sys.argv) - 2:])[:2]]
    judged = longest = 0
    for seed in range(first, first + count):
        work, document, words = drawn(seed)
        ended = subprocess.run([program, *words], input=document.encode(), capture_output=True)
        try:
            if ended.returncode:
                raise Wrong(f"status {ended.returncode}, {ended.stderr.decode().strip()}")
            lines, far = judge(work, ended.stdout.decode())
        except Wrong as wrong:
            with tempfile.NamedTemporaryFile("w", suffix=".toml", delete=False) as out:
                out.write(document)
            print(f"seed {seed} {' '.join(words)}: {wrong}; see {out.name}")
            sys.exit(1)
        judged, longest = judged + lines, max(longest, far)
    print(f"{count} workloads with a snapshot, {judged} lines of cells, the farthest cell {longest} steps from a root")


if __name__ == "__main__":
    main()
