#!/usr/bin/env python3
"""Runs random workloads whose mutators want blocks of dead cells at once, and judges each text as judge_threads.py does.

    python3 judge/crowds.py [--facts] [--visitors=N] PROGRAM [FIRST [COUNT]]

PROGRAM is a built `riptide`. The workloads are drawn for the seeds FIRST (0) to FIRST + COUNT (200) - 1. In each part about as
many cells are born as the classes have, of one, two or four blocks, or as there are arrays for their properties; most of them
die at its end, and cycles begin by themselves. So a part often opens where little is free and nearly all of the rest is dead,
and who allocates first sweeps. Of two workloads one has 2 to 16 mutators in short periods. The other has 2 to 4, in periods
of some hundred calls, which allocate between calls that touch no cell: so that one allocates while another sweeps.

What is judged, and what --facts and --visitors mean, judge_threads.py says. What the texts had is counted and printed: the
cycles; the blocks that were swept in parts, and those of which several mutators got cells that had been dead; the refusals
for room, and those beside another's sweep, where the class wasn't full at the end of the part. They are counted on the way
through the freezes that was found; of a text that is undecided, its calls alone.
"""
import collections
import random
import sys

import judge_threads
import model

if __name__ == "__main__" and sys.argv[1:] in ([], ["--help"]):
    sys.exit(print(__doc__.strip()) or len(sys.argv) < 2)

KEYS = "abcde"


def unit(draw, kind, keys):
    """A birth, and what is done at once with the cell."""
    born = [("table", 0) if kind == model.TABLE else ("alloc", 0, kind)]
    if kind != model.TABLE and keys:
        return born + [("claim", 0), *(("add", 0, key, 0) for key in keys), ("release", 0)]
    return born + [("strong", draw.randrange(2), 0)] * (draw.random() < 0.03)


def share(draw, units, rest):
    """The units with so many calls between them that touch no cell, behind which the last cell is let go."""
    places = draw.choice([1, 2, 5])
    for _ in range(places):
        units.insert(draw.choice([0, draw.randrange(len(units) + 1)]), [("set", 1, 1)] * (rest // places))
    return sum(units, []) + [("drop", 0)]


def drawn(seed):
    """A workload whose mutators want blocks of dead cells at once, and its document."""
    draw = random.Random(f"crowd {seed}")
    kinds, blocks = draw.sample(range(5), draw.choice([1, 1, 1, 2])), draw.choice([1, 1, 2, 4])
    keys, many = draw.choice(["", "", KEYS[:1], KEYS]), seed % 2 == 0
    work = {"registers": 2, "strong": 2, "weak": 1, "blocks": [blocks * (kind in kinds) for kind in range(5)]}
    work["arrays"], work["shapes"] = [draw.choice([1, 1, 2]), int(draw.random() < 0.9), 0, 0, 0], [list(KEYS)]
    count = draw.choice([2, 4, 8, 16, 16] if many else [2, 2, 3, 4])
    cells = model.BLOCK * min(blocks * len(kinds), *[work["arrays"][0]] * bool(keys), 8)
    births = max(1, int(cells * draw.choice([0.4, 0.6, 0.75, 0.9, 1])) // count)
    rest = draw.choice([0, 0, 1, 4, 16] if many else [16, 64, 256])
    work["period"] = max(4, len(share(draw, [unit(draw, kinds[0], keys)] * births, rest)))
    work["headroom"], work["trigger"] = draw.choice([1, 16, 1000]), draw.choice([1, births * count // 2, births * count])
    work["mutators"] = []
    for _ in range(count):
        shares = [share(draw, [unit(draw, draw.choice(kinds), keys) for _ in range(births)], rest)
                  for _ in range(draw.choice([2, 4, 8] if many else [2, 3, 4]))]
        work["mutators"].append(sum(shares, []))
    return work, judge_threads.document_of(work)


class Sweeps(judge_threads.Tally):
    """What texts had of sweeps, and else as the judge counts it."""

    def __init__(self):
        super().__init__()
        self.sweeps = collections.Counter()

    def count(self, work, text, way):
        super().count(work, text, way)
        told, _, parts = way or ((), (), ())
        self.sweeps["cycles"] += text.count("\ncycle ")
        self.sweeps["refusals for room"] += text.count(" = full ")
        for part in parts:
            shares = [set(one.born[start:end]) for one, start, end in zip(told, part.before, part.after)]
            for block in {cell // model.BLOCK for cell in part.revived}:
                own = {cell for cell in part.revived if cell // model.BLOCK == block}
                self.sweeps["blocks swept in a part"] += 1
                takers = sum(1 for born in shares if own & born)
                self.sweeps["of them blocks of which several mutators got cells"] += takers > 1
            beside = set(part.late.values())
            self.sweeps["refusals beside another's sweep"] += sum(len(part.refused[kind]) for kind in beside)

    def told(self):
        return ", ".join(f"{count} {name}" for name, count in self.sweeps.items()) + "\n" + super().told()


if __name__ == "__main__":
    judge_threads.main(drawn, Sweeps())
