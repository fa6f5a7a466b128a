#!/usr/bin/env python3
"""Tells in which freeze each cycle of a printed run began and ended, which were full, and why each cell was freed.

    python3 tools/schedule.py [--cycles] [--visitors N | --plain] WORKLOAD.toml TEXT

TEXT is a file with what riptide printed of the workload; either file may be named first, and be - for standard input. N is
the number of visitors that the run had, and --plain stands for a run with that option. A text has the calls and the cycles
apart. This looks for the ways through the freezes that the schedule allows, as judge/judge.py does, and prints each, part
by part:

- which calls stand in a part, as places in each mutator's block, from 1, with `then` between mutators that came in another
  order than that of their numbers; the freeze behind it is forced where a mutator stopped there or all have retired;
- where a cycle begins, its kind, how many old cells it spares, and how many its first pause has to make black of how many
  that it may; a cycle that goes on marks beside the next part's calls;
- where it ends, the cells that it freed, those that it kept for their age, and those that float, each with the call by which
  nothing retained it any more, and with the pair or the group where that alone held it until then. A cell that nothing
  retained at any moment of the cycle, and that is kept since its graph is that of all moments together, is told apart.

With --cycles it prints a line a cycle in their place: its kind, from which freeze to which it marked (freeze 3 is the one
behind part 3), how many cells were born since the end before it until it began, how many while it marked, and how many it
kept and freed.

It is of a run whose mutators called one after another in each part: of one mutator, a plain one, or on threads that came
out so. Where the order of their numbers doesn't give the text of a part, other orders of up to four mutators are tried, and
the first that does is told. Where several ways give the text it prints up to eight: the text doesn't tell them apart, unless
it was printed with --stats, whose lines have to be those of the way. Its status is 1 where it found none.
"""
import argparse
import copy
import itertools
import re
import sys
from dataclasses import dataclass, replace
from pathlib import Path

sys.path.append(str(Path(__file__).resolve().parent.parent / "judge"))
import judge
import judge_threads
import model
import why

if __name__ == "__main__" and sys.argv[1:] in ([], ["--help"]):
    sys.exit(print(__doc__.strip()) or len(sys.argv) < 2)

MOST_WAYS, MOST_LOOKED = 8, 5000
# of more mutators than so many no other order is tried than that of their numbers
MOST_ORDERED = 4
STATS = re.compile(r"^stats (\d+) (full|Eden) freezes (\d+) born (\d+) marking (\d+) paused \d+ visited \d+$", re.M)
STORES = ("put", "setp", "add")


@dataclass
class Begin:
    """The beginning of a cycle, and how many cells its first pause has to make black of how many that it may."""

    cycle: int
    kind: str
    spared: int
    needed: int
    budget: int
    is_forced: bool


@dataclass
class End:
    """The end of a cycle. `why` has, for each reason, cells and the call by which nothing retained them any more."""

    cycle: int
    kept: int
    freed: int
    why: list


@dataclass
class Part:
    """A part with the freeze behind it. `calls` has for each mutator how many calls it had made before and after it, and
    `order` in which order they made them."""

    number: int
    calls: list
    order: tuple
    marks: int
    is_forced: bool
    events: tuple = ()


class Store(model.Store):
    """A store that tells its last call, and whether that was refused."""

    def call(self, who, op):
        self.last, self.was_refused = (who, op), True
        reply = super().call(who, op)
        self.was_refused = False
        return reply


class Told(judge.Run):
    """A run whose parts and freezes are told as it is followed."""

    def __init__(self, work, replies, cycles, visitors):
        super().__init__(work, replies, cycles)
        self.store, self.visitors, self.parts = Store(work), visitors, ()
        # what was held and retained after the last call; of each other live cell the call by which it was let go, and what
        # held it until then, where that is neither a root nor a link
        self.held, self.retained, self.let_go, self.hung = judge.held(self.store), set(), {}, {}
        # what was retained at some moment of the cycle; the old cells that got a reference while none marked
        self.ever, self.stored_into = set(), set()
        # how many cells visits of the cycle may have made black; how many were surely black, and the stores since
        self.blackened, self.black, self.stores, self.has_to_end = 0, 0, 0, False

    def part(self):
        before, marks = list(self.told), self.span is not None
        self.blackened += self.visitors * self.shares()[1] if marks else 0
        is_forced = super().part()
        calls = list(zip(before, self.told))
        self.parts += (Part(len(self.parts) + 1, calls, tuple(self.order), self.ended + 1 if marks else 0, is_forced),)
        return is_forced

    def note(self):
        super().note()
        (who, op), store = self.store.last, self.store
        held = judge.held(store)
        now = judge.closed(*held)
        self.let_go = {cell: by for cell, by in self.let_go.items() if cell not in now}
        lost, call = self.retained - now, (who, self.told[who], model.text_of(op))
        self.let_go |= dict.fromkeys(lost, call)
        self.hung |= self.held_by(lost)
        self.held, self.retained, self.ever = held, now, self.ever | now
        if op[0] in STORES and not store.was_refused and isinstance(store.registers[who][op[3]], tuple):
            self.stored_into.add(store.registers[who][op[1]][1])
            self.stores += 1

    def held_by(self, cells):
        """What held each of these cells before the last call, in words, where that is neither a root nor a link."""
        if not cells:
            return {}
        roots, links, pairs, _ = self.held
        linked = roots | {other for one, other in links if one in self.retained}
        paired = {value for table, key, value in pairs if table in self.retained and key in self.retained}
        kinds = " (held by a pair)", " (held by its group)"
        return {cell: "" if cell in linked else kinds[cell not in paired] for cell in cells}

    def tell(self, event):
        last = self.parts[-1]
        self.parts = (*self.parts[:-1], replace(last, events=(*last.events, event)))

    def begin(self, is_forced):
        super().begin(is_forced)
        roots, *others = judge.held(self.store)
        self.ever = judge.closed(roots, *others)
        old = self.spared
        needed = len(judge.closed(roots | old, *others) - old) + len(self.stored_into & old)
        budget = len(self.store.cells) if is_forced else self.shares()[0]
        kind = "full" if judge.is_full_cycle(self.ended + 1, is_forced) else "Eden"
        self.blackened, self.stores = min(needed, budget), 0
        self.black = len(old) - len(self.stored_into & old) + self.blackened
        self.tell(Begin(self.ended + 1, kind, len(old), needed, budget, is_forced))

    def end(self):
        kept, freed = self.cycles[self.ended] if self.ended < len(self.cycles) else (0, [])
        if not self.has_to_end and kept > self.blackened + self.in_cycle + len(self.spared):
            raise judge.Wrong("more is kept than was made black, was born in the cycle and is old")
        left, now, spared = set(self.store.cells) - set(freed), self.retained, self.spared
        super().end()
        groups = {"freed": set(freed), "kept for its age": left & spared - now, "floats": (left - spared - now) & self.ever}
        groups["retained at no one moment of the cycle"] = left - spared - self.ever
        why = [(reason, self.by_call(cells)) for reason, cells in groups.items() if cells]
        self.tell(End(self.ended, kept, len(freed), why))
        self.stored_into = set()

    def most_left(self):
        """How many cells are left to be made black at most: a store of a reference may have made one grey again."""
        return len(self.store.cells) - self.in_cycle - self.black + self.stores

    def by_call(self, cells):
        """These cells by the calls by which they were let go, in the order of the cells."""
        found = {}
        for cell in sorted(cells):
            call = self.let_go.get(cell)
            found.setdefault(call, []).append(f"#{cell}{self.hung[cell] if call else ''}")
        return list(found.items())


def pauses(run, has_to_end, least, most, budget):
    """The ways in which a pause may leave the cycle, which has so many cells to make black at least and at most."""
    run.has_to_end = has_to_end
    ways = judge.pauses(run, has_to_end)
    return [way for way in ways if has_to_end or (least <= budget if way.span is None else most > budget)]


def freezes(run, is_forced):
    """The ways through a freeze, as judge.freezes has them. The program's cycle ends once nothing is left to mark."""
    marked, is_due = [run], run.span is None and 0 < run.work["trigger"] <= run.since_end
    if run.span is not None:
        share, calls = run.shares()
        most = run.most_left()
        run.blackened, run.black = run.blackened + share, run.black + share
        marked = pauses(run, is_forced or calls == 0, 0, most, share)
    for way in marked:
        if not is_forced and not is_due:
            yield way
            continue
        way = copy.deepcopy(way)
        way.begin(is_forced)
        begun = way.parts[-1].events[-1]
        for after in pauses(way, is_forced, begun.needed, begun.needed, begun.budget):
            if is_forced:
                after.store.sweep_all()
            yield after


def read(text):
    """The replies of each mutator, and each cycle as (kept, freed cells)."""
    blocks = [block.splitlines() for block in re.split(r"^mutator \d+\n", text, flags=re.M)[1:]]
    tail = [line for line in blocks[-1] if line.startswith("cycle ")] if blocks else []
    cycles = [(int(line.split()[3]), [int(n) for n in re.findall(r"#(\d+)", line)]) for line in tail]
    return [[line for line in block if " = " in line and not line.startswith("cell ")] for block in blocks], cycles


def after_part(run, orders):
    """A run after its next part, with the mutators in the first of these orders that gives the text, and whether its freeze
    is forced; or None where none does."""
    for order in orders:
        after = copy.deepcopy(run) if len(orders) > 1 else run
        after.order = order
        try:
            return after, after.part()
        except judge.Wrong:
            continue
    return None


def ways_through(document, text, visitors=0, is_plain=False):
    """The ways through the freezes that give this text, at most so many, and whether there may be more."""
    (replies, cycles), work = read(text), judge_threads.read_workload(document)
    stats = [tuple(map(str, line)) for line in STATS.findall(text)]
    if is_plain:
        work["trigger"] = 0
    ways, found, looked = [Told(work, replies, cycles, visitors)], [], 0
    orders = [tuple(range(ways[0].count))]
    if not is_plain and ways[0].count <= MOST_ORDERED:
        orders = list(itertools.permutations(orders[0]))
    while ways and len(found) < MOST_WAYS and looked < MOST_LOOKED:
        looked += 1
        after = after_part(ways.pop(), orders)
        for way in freezes(*after) if after else []:
            if any(way.store.active):
                ways.append(way)
            elif way.ended == len(cycles) and way.span is None and stats in ([], [line_of(one) for one in cycles_of(way)]):
                found.append(way)
    return found, bool(ways)


def counted(count, what):
    return f"{count} {what}{'s'[:count != 1]}"


def lines_of(event):
    """What is printed of a beginning or an end."""
    if isinstance(event, Begin):
        are = "is" if event.spared == 1 else "are"
        old = f"{counted(event.spared, 'old cell')} {are} spared" if event.kind == "Eden" else "no cell is spared"
        may = f"all {event.budget}, since it is forced" if event.is_forced else f"{event.budget} that it may"
        pause = f"its first pause has {counted(event.needed, 'cell')} to make black, of {may}"
        return [f"  cycle {event.cycle} begins, {event.kind}: {old}; {pause}"]
    lines = [f"  cycle {event.cycle} ends: kept {event.kept}, freed {event.freed}"]
    for reason, by_call in event.why:
        for call, cells in by_call:
            who, place, op = call or (None, None, None)
            by = f", let go by call {place} of mutator {who} ({op})" if call else ", still held"
            lines.append(f"    {reason}: {' '.join(cells)}{by}")
    return lines


def told(way):
    """A way through the freezes, part by part."""
    for part in way.parts:
        calls = [
            f"mutator {who} makes " + (f"call {b}" if b == a + 1 else f"calls {a + 1} to {b}")
            for who in part.order for a, b in [part.calls[who]] if b > a
        ]
        marks = f"; cycle {part.marks} marks" if part.marks else ""
        forced = "; the freeze is forced" if part.is_forced else ""
        between = ", " if list(part.order) == sorted(part.order) else ", then "
        yield f"part {part.number}: {between.join(calls) or 'no calls'}{marks}{forced}"
        for event in part.events:
            yield from lines_of(event)


def is_birth(reply):
    """Whether a line of a mutator's block tells of a new cell."""
    return reply.startswith(("alloc ", "table ")) and " = #" in reply


@dataclass
class Cycle:
    """A cycle: its kind, the freezes in which it began and ended, and the births before it and while it marked."""

    end: End
    kind: str
    first: int
    last: int
    before: int
    marking: int


def cycles_of(way):
    """The cycles of a way through the freezes."""
    born, begun = 0, None
    for part in way.parts:
        born += sum(is_birth(reply) for own, (a, b) in zip(way.replies, part.calls) for reply in own[a:b])
        for event in part.events:
            if isinstance(event, Begin):
                begun = event.kind, part.number, born
                continue
            kind, first, before = begun
            yield Cycle(event, kind, first, part.number, before, born - before)
            born = 0


def line_of(cycle):
    """What a line of --stats says of a cycle, as far as a text of calls tells it."""
    return tuple(map(str, (cycle.end.cycle, cycle.kind, cycle.last - cycle.first + 1, cycle.before, cycle.marking)))


def cycles_told(way):
    """A way through the freezes, a line a cycle."""
    for one in cycles_of(way):
        freezes = f"freeze {one.first}" if one.first == one.last else f"freezes {one.first} to {one.last}"
        births = f"born {one.before} before it, {one.marking} while it marked"
        yield f"cycle {one.end.cycle}, {one.kind}, {freezes}: {births}; kept {one.end.kept}, freed {one.end.freed}"


def content_of(name):
    """What a file has, or standard input where its name is -."""
    try:
        return sys.stdin.read() if name == "-" else Path(name).read_text(encoding="utf-8")
    except (OSError, UnicodeDecodeError) as error:
        sys.exit(f"{name}: {getattr(error, 'strerror', 'it is not UTF-8')}")


def told_apart(names):
    """A workload and the text of its run, each as its name and what it has, told apart by that."""
    given = [(name, content_of(name)) for name in names]
    texts = [one for one in given if re.search(r"^live \d+$", one[1], re.M)]
    workloads = [one for one in given if one not in texts]
    if len(texts) != 1 or len(workloads) > 1:
        have = f"of {' and '.join(names)} {len(texts)} do"
        sys.exit(f"a text has a line `live N`, and {have}: name a workload and the text of its run")
    if not workloads:
        return None, texts[0]
    (name, document), (_, text) = workloads[0], texts[0]
    lines, taken = why.explained(document.encode())
    if not taken:
        sys.exit(f"{name}: {lines[0]}; python3 tools/why.py {name} says more")
    blocks, count = len(read(text)[0]), len(judge_threads.read_workload(document)["mutators"])
    if blocks != count:
        sys.exit(f"the text has the calls of {counted(blocks, 'mutator')}, and the workload has {count}")
    return workloads[0], texts[0]


def no_way(document, text):
    """What is said where no way was found: which mutators may have met, and what the text says all the same."""
    mutators = judge_threads.read_workload(document)["mutators"]
    classes = [{op[2] if op[0] == "alloc" else 4 for op in ops if op[0] in ("alloc", "table")} for ops in mutators]
    pairs = [(one, other) for other in range(len(classes)) for one in range(other)]
    met = next(((one, other, min(both)) for one, other in pairs if (both := classes[one] & classes[other])), None)
    lines = " and its lines of --stats" if STATS.search(text) else ""
    told = f"no way through the freezes was found that gives this text{lines} with the mutators one after another in each part"
    if met:
        why_not = "mutators {} and {} both allocate in class {}, so each may have called between the other's calls"
        told += ": " + why_not.format(*met)
    holds = "the text's replies, and what each cycle kept and freed, hold where judge/judge_threads.py WORKLOAD TEXT accepts it"
    return f"{told}; {holds}"


def main():
    usage = "python3 tools/schedule.py [--cycles] [--visitors N | --plain] WORKLOAD.toml TEXT"
    parser = argparse.ArgumentParser(usage=usage, add_help=False)
    parser.add_argument("files", nargs=2)
    parser.add_argument("--cycles", action="store_true")
    kinds = parser.add_mutually_exclusive_group()
    kinds.add_argument("--visitors", type=int, default=0)
    kinds.add_argument("--plain", action="store_true")
    given = parser.parse_args()
    workload, (_, text) = told_apart(given.files)
    document = workload[1]
    found, may_be_more = ways_through(document, text, given.visitors, given.plain)
    if not found:
        sys.exit(no_way(document, text))
    for number, way in enumerate(found, 1):
        if len(found) > 1 or may_be_more:
            print(f"way {number} of {len(found)}{' or more' if may_be_more else ''}")
        print("\n".join(cycles_told(way) if given.cycles else told(way)))


if __name__ == "__main__":
    main()
