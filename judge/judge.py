#!/usr/bin/env python3
"""Runs random workloads whose cycles begin by themselves, and judges each text by what the schedule allows.

    python3 judge/judge.py PROGRAM [FIRST [COUNT]]

PROGRAM is a built `riptide`. The workloads are those of model.py for the seeds FIRST (0) to FIRST + COUNT (200) - 1, with
a trigger, and with small periods and headrooms. A text doesn't say in which freeze a cycle ended, so the judge looks for
some way through the freezes, in which all of this holds:

- each reply is the one of a plain store from which just the cells went that the text says, and in which a block is swept by
  the operation that finds nothing free in it, by the freeze that next begins a cycle before it does, and by a forced freeze;
- a cycle frees nothing that is retained where it ends, keeps only what the roots, links, pairs and groups of all its moments
  reach together, and what it keeps holds nothing that it frees; an Eden cycle, which begins in no forced freeze and whose
  number is no multiple of four, keeps all that lived at the last end, as if that were held;
- what it kept and freed adds up, and so do the live cells at the end;
- it begins where the schedule says, and ends at the latest where the schedule says.

Several mutators run on threads: where no way fits with their calls one after another, judge_threads.py judges the text,
whatever their order. Where there is no such way, the workload is kept in a temporary file, and the status is 1. The store is that of model.py,
written from docs/WORKLOAD.md alone.
"""
import copy
import random
import re
import subprocess
import sys
import tempfile

import model

if __name__ == "__main__" and sys.argv[1:] in ([], ["--help"]):
    sys.exit(print(__doc__.strip()) or len(sys.argv) < 2)

MOST = 20000


class Wrong(Exception):
    pass


def held(store):
    """What a store holds at a moment: roots, links, pairs as (table, key, value) and members of groups."""
    roots, links, pairs, members = set(), set(), set(), set()

    def cells(values):
        return [value[1] for value in values if isinstance(value, tuple)]

    for who, registers in enumerate(store.registers):
        if store.active[who]:
            roots.update(cells(registers))
        roots.update(store.claims[who])
    roots.update(cells(store.strong))
    for number, cell in store.cells.items():
        links.update((number, other) for other in cells(cell.slots + cell.properties))
        pairs.update((number, key, other) for key, value in cell.pairs.items() for other in cells([value]))
        if cell.group:
            members.add((cell.group, number))
    return roots, links, pairs, members


def closed(roots, links, pairs, members):
    """The least set with the roots that is closed under links, pairs and groups."""
    kept = set(roots)
    while True:
        more = {other for one, other in links if one in kept}
        more |= {value for table, key, value in pairs if table in kept and key in kept}
        groups = {group for group, number in members if number in kept}
        more |= {number for group, number in members if group in groups}
        if more <= kept:
            return kept
        kept |= more


def is_full_cycle(number, is_forced):
    """Whether the cycle of this number is a full one where it begins in such a freeze."""
    return is_forced or number % 4 == 0


class Run:
    """A run as far as it was followed."""

    def __init__(self, work, replies, cycles):
        self.work, self.replies, self.cycles = work, replies, cycles
        self.store = model.Store(work)
        self.count = len(work["mutators"])
        # in which order the mutators make their calls of a part, one after another
        self.order = range(self.count)
        self.done, self.retry, self.told = [0] * self.count, [False] * self.count, [0] * self.count
        self.ended = 0
        self.span, self.spared = None, set()
        self.in_cycle = self.since_end = 0

    def shares(self):
        """How many cells a pause makes black, and how many calls each mutator then has."""
        period, headroom = self.work["period"], self.work["headroom"]
        stopped = min(period, max(period // 4, -(-period * self.in_cycle // headroom)))
        return stopped, period - stopped

    def note(self):
        """While a cycle marks, what stands now belongs to what stood while it ran."""
        if self.span is not None:
            for all_of, now in zip(self.span, held(self.store)):
                all_of |= now

    def part(self):
        """A running part. Answers whether the freeze after it is forced."""
        run = self.work["period"] if self.span is None else self.shares()[1]
        is_forced = False
        for who in self.order:
            ops = self.work["mutators"][who]
            for _ in range(run):
                if not self.store.active[who]:
                    break
                over = self.done[who] >= len(ops)
                op = ops[self.done[who]] if not over else ("unclaim",) if self.store.claims[who] else ("retire",)
                try:
                    reply = self.store.call(who, op)
                except model.Refused as refusal:
                    reply = str(refusal)
                if self.told[who] >= len(self.replies[who]):
                    raise Wrong("a call too few")
                if f"{model.text_of(op)} = {reply}" != self.replies[who][self.told[who]]:
                    raise Wrong(f"{model.text_of(op)} = {reply}, and not {self.replies[who][self.told[who]]}")
                self.told[who] += 1
                if op[0] in ("alloc", "table") and reply.startswith("#"):
                    self.in_cycle += 1
                    self.since_end += 1
                self.note()
                first = reply.startswith("full ") and not self.retry[who]
                self.retry[who] = first
                if not first and not over:
                    self.done[who] += 1
                if first or reply == "asked":
                    is_forced = True
                    break
        return is_forced or not any(self.store.active)

    def begin(self, is_forced):
        self.store.sweep_all()
        self.span = held(self.store)
        self.spared = set() if is_full_cycle(self.ended + 1, is_forced) else self.store.old
        self.in_cycle = 0

    def end(self):
        """The cycle ends, and frees what the text says."""
        if self.ended >= len(self.cycles):
            raise Wrong("a cycle too few")
        kept, freed = self.cycles[self.ended]
        store, gone = self.store, set(freed)
        if freed != sorted(gone) or not gone <= set(store.cells):
            raise Wrong("a freed cell that isn't live")
        left = set(store.cells) - gone
        if len(left) != kept:
            raise Wrong("kept and freed don't add up")
        if gone & self.spared:
            raise Wrong("an Eden cycle frees an old cell")
        if closed(*held(store)) & gone:
            raise Wrong("a retained cell is freed")
        roots, *others = self.span
        if not left <= closed(roots | self.spared, *others):
            raise Wrong("a cell is kept that nothing held")
        _, links, pairs, members = held(store)
        if closed(left, links, pairs, members) & gone:
            raise Wrong("what is kept holds what is freed")
        store.free(gone)
        self.ended += 1
        self.span = None
        self.since_end = 0


def pauses(run, has_to_end):
    """The ways in which a pause may leave the cycle: ended, or going on."""
    if not has_to_end:
        yield copy.deepcopy(run)
    ended = copy.deepcopy(run)
    try:
        ended.end()
    except Wrong:
        return
    yield ended


def freezes(run, is_forced):
    """The ways through a freeze."""
    marked = [run] if run.span is None else list(pauses(run, is_forced or run.shares()[1] == 0))
    for way in marked:
        trigger = way.work["trigger"]
        is_due = run.span is None and 0 < trigger <= run.since_end
        if is_forced or is_due:
            way = copy.deepcopy(way)
            way.begin(is_forced)
            for ended in pauses(way, is_forced):
                if is_forced:
                    ended.store.sweep_all()
                yield ended
        else:
            yield way


def accepts(work, text):
    """Whether some way through the freezes gives the text; or None where too many were looked at."""
    blocks = re.split(r"^mutator \d+\n", text, flags=re.M)[1:]
    lines = [block.splitlines() for block in blocks]
    tail = [line for line in lines[-1] if line.startswith(("cycle ", "live "))]
    lines[-1] = lines[-1][:len(lines[-1]) - len(tail)]
    cycles = []
    for line in tail[:-1]:
        numbers = [int(word) for word in re.findall(r"#(\d+)", line)]
        parts = line.split()
        if int(parts[1]) != len(cycles) + 1 or int(parts[5].rstrip(":")) != len(numbers):
            return False
        cycles.append((int(parts[3]), numbers))
    live, looked = int(tail[-1].split()[1]), 0
    ways = [Run(work, lines, cycles)]
    while ways:
        run, looked = ways.pop(), looked + 1
        if looked > MOST:
            return None
        try:
            is_forced = run.part()
        except Wrong:
            continue
        for way in freezes(run, is_forced):
            if any(way.store.active):
                ways.append(way)
            elif way.ended == len(cycles) and len(way.store.cells) == live and way.span is None:
                if all(told == len(block) for told, block in zip(way.told, lines)):
                    return True
    return False


def drawn(seed):
    """A workload of model.py with a trigger, and with a small period and headroom."""
    work, document = model.drawn(seed)
    draw = random.Random(f"judge {seed}")
    work["period"] = draw.choice([4, 4, 5, 8, 16])
    work["headroom"] = draw.choice([1, 4, 16, 64, 1000])
    work["trigger"] = draw.choice([1, 2, 5, 10, 30])
    work["mutators"] = [ops[:draw.choice([20, 60, 120])] for ops in work["mutators"]]
    head, *_ = document.split("\n[[mutator]]", 1)
    for field in ("period", "headroom"):
        head = re.sub(rf"^{field} = .*$", f"{field} = {work[field]}", head, flags=re.M)
    document = head + f"trigger = {work['trigger']}\n"
    for ops in work["mutators"]:
        document += "\n[[mutator]]\nops = [" + ", ".join(f'"{model.text_of(op)}"' for op in ops) + "]\n"
    return work, document


def judged(work, document, text):
    """What is judged of the text, whose calls came in any order of several mutators' where they ran on threads."""
    said = accepts(work, text)
    if said or len(work["mutators"]) == 1:
        return said
    import judge_threads

    return judge_threads.accepts(judge_threads.read_workload(document), text)


def main():
    program, first, count = sys.argv[1], *[int(word) for word in (sys.argv[2:] + ["0", "200"][len(sys.argv) - 2:])[:2]]
    cycles = undecided = 0
    for seed in range(first, first + count):
        work, document = drawn(seed)
        ended = subprocess.run([program], input=document.encode(), capture_output=True)
        text = ended.stdout.decode()
        said = judged(work, document, text) if ended.returncode == 0 else False
        if said is None:
            undecided += 1
        elif not said:
            with tempfile.NamedTemporaryFile("w", suffix=".toml", delete=False) as out:
                out.write(document)
            print(f"seed {seed}: status {ended.returncode}, {ended.stderr.decode().strip()}; refused; see {out.name}")
            sys.exit(1)
        cycles += text.count("\ncycle ")
    print(f"{count} workloads with triggers, {cycles} cycles: {count - undecided} accepted, {undecided} undecided")


if __name__ == "__main__":
    main()
