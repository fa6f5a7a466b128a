#!/usr/bin/env python3
"""Tests judge_threads.py without a program: on texts of made up runs, and on texts that are near them.

    python3 judge/judge_threads_test.py [FIRST [COUNT]]

A run is made on the store of model.py in a random order of calls, with random free cells, and with cycles that end where
and free what the schedule and the marking allow, all by chance. Its text must be accepted. Of short runs, texts in which
something was changed by chance are judged too, and what is said of each must be what a plain search says that tries every
order of the calls, on copies of the store. Last come near texts that are written out, each of which must be refused.
Where one isn't as it must be, its workload and text are kept, and the status is 1.
"""
import copy
import random
import re
import sys
import time

import judge
import judge_threads
import model

if __name__ == "__main__" and sys.argv[1:] == ["--help"]:
    sys.exit(print(__doc__.strip()))


class Loose(model.Store):
    """A store in which any cell may be born that isn't live: one that is chosen. Where it is dead, its block is swept first.
    A call may be refused for room, where that is wished, if for each block of the class there was a moment since its mutator's
    last call, and in this part, at which all of it was taken but what is dead; and it is promised that the block is swept
    behind that moment."""

    chosen = wished = None

    def open(self):
        """A part is opened."""
        self.seen, self.promised = [set() for _ in self.active], set()
        self.look()

    def call(self, who, op):
        self.who = who
        try:
            return super().call(who, op)
        finally:
            self.seen[who] = set()
            self.look()

    def blocks(self):
        """Each block: its name, what of it is taken, and what is dead."""
        for name, last, taken, dead in (("cells", self.first[5], self.cells, self.dead),
                                        ("arrays", self.first_array[5], self.arrays | self.spent, self.dead_arrays)):
            for start in range(0, last, model.BLOCK):
                block = range(start, start + model.BLOCK)
                yield (name, start), [number for number in block if number in taken], dead.intersection(block)

    def look(self):
        """Notes for each mutator the blocks that are full now but for what is dead."""
        for block, taken, dead in self.blocks():
            if dead and len(taken) + len(dead) == model.BLOCK:
                for seen in self.seen:
                    seen.add(block)

    def refuse(self, name, numbers, full):
        with_room = {block for block, taken, dead in self.blocks()
                     if block[0] == name and block[1] in numbers and len(taken) < model.BLOCK}
        if with_room and with_room <= self.seen[self.who] and self.wished(full):
            self.promised |= with_room
            raise model.Refused(full)

    def is_kept(self):
        """What was promised in the part is done."""
        return not any(dead for block, taken, dead in self.blocks() if block in self.promised)

    def free_array(self, kind):
        self.refuse("arrays", range(*self.first_array[kind:kind + 2]), f"full {kind + 5}")
        return super().free_array(kind)

    def free_cell(self, kind):
        self.refuse("cells", range(*self.first[kind:kind + 2]), f"full {kind}")
        free = [cell for cell in range(self.first[kind], self.first[kind + 1]) if cell not in self.cells]
        if not free:
            raise model.Refused(f"full {kind}")
        cell = self.chosen(free)
        if cell in self.dead:
            start = cell // model.BLOCK * model.BLOCK
            self.dead.difference_update(range(start, start + model.BLOCK))
        return cell


class Made(judge.Run):
    """A run that is made up as it goes."""

    def __init__(self, work, draw):
        super().__init__(work, [], [])
        self.store, self.draw, self.beside = Loose(work), draw, 0
        self.lines = [[] for _ in range(self.count)]
        self.black = 0

    def call(self, who):
        """A mutator's next call. Answers whether it ends its share."""
        ops = self.work["mutators"][who]
        over = self.done[who] >= len(ops)
        op = ops[self.done[who]] if not over else ("unclaim",) if self.store.claims[who] else ("retire",)
        try:
            reply = self.store.call(who, op)
        except model.Refused as refusal:
            reply = str(refusal)
        self.lines[who].append(f"{model.text_of(op)} = {reply}")
        self.in_cycle += op[0] in ("alloc", "table") and reply.startswith("#")
        self.since_end += op[0] in ("alloc", "table") and reply.startswith("#")
        self.note()
        first = reply.startswith("full ") and not self.retry[who]
        self.retry[who] = first
        self.done[who] += not first and not over
        return first or reply == "asked"

    def part(self):
        """A part in which what was refused beside a sweep is swept."""
        for luck in (0.7, 0.7, 0.3, 0):
            tried = copy.deepcopy(self)
            tried.draw, tried.store.chosen = self.draw, self.draw.choice
            tried.store.wished = lambda full: self.draw.random() < luck
            is_forced = tried.tried_part()
            if tried.store.is_kept():
                vars(self).update(vars(tried))
                self.beside += bool(self.store.promised)
                return is_forced

    def tried_part(self):
        self.store.open()
        run = self.work["period"] if self.span is None else self.shares()[1]
        left = {who: run for who in range(self.count) if self.store.active[who]}
        is_forced, bold, who = False, self.draw.choice([0, 0.5, 0.9]), None
        while left:
            if who not in left or self.draw.random() > bold:
                who = self.draw.choice(list(left))
            ended = self.call(who)
            is_forced, left[who] = is_forced or ended, left[who] - 1
            if ended or left[who] == 0 or not self.store.active[who]:
                del left[who]
        return is_forced or not any(self.store.active)

    def pause(self, has_to_end):
        """A pause, after which the cycle may end: it keeps what is retained, and some of what was while it ran."""
        live, now = set(self.store.cells), judge.held(self.store)
        luck = self.draw.choice([0, 0.5, 1])
        span = judge.closed(self.span[0] | self.spared, *self.span[1:])
        more = self.spared | {cell for cell in span & live if self.draw.random() < luck}
        kept = judge.closed(now[0] | more, *now[1:])
        stopped = self.shares()[0]
        most = self.black + stopped + self.in_cycle + len(self.spared)
        if has_to_end or len(kept) <= most and self.draw.random() < 0.5:
            freed = sorted(live - kept)
            self.store.free(set(freed))
            line = f"cycle {len(self.cycles) + 1} kept {len(kept)} freed {len(freed)}"
            self.cycles.append(line + ":" * bool(freed) + "".join(f" #{cell}" for cell in freed))
            self.ended, self.span, self.since_end = self.ended + 1, None, 0
        self.black += stopped

    def text(self):
        while any(self.store.active):
            is_forced = self.part()
            if self.span is not None:
                self.pause(is_forced or self.shares()[1] == 0)
            if is_forced or self.span is None and 0 < self.work["trigger"] <= self.since_end:
                self.begin(is_forced)
                self.black = 0
                self.pause(is_forced)
                if is_forced:
                    self.store.sweep_all()
        blocks = [f"mutator {who}\n" + "".join(line + "\n" for line in lines) for who, lines in enumerate(self.lines)]
        return "".join(blocks) + "".join(line + "\n" for line in self.cycles) + f"live {len(self.store.cells)}\n"


class Tried(judge.Run):
    """A run as far as it was followed, in one of all orders."""

    def __init__(self, work, replies, cycles):
        super().__init__(work, replies, cycles)
        self.store = Loose(work)

    def parts(self):
        """All ways through a running part, each with whether the freeze after it is forced."""
        run = self.work["period"] if self.span is None else self.shares()[1]
        self.store.open()
        ways, seen = [(self, [run * active for active in self.store.active], False)], set()
        while ways:
            here, left, is_forced = ways.pop()
            if not any(left) and here.store.is_kept():
                yield here, is_forced or not any(here.store.active)
            for who in range(self.count):
                if left[who]:
                    way = copy.deepcopy(here)
                    ended = way.call(who)
                    more = [n - 1 if other == who else n for other, n in enumerate(left)]
                    if ended or ended is not None and not way.store.active[who]:
                        more[who] = 0
                    store = way.store
                    cells = [(number, vars(cell)) for number, cell in store.cells.items()]
                    key = str((more, way.told, store.strong, store.weak, store.claims, sorted(cells, key=str), way.span,
                               [sorted(seen) for seen in store.seen], sorted(store.promised)))
                    if ended is not None and key not in seen:
                        seen.add(key)
                        ways.append((way, more, is_forced or ended))

    def call(self, who):
        """A mutator's next call. Answers whether it ends its share, or None where the text has another reply."""
        if self.told[who] >= len(self.replies[who]):
            return None
        line = self.replies[who][self.told[who]]
        named = int(line.split("#")[-1]) if re.search(r"= #\d+$", line) else -1
        self.store.chosen = lambda free: named if named in free else free[0]
        self.store.wished = lambda full: line.endswith(f" = {full}")
        self.lines = [[] for _ in range(self.count)]
        ended = Made.call(self, who)
        if self.lines[who] != [line]:
            return None
        self.told[who] += 1
        return ended


def tries(work, text, most=2000):
    """What accepts() says, by trying all; None where there are too many."""
    try:
        calls, cycles, live = judge_threads.read_text(text, len(work["mutators"]))
    except judge.Wrong:
        return False
    ways, looked = [Tried(work, calls, cycles)], 0
    while ways:
        for here, is_forced in ways.pop().parts():
            looked += 1
            if looked > most:
                return None
            for way in judge.freezes(here, is_forced):
                if any(way.store.active):
                    ways.append(way)
                elif way.ended == len(cycles) and len(way.store.cells) == live and way.span is None:
                    if all(told == len(lines) for told, lines in zip(way.told, calls)):
                        return True
    return False


def changed(text, draw):
    """A text in which something is changed."""
    lines = text.splitlines()
    at = [number for number, line in enumerate(lines) if " = " in line]
    one, other = draw.choice(at), draw.choice(at)
    head, reply = lines[one].split(" = ")
    replies = [line.split(" = ")[1] for line in lines if " = " in line]
    same = [line.split(" = ")[1] for line in lines if " = " in line and line.split()[0] == head.split()[0]]
    what = draw.randrange(5)
    if what == 0:
        lines[one] = f"{head} = {draw.choice(replies)}"
    elif what == 1:
        lines[one] = f"{head} = {draw.choice(same)}"
    elif what == 2:
        lines[one] = f"{head} = {lines[other].split(' = ')[1]}"
        lines[other] = lines[other].split(" = ")[0] + f" = {reply}"
    else:
        cycles = [number for number, line in enumerate(lines) if line.startswith("cycle ")]
        number = draw.choice(cycles)
        words = lines[number].split()
        freed = {int(word[1:]) for word in words[6:]}
        cells = {int(cell) for cell in re.findall(r"= #(\d+)", text)}
        freed ^= {draw.choice(sorted(cells))} if cells else set()
        kept = int(words[3]) + len(words[6:]) - len(freed)
        lines[number] = f"cycle {words[1]} kept {kept} freed {len(freed)}" + ":" * bool(freed) + "".join(f" #{n}" for n in sorted(freed))
    return "".join(line + "\n" for line in lines)


def drawn(seed):
    """A workload and its document: of each five an aging one."""
    return judge_threads.aging(seed) if seed % 5 == 4 else judge_threads.mixed(seed)


def tiny(seed):
    """A short workload in which mutators meet often, and its document."""
    draw = random.Random(f"tiny {seed}")
    work, _ = drawn(seed)
    work["mutators"] = [ops[:draw.choice([3, 5, 8])] for ops in work["mutators"][:draw.choice([2, 2, 3])]]
    for ops in work["mutators"]:
        ops[:0] = [("alloc", 0, draw.choice([0, 1])), ("strong", 0, 0), ("sget", 0, 0), ("claim", 0)][:draw.randint(0, 4)]
    work["blocks"][0] = 1
    return work, judge_threads.document_of(work)


def crowded(seed):
    """A short workload in whose parts about as many cells are born as its class has, of one block of three or two, and then
    die; and its document. Of arrays there is one block at most: of more the judge knows less."""
    draw = random.Random(f"crowded {seed}")
    grows, blocks, count = draw.random() < 0.3, draw.choice([1, 1, 1, 2]), draw.choice([2, 3])
    work = {"registers": 2, "strong": 1, "weak": 1, "blocks": [2 if grows else blocks, 0, 0, 0, 0]}
    work["arrays"], work["shapes"], work["headroom"] = [int(grows), 0, 0, 0, 0], [["a"]], 100
    work["period"], work["trigger"] = 7 if grows else draw.choice([4, 5]), draw.choice([1, 1, 3])
    born = [("alloc", 0, 0)] + [("claim", 0), ("add", 0, "a", 0), ("release", 0)] * grows
    others = [[("set", 0, 1)], [("set", 0, 1)], [("drop", 0)], [("strong", 0, 0)], [("sget", 1, 0)]]
    work["mutators"] = [[] for _ in range(count)]
    for _ in range(draw.choice([2, 3])):
        births = draw.choices(range(count), k=model.BLOCK * (1 if grows else blocks) + draw.choice([-1, 0, 0, 0, 1]))
        for who, ops in enumerate(work["mutators"]):
            units = [born] * births.count(who)
            while sum(map(len, units)) < work["period"] - 1:
                units.insert(draw.randrange(len(units) + 1), draw.choice(others))
            ops += sum(units, [])[:work["period"] - 1] + [("drop", 0)]
    return work, judge_threads.document_of(work)


WORKLOAD = """registers = 2
strong = 1
blocks = [1, 0, 0, 0, 0]
period = 4
headroom = 32

[[mutator]]
ops = ["alloc r0 0", "strong 0 r0", "set r1 7", "put r0 0 r1", "claim r0", "collect", "sget r1 0"]

[[mutator]]
ops = ["alloc r0 0", "sget r1 0", "get r0 r1 0", "get r0 r1 0", "claim r1", "alloc r0 1"]
"""

TEXT = """mutator 0
alloc r0 0 = #3
strong 0 r0 = ok
set r1 7 = ok
put r0 0 r1 = ok
claim r0 = ok
collect = asked
sget r1 0 = #3
unclaim = ok
retire = ok
mutator 1
alloc r0 0 = #9
sget r1 0 = #3
get r0 r1 0 = -
get r0 r1 0 = 7
claim r1 = held by 0
alloc r0 1 = full 1
alloc r0 1 = full 1
retire = ok
cycle 1 kept 1 freed 1: #9
cycle 2 kept 1 freed 0
live 1
"""

# by what is wrong: whether the plain facts tell it, and what is changed in the text, or in the workload
NEAR = {
    "a reply is another": (False, "get r0 r1 0 = 7", "get r0 r1 0 = 8"),
    "a reply is none of the operation": (True, "set r1 7 = ok", "set r1 7 = 7"),
    "a handle gives what wasn't put": (False, "sget r1 0 = #3\nunclaim", "sget r1 0 = -\nunclaim"),
    "a cell is read that there isn't": (True, "sget r1 0 = #3\nget", "sget r1 0 = #64\nget"),
    "two mutators get one cell": (True, "#9", "#3"),
    "a cell is of another class": (True, "#9", "#64"),
    "two replies of one mutator are exchanged": (False, "= -\nget r0 r1 0 = 7", "= 7\nget r0 r1 0 = -"),
    "two calls of one mutator are exchanged": (True, "strong 0 r0 = ok\nset r1 7 = ok", "set r1 7 = ok\nstrong 0 r0 = ok"),
    "a call is left out": (True, "put r0 0 r1 = ok\n", ""),
    "a claimed cell is claimed": (False, "claim r1 = held by 0\nalloc r0 1 = full 1\nalloc r0 1 = full 1\n",
                                  "claim r1 = ok\nalloc r0 1 = full 1\nalloc r0 1 = full 1\nunclaim = ok\n"),
    "a claim is refused to its holder": (True, "claim r1 = held by 0", "claim r1 = held by 1"),
    "a claim isn't given up": (True, "unclaim = ok\n", ""),
    "a mutator stays": (True, "full 1\nretire = ok\n", "full 1\n"),
    "a handle's cell is freed": (False, "kept 1 freed 0\nlive 1", "kept 0 freed 1: #3\nlive 0"),
    "a cell is kept that nothing held": (False, "kept 1 freed 1: #9\ncycle 2 kept 1 freed 0", "kept 2 freed 0\ncycle 2 kept 1 freed 1: #9"),
    "a cell is freed twice": (True, "cycle 2 kept 1 freed 0", "cycle 2 kept 1 freed 1: #9"),
    "kept and freed don't add up": (True, "cycle 1 kept 1 freed 1: #9", "cycle 1 kept 2 freed 1: #9"),
    "other cells live at the end": (True, "live 1", "live 2"),
    "a cycle too few": (True, "cycle 2 kept 1 freed 0\n", ""),
    "a cycle too many": (True, "live 1", "cycle 3 kept 1 freed 0\nlive 1"),
    "a refusal for room isn't met by a second try": (True, "alloc r0 1 = full 1\nalloc r0 1 = full 1", "alloc r0 1 = full 1"),
    "a refusal for room is met by a third try": (True, "alloc r0 1 = full 1\n", "alloc r0 1 = full 1\nalloc r0 1 = full 1\n"),
    "there is room": (True, "blocks = [1, 0, 0, 0, 0]", "blocks = [1, 1, 0, 0, 0]"),
}

# The first three of these cycles are Eden cycles. The second keeps #0, which is old and nothing holds, and the new #1, which
# that one holds; the third frees a new cell, and the fourth, a full one, all three that are left.
EDEN = """registers = 2
blocks = [1, 0, 0, 0, 0]
period = 4
headroom = 100
trigger = 1

[[mutator]]
ops = [
  "alloc r0 0", "set r1 1", "set r1 2", "set r1 3", "alloc r1 0", "put r0 0 r1", "drop r1", "drop r0",
  "set r1 1", "set r1 2", "set r1 3", "set r1 4", "alloc r1 0", "drop r1", "set r1 1",
  "alloc r1 0", "drop r1", "set r1 1", "set r1 2",
]
"""

EDEN_TEXT = """mutator 0
alloc r0 0 = #0
set r1 1 = ok
set r1 2 = ok
set r1 3 = ok
alloc r1 0 = #1
put r0 0 r1 = ok
drop r1 = ok
drop r0 = ok
set r1 1 = ok
set r1 2 = ok
set r1 3 = ok
set r1 4 = ok
alloc r1 0 = #2
drop r1 = ok
set r1 1 = ok
alloc r1 0 = #3
drop r1 = ok
set r1 1 = ok
set r1 2 = ok
retire = ok
cycle 1 kept 1 freed 0
cycle 2 kept 2 freed 0
cycle 3 kept 2 freed 1: #2
cycle 4 kept 0 freed 3: #0 #1 #3
cycle 5 kept 0 freed 0
live 0
"""

# as above
EDEN_NEAR = {
    "an Eden cycle frees an old cell": (True, "cycle 3 kept 2 freed 1: #2\ncycle 4 kept 0 freed 3: #0 #1 #3",
                                        "cycle 3 kept 1 freed 2: #1 #2\ncycle 4 kept 0 freed 2: #0 #3"),
    "an Eden cycle frees what an old cell holds": (
        False, "cycle 2 kept 2 freed 0\ncycle 3 kept 2 freed 1: #2\ncycle 4 kept 0 freed 3: #0 #1 #3",
        "cycle 2 kept 1 freed 1: #1\ncycle 3 kept 1 freed 1: #2\ncycle 4 kept 0 freed 2: #0 #3"),
    "an Eden cycle keeps a new cell that nothing held": (
        False, "cycle 3 kept 2 freed 1: #2\ncycle 4 kept 0 freed 3: #0 #1 #3",
        "cycle 3 kept 3 freed 0\ncycle 4 kept 0 freed 4: #0 #1 #2 #3"),
    "an Eden cycle keeps more than it may have marked": (
        True, "cycle 3 kept 2 freed 1: #2\ncycle 4 kept 0 freed 3: #0 #1 #3\ncycle 5 kept 0 freed 0",
        "cycle 3 kept 4 freed 0\ncycle 4 kept 0 freed 4: #0 #1 #2 #3\ncycle 5 kept 0 freed 0"),
    "a full cycle keeps an old cell that nothing held": (
        False, "cycle 4 kept 0 freed 3: #0 #1 #3\ncycle 5 kept 0 freed 0",
        "cycle 4 kept 2 freed 1: #3\ncycle 5 kept 0 freed 2: #0 #1"),
}


def filled(births, period):
    """A workload in which a mutator makes so many cells of a class of 64 and another is refused, and its text."""
    ops = ", ".join(['"alloc r0 0"'] * births)
    document = "registers = 1\nblocks = [1, 0, 0, 0, 0]\nheadroom = 1\n" + f"period = {period}\n"
    document += f'[[mutator]]\nops = [{ops}]\n[[mutator]]\nops = ["alloc r0 0"]\n'
    text = "mutator 0\n" + "".join(f"alloc r0 0 = #{cell}\n" for cell in range(births)) + "retire = ok\n"
    text += "mutator 1\nalloc r0 0 = full 0\nalloc r0 0 = #0\nretire = ok\n"
    text += f"cycle 1 kept 0 freed {births}:" + "".join(f" #{cell}" for cell in range(births))
    return document, text + "\ncycle 2 kept 0 freed 1: #0\nlive 0\n"


def swept(kind):
    """A workload in which a mutator makes the 64 cells of class 0, of which a cycle that begins by itself frees 63, and one
    more of this class; another is refused in class 0 meanwhile. And its text."""
    ops = ", ".join(['"alloc r0 0"'] * 64 + [f'"alloc r0 {kind}"']), ", ".join(['"set r0 1"'] * 64 + ['"alloc r0 0"'])
    document = "registers = 1\nblocks = [1, 1, 0, 0, 0]\nheadroom = 1\nperiod = 64\ntrigger = 64\n"
    document += "".join(f"[[mutator]]\nops = [{each}]\n" for each in ops)
    text = "mutator 0\n" + "".join(f"alloc r0 0 = #{cell}\n" for cell in range(64))
    text += f"alloc r0 {kind} = #{64 * kind}\nretire = ok\nmutator 1\n" + "set r0 1 = ok\n" * 64
    text += "alloc r0 0 = full 0\nalloc r0 0 = #0\nretire = ok\n"
    text += "cycle 1 kept 1 freed 63:" + "".join(f" #{cell}" for cell in range(63))
    text += f"\ncycle 2 kept 0 freed 2: {'#63 #64' if kind else '#0 #63'}\ncycle 3 kept 0 freed 1: #0\nlive 0\n"
    return document, text


def after_a_sweep(is_seen):
    """As swept(0), but before the other is refused it reads the cell that was born after the sweep, or, where it doesn't, takes a
    dead cell itself. And the text."""
    document, text = swept(0)
    makes, sees = ('"strong 0 r0"', '"sget r0 0"') if is_seen else ('"set r0 1"', '"alloc r0 0"')
    document = document.replace("headroom", "strong = 1\nheadroom").replace('"alloc r0 0"]\n[[', f'"alloc r0 0", {makes}]\n[[')
    document = document.replace('"set r0 1", "alloc r0 0"]', f'"set r0 1", {sees}, "alloc r0 0"]')
    one, other = "strong 0 r0 = ok\n" if is_seen else "set r0 1 = ok\n", "sget r0 0 = #0\n" if is_seen else "alloc r0 0 = #1\n"
    text = text.replace("= #0\nretire", f"= #0\n{one}retire", 1).replace("alloc r0 0 = full", f"{other}alloc r0 0 = full")
    text = text.replace("full 0\nalloc r0 0 = #0", "full 0\nalloc r0 0 = #2")
    ends = ("kept 1 freed 1: #63", "kept 1 freed 1: #2", 1) if is_seen else ("kept 0 freed 3: #0 #1 #63", "kept 0 freed 1: #2", 0)
    return document, text[:text.index("cycle 2")] + "cycle 2 {}\ncycle 3 {}\nlive {}\n".format(*ends)


def written():
    """Judges the texts that are written out, and those near them."""
    def judged(document, text):
        work = judge_threads.read_workload(document)
        return judge_threads.accepts(work, text, facts=True), judge_threads.accepts(work, text)

    for workload, right, near in ((WORKLOAD, TEXT, NEAR), (EDEN, EDEN_TEXT, EDEN_NEAR)):
        if judged(workload, right) != (True, True):
            fail("the written text isn't accepted", workload, right)
        for what, (by_facts, old, new) in near.items():
            document, text = workload.replace(old, new), right.replace(old, new)
            if (document, text) == (workload, right) or judged(document, text) != (not by_facts, False):
                fail(f"where {what}: {judged(document, text)}", document, text)
    for births, period, expected in ((64, 128, True), (63, 128, False), (64, 32, False)):
        if judged(*filled(births, period))[1] != expected:
            fail(f"a refusal for room after {births} births in parts of {period} calls", *filled(births, period))
    for kind in (0, 1):
        if judged(*swept(kind))[1] != (kind == 0):
            fail(f"a refusal for room in class 0 beside a mutator that allocates in class {kind}", *swept(kind))
    for is_seen in (True, False):
        document, text = after_a_sweep(is_seen)
        if judged(document, text) != (True, False):
            fail("a refusal for room by one who knows of the sweep before it", document, text)


def made_up(seeds):
    """Judges texts of runs that are made up."""
    spent, calls, undecided = [], 0, 0
    for seed in seeds:
        work, document = drawn(seed)
        text = Made(work, random.Random(f"made {seed}")).text()
        begun = time.process_time()
        said = judge_threads.accepts(work, text)
        spent.append(1000 * (time.process_time() - begun))
        calls, undecided = calls + text.count(" = "), undecided + (said is None)
        if said is False or judge_threads.accepts(work, text, facts=True) is False:
            fail(f"seed {seed}: refused", document, text)
    print(f"{len(spent)} texts, {calls} calls, {undecided} undecided; {sum(spent) / len(spent):.1f} ms each, {max(spent):.0f} at most")


def compared(seeds, draws):
    """Judges short texts, and changed ones, as a search does that tries every order."""
    said_of, beside = {True: 0, False: 0, None: 0}, 0
    for seed in seeds:
        draw = random.Random(f"near {seed}")
        work, document = draws(seed)
        run = Made(work, draw)
        text = run.text()
        beside += run.beside > 0
        for near in [text] + [changed(text, draw) for _ in range(3)]:
            expected = tries(work, near)
            said_of[expected] += 1
            if expected is not None and judge_threads.accepts(work, near) != expected:
                fail(f"short seed {seed}: by trying all orders it is {expected}", document, near)
    print(f"of short texts {said_of[True]} are accepted, {said_of[False]} refused, and {said_of[None]} weren't tried to the end; "
          f"{beside} runs have a refusal beside a sweep")


def fail(what, document, text):
    print(f"{what}; see {judge_threads.keep(document, text)}")
    sys.exit(1)


def main():
    sys.setrecursionlimit(10**6)
    first, count = [int(word) for word in (sys.argv[1:] + ["0", "200"][len(sys.argv) - 1:])[:2]]
    written()
    made_up(range(first, first + count))
    compared(range(first, first + count // 4), tiny)
    model.BLOCK = 3
    compared(range(first, first + count // 8), crowded)


if __name__ == "__main__":
    main()
