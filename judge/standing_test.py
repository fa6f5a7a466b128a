#!/usr/bin/env python3
"""Tests standing.py: on texts of made up runs, and on texts that were doctored.

    python3 judge/standing_test.py [--program PROGRAM] [FIRST [COUNT]]

A run is made up as in judge_threads_test.py, and members rest and come early in it by chance. Its text must be accepted; with
--program it is that of a run of PROGRAM, which standing.py builds. Of each text some are judged in which one thing was
changed: a freed cell that a register held, a cell that a forced cycle keeps though it begins and ends where nothing holds it,
another reply, a call in the part beside its own, a rest that isn't told, a cycle that ended a turn later. How many of each
kind are refused is counted and printed. A doctored text may be that of another history, so one that is accepted is no
mistake but where that can't be: of the cells that a register held and of rests that aren't told each has to be refused, or be
undecided. Where one isn't as it must be, its workload and text are kept, and the status is 1.
"""
import argparse
import collections
import random
import re
import sys

import judge_threads
import judge_threads_test
import standing

if __name__ == "__main__" and sys.argv[1:] == ["--help"]:
    sys.exit(print(__doc__.strip()))


class Rested(judge_threads_test.Made):
    """A run that is made up, in which members stop early."""

    def __init__(self, work, draw):
        super().__init__(work, draw)
        self.number, self.turns, self.luck = 0, [], draw.choice([0, 0.05, 0.2, 0.5])
        # for how many parts more each lies in its bed
        self.lies = [0] * self.count

    def tried_part(self):
        self.number += 1
        self.store.open()
        run, is_forced, told = self.work["period"] if self.span is None else self.shares()[1], False, set()
        left = {who: run for who in range(self.count) if self.store.active[who] and not self.lies[who]}
        self.lies = [max(0, lies - 1) for lies in self.lies]
        while left:
            who = self.draw.choice(list(left))
            if who not in told:
                told.add(who)
                self.lines[who].append(f"part {self.number}")
            ended = self.call(who)
            is_forced, left[who] = is_forced or ended, left[who] - 1
            is_over = ended or left[who] == 0
            if not self.store.active[who]:
                del left[who]
            elif self.draw.random() < self.luck:
                rests = is_over or self.draw.random() < 0.5
                self.lines[who].append("rest" if rests else "early")
                self.lies[who] = self.draw.randrange(4) if rests else 0
                del left[who]
            elif is_over:
                del left[who]
        return is_forced or not any(self.store.active)

    def pause(self, has_to_end):
        ended = self.ended
        super().pause(has_to_end)
        if self.ended > ended:
            self.turns.append(self.number)

    def text(self):
        text = super().text()
        for cycle, turn in enumerate(self.turns, 1):
            text = text.replace(f"\ncycle {cycle} ", f"\nturn {turn}\ncycle {cycle} ")
        return text.replace("\nlive ", f"\nturns {self.number}\nlive ")


def with_cycles(text, cycles, live):
    """A text with these cycles and so many live cells in place of its own."""
    lines = iter(cycles)

    def line(found):
        kept, freed = next(lines)
        return f"cycle {found[1]} kept {kept} freed {len(freed)}" + ":" * bool(freed) + "".join(f" #{n}" for n in sorted(freed))

    return re.sub(r"(?m)^live \d+$", f"live {live}", re.sub(r"(?m)^cycle (\d+) kept.*$", line, text))


def ends_of(parts):
    """Of each cycle the number of its part, counted from 0, and whether it began in that freeze, by force."""
    found = {}
    for number, part in enumerate(parts):
        for at, what in enumerate(part.freeze):
            if what != "begin":
                found[what] = number, at > 0 and part.is_forced
    return found


def born_in(told, parts, first):
    """The cells that were born in the parts from this one on."""
    return set().union(*(part.born for part in parts[first:])) if parts[first:] else set()


def held_is_freed(draw, text, told, cycles, parts):
    """A cycle frees a cell that a register holds where it ends, and that isn't born again."""
    living, choices = set(), []
    for number, part in enumerate(parts):
        living |= part.born
        for what in part.freeze:
            if what != "begin":
                living -= set(cycles[what][1])
                later = born_in(told, parts, number + 1)
                choices += [(what, cell) for cell in sorted((part.roots & living) - later)]
    if not choices:
        return None
    cycle, cell = draw.choice(choices)
    changed, lives = [], False
    for number, (kept, freed) in enumerate(cycles):
        lives = lives or number == cycle
        if lives and cell in freed and number != cycle:
            changed.append((kept, set(freed) - {cell}))
            lives, cycle = False, len(cycles)
        else:
            changed.append((kept - lives, set(freed) | ({cell} if number == cycle else set())))
    live = int(re.search(r"^live (\d+)$", text, re.M)[1])
    return with_cycles(text, changed, live - lives)


def dead_is_kept(draw, text, told, cycles, parts):
    """A cycle that begins and ends in one forced freeze keeps a cell that it freed. The next one frees it."""
    choices = []
    for cycle, (number, at_once) in ends_of(parts).items():
        if at_once:
            later = born_in(told, parts, number + 1)
            choices += [(cycle, cell) for cell in cycles[cycle][1] if cell not in later]
    if not choices:
        return None
    cycle, cell = draw.choice(choices)
    changed = [(kept, set(freed)) for kept, freed in cycles]
    changed[cycle] = changed[cycle][0] + 1, changed[cycle][1] - {cell}
    live = int(re.search(r"^live (\d+)$", text, re.M)[1])
    if cycle + 1 == len(cycles):
        return with_cycles(text, changed, live + 1)
    changed[cycle + 1][1].add(cell)
    return with_cycles(text, changed, live)


def reply_is_another(draw, text, told, cycles, parts):
    """A call has a reply that another call of the same operation has."""
    lines = text.splitlines()
    at = [number for number, line in enumerate(lines) if " = " in line]
    one = draw.choice(at)
    head, reply = lines[one].split(" = ")
    others = {lines[n].split(" = ")[1] for n in at if lines[n].split()[0] == head.split()[0]} - {reply}
    if not others:
        return None
    lines[one] = f"{head} = {draw.choice(sorted(others))}"
    return "\n".join(lines) + "\n"


def call_is_moved(draw, text, told, cycles, parts):
    """A call stands in the part beside its own."""
    lines = text.splitlines()
    at = [n for n, line in enumerate(lines) if line.startswith("part ") and " = " in lines[n - 1] and " = " in lines[n + 1]]
    if not at:
        return None
    one = draw.choice(at)
    by = draw.choice([-1, 1])
    lines[one], lines[one + by] = lines[one + by], lines[one]
    return "\n".join(lines) + "\n"


def rest_is_untold(draw, text, told, cycles, parts):
    """A member made fewer calls than its share, and it isn't told that it rested or came early."""
    blocks = re.split(r"(?m)^(?=mutator )", text)
    choices = []
    for one in told:
        for number in sorted(one.left | one.early):
            start = max([made for part, made in one.made.items() if part < number] or [0])
            run = parts[number - 1].run if 0 < number <= len(parts) else 0
            if judge_threads.Told.reached(one, number, start, run) > one.made[number]:
                choices.append((one.who, number))
    if not choices:
        return None
    who, number = draw.choice(choices)
    block, within, lines = blocks[who + 1], False, []
    for line in block.splitlines():
        within = line == f"part {number}" if line.startswith("part ") else within
        if not (within and line in ("rest", "early")):
            lines.append(line)
    blocks[who + 1] = "\n".join(lines) + "\n"
    return "".join(blocks)


def end_is_later(draw, text, told, cycles, parts):
    """A cycle ended a turn later."""
    numbers = re.findall(r"(?m)^turn (\d+)$", text)
    if not numbers:
        return None
    number = draw.choice(numbers)
    return re.sub(rf"(?m)^turn {number}$", f"turn {int(number) + 1}", text, count=1)


KINDS = held_is_freed, dead_is_kept, reply_is_another, call_is_moved, rest_is_untold, end_is_later
# of these no history has a text
NEVER = held_is_freed, rest_is_untold


def fail(what, document, text):
    print(f"{what}; see {judge_threads.keep(document, text)}")
    sys.exit(1)


def main():
    sys.setrecursionlimit(10**6)
    parser = argparse.ArgumentParser(description=__doc__, formatter_class=argparse.RawDescriptionHelpFormatter)
    parser.add_argument("--program")
    parser.add_argument("numbers", nargs="*", type=int, metavar="FIRST and COUNT")
    given = parser.parse_args()
    first, count = (given.numbers + [0, 200][len(given.numbers):])[:2]
    said_of, undecided = {kind: collections.Counter() for kind in KINDS}, 0
    for seed in range(first, first + count):
        work, document = standing.drawn(seed)
        draw = random.Random(f"doctored {seed}")
        if given.program:
            text, fault = judge_threads.run(given.program, work, document)
        else:
            text, fault = Rested(work, draw).text(), None
        said, why, way = judge_threads.judged(work, text, False, standing.read_run)
        if fault or said is False:
            fail(f"seed {seed}: {fault or why}", document, text)
        undecided += said is None
        for kind in KINDS if said else ():
            near = kind(draw, text, *way)
            if near is not None:
                judged = judge_threads.judged(work, near, False, standing.read_run)[0]
                said_of[kind][judged] += 1
                if judged and kind in NEVER:
                    fail(f"seed {seed}: {kind.__name__} is accepted", document, near)
    print(f"{count} texts, {undecided} undecided; of each with a change:")
    for kind, said in said_of.items():
        print(f"{kind.__name__}: {said[False]} refused, {said[True]} accepted, {said[None]} undecided")


if __name__ == "__main__":
    main()
