#!/usr/bin/env python3
"""Runs random workloads over a standing heap, and judges each text by what some order of the calls allows.

    python3 judge/standing.py --build PROGRAM [--watched] [CRATE:EDIT..]
    python3 judge/standing.py [--facts] PROGRAM [FIRST [COUNT]]
    python3 judge/standing.py [--facts] [--visitors N] WORKLOAD.toml TEXT

With --build it makes PROGRAM of judge/standing: in a copy of the tree it makes a crate of it, has `rt try` write that as an
LLVM module, and compiles it without the checks of `rt try`, as judge/races.py says; with --watched to be run under
ThreadSanitizer. So nothing of it is proved, and it stands outside the gate. In the copy each member counts its tickets, by
judge/standing/tickets.edit, since no call of a member tells the number of its part. An EDIT is one more file of that form,
of a crate: so a wrong body is built, to see that its texts are refused.

PROGRAM runs each mutator as a member on a thread of its own and each visitor as a helper, with a keeper beside them. Now and
then a member rests in a bed between two calls, for no time, for some turns of others, or for up to 400 microseconds, while the
keeper begins and stops in its place; and now and then it comes early to a freeze that is wanted. The workloads are drawn for
the seeds FIRST (0) to FIRST + COUNT (200) - 1, of each four one plain one, one hostile, one growing and one aging one of
judge_threads.py, with 1 to 6 mutators, 0 to 3 visitors and a period of 4 to 8: an `open` asks for 4 at least. For about
half of them the visits of a pause are drawn too, 4 to 64. Of five workloads one has no rests and nobody who comes early.

What is judged is what judge_threads.py says, and besides it what its text tells and that of `riptide` doesn't: in which part
each call was made, where its member rested or came early, and by which turn each cycle ended. In each part a member has to
make as many calls as the schedule gives it. It may make fewer where the text says that it rested or came early in it, and
none while it lies in its bed. Whether a cycle begins or ends in a freeze follows from that, and the text has to agree.
"""
import collections
import os
import random
import re
import shutil
import subprocess
import sys
import tempfile

import judge_threads
import races
from judge import Wrong

if __name__ == "__main__" and sys.argv[1:] in ([], ["--help"]):
    sys.exit(print(__doc__.strip()) or len(sys.argv) < 2)

HERE = os.path.dirname(os.path.realpath(__file__))
NAME = "standing_driver"
ROOMS = "tide_model tide_io tide_shape tide_text tide_workload tide_heap tide_table tide_report tide_server"


class Member(judge_threads.Told):
    """What a member's lines tell of its calls, of the parts in which it made them, and of those in which it stopped early."""

    def __init__(self, work, who, lines):
        # by part: how many calls were made after it; the parts that it was told to leave, those to which it came early, and
        # those in which it lay in its bed
        self.made, self.left, self.early, self.lay = {}, set(), set(), set()
        calls, part, last = [], 0, None
        for line in lines:
            found = re.fullmatch(r"part (\d+)", line)
            if found:
                number = int(found[1])
                if number <= part or number > part + 1 and last != "rest":
                    raise Wrong(f"mutator {who} is in part {number} after part {part}")
                self.lay.update(range(part + 1, number))
                if last == "rest":
                    self.lay.add(number)
                part, last = number, None
            elif line in ("rest", "early"):
                if line == "early" and last:
                    raise Wrong(f"mutator {who} comes early to a freeze from its bed")
                (self.left if line == "rest" else self.early).add(part)
                last = line
            else:
                if last or not part:
                    raise Wrong(f"mutator {who} makes a call in part {part}, which it has left")
                calls.append(line)
                self.lay.discard(part)
            self.made[part] = len(calls)
        super().__init__(work, who, calls)

    def reached(self, number, start, run):
        end, told = super().reached(number, start, run), self.made.get(number, start)
        if told == end:
            return None if number in self.early else end
        return told if start <= told < end and number in self.left | self.early | self.lay else None


def read_run(work, text):
    """What a text tells, as read_run() of judge_threads.py does, with the cycles that ended in each freeze."""
    head, _, tail = text.partition("\nturn")
    lines, turns = ("turn" + tail).splitlines(), []
    for line in lines:
        turns += [int(word) for word in re.findall(r"^turn (\d+)$", line)]
    last = re.search(r"^turns (\d+)\nlive \d+\n\Z", "turn" + tail, re.M)
    plain = re.sub(r"(?m)^(part \d+|rest|early|turn \d+|turns \d+)\n", "", text)
    _, cycles, live = judge_threads.read_text(plain, len(work["mutators"]))
    if not last or len(turns) != len(cycles) or [line[:5] for line in lines[:-2]] != ["turn ", "cycle"] * len(cycles):
        raise Wrong("a cycle without the number of its turn, or no number of turns")
    ends = [[] for _ in range(int(last[1]))]
    for cycle, turn in enumerate(turns):
        if not 1 <= turn <= len(ends):
            raise Wrong(f"there is no turn {turn}")
        ends[turn - 1].append(cycle)
    blocks = [block.splitlines() for block in re.split(r"^mutator \d+\n", head + "\n", flags=re.M)[1:]]
    return [Member(work, who, block) for who, block in enumerate(blocks)], cycles, live, ends


def drawn(seed):
    """A workload, and its document."""
    draw = random.Random(f"standing {seed}")
    sorts = judge_threads.drawn, judge_threads.hostile, judge_threads.growing, judge_threads.aging
    work, _ = sorts[seed % 4](seed)
    work["mutators"] = work["mutators"][:draw.choice([1, 2, 2, 3, 3, 4, 5, 6])]
    work["period"], work["trigger"] = draw.choice([4, 4, 5, 6, 7, 8]), draw.choice([0, 1, 1, 2, 3, 6, 10, 30])
    work["visitors"], rests = draw.randrange(4), draw.choice([0, 2, 4, 10, 30])
    work["visits"] = draw.choice([work["period"], draw.choice([4, 5, 8, 16, 64])])
    work["words"] = ["--seed", str(seed), "--rests", str(rests), "--visits", str(work["visits"])]
    return work, judge_threads.document_of(work)


class Tally(judge_threads.Tally):
    """What texts had of parts and of rests, and else as judge_threads.py counts it."""

    def __init__(self):
        super().__init__()
        self.counts = collections.Counter()

    def count(self, work, text, way):
        super().count(work, text, way)
        # where members rest, freezes come at other calls than in the model
        del self.texts["calls that don't come one after another"]
        told, _, parts = way or ((), (), ())
        self.counts["parts"] += len(parts)
        self.counts["ends of cycles"] += text.count("\ncycle ")
        self.counts["rests"] += len(re.findall(r"(?m)^rest$", text))
        self.counts["came early"] += len(re.findall(r"(?m)^early$", text))
        for one in told:
            self.counts["shares of who lay in a bed"] += len(one.lay)
        for number, part in enumerate(parts, 1):
            stops = sum(1 for one in told if number in one.left | one.early | one.lay)
            self.counts["parts with a stop"] += stops > 0
            self.counts["forced freezes after one"] += stops > 0 and part.is_forced

    def told(self):
        return ", ".join(f"{count} {name}" for name, count in self.counts.items()) + "\n" + super().told()


def edited(crate, path):
    """Makes the edits of a file in a crate."""
    with open(path, encoding="utf-8") as edits:
        words = [line.split(": ", 1) for line in edits.read().splitlines()]
    for word, text in words:
        if word == "file":
            name = os.path.join(crate, text)
        elif word == "old":
            old = text
        else:
            with open(name, encoding="utf-8") as source:
                code = source.read()
            if code.count(old) != 1:
                sys.exit(f"{path}: {name} has this {code.count(old)} times: {old}")
            with open(name, "w", encoding="utf-8") as source:
                source.write(code.replace(old, text))


def copied(folder, sources, edits):
    """Copies the tree with these sources as one more crate, whose folder is answered, and with edits of some crates."""
    top = os.path.join(HERE, "..")
    for name in ("crates.txt", "HANDLES"):
        shutil.copy(os.path.join(top, name), folder)
    shutil.copytree(os.path.join(top, "crates"), os.path.join(folder, "crates"), ignore=shutil.ignore_patterns("out"))
    for crate, edit in edits:
        edited(os.path.join(folder, "crates", crate), edit)
    with open(os.path.join(folder, "crates.txt"), "a", encoding="utf-8") as rooms:
        rooms.write(f"{NAME}: {ROOMS}\n")
    crate = os.path.join(folder, "crates", NAME)
    os.makedirs(os.path.join(crate, "src"))
    # rt wants each .rt file of the tree in a crate, so these end otherwise
    for name in os.listdir(sources):
        base, ending = os.path.splitext(name)
        if ending == ".rattle":
            shutil.copy(os.path.join(sources, name), os.path.join(crate, "src", base + ".rt"))
    return crate


def built(program, sources, edits=(), watched=False):
    """Builds a program of these sources, without proofs, over a copy of the tree with these edits."""
    with tempfile.TemporaryDirectory(prefix="standing-") as folder:
        crate = copied(folder, sources, [("tide_server", os.path.join(HERE, "standing", "tickets.edit")), *edits])
        build = races.build if watched else races.build_plain
        build(races.toolchain(), crate, os.path.abspath(program))


def main():
    if sys.argv[1] != "--build":
        return judge_threads.main(drawn, Tally(), read_run)
    words = [word for word in sys.argv[2:] if word != "--watched"]
    edits = [tuple(word.split(":", 1)) for word in words[1:]]
    return built(words[0], os.path.join(HERE, "standing"), edits, "--watched" in sys.argv)


if __name__ == "__main__":
    main()
