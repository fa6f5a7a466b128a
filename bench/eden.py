"""What Eden cycles save of the pauses, and what the barrier costs where no cycle marks.

    python3 bench/eden.py [TIMES [PROGRAM...]]

PROGRAM is crates/riptide/out/riptide where none is given; of several each has its rows, and they run in turn, so that a
program with Eden cycles and one whose cycles are all full are timed in one run. Each workload is run TIMES times (21), and
medians are printed. A second mutator asks for each collection too, and in the first workload has as many calls, which do nothing,
so that a thread is started in each part. Times are told by bench/freezes.c, which gcc builds. It asks for two processors.

In the first workload a chain of 5,120 cells is held all the time, ten times as many as are new where a cycle begins. Then come
16 cycles, which begin by themselves. Before each, 512 cells are born in a chain, and the last one's is dropped; while it marks,
384 more. A cycle has two pauses, one in the freeze where it begins and one in the next, where it ends. Of the 16 four are full,
since each is whose number is a multiple of four: so the last column is more than a quarter, whatever an Eden cycle takes. The
columns are the two freezes of an Eden cycle together, those of a full one, those of all 16, what all would take if each took
what a full one does, and the ratio of the last two.

In the second table a put stores a cell in a slot where no cycle marks. In the first two columns it does so 60,000 times in one
part, always in the same cell: in one that is new, and so white; and in one that is old, since a cycle kept it, and so grey from
the first put on. In the last column it stores in 5,120 old cells, once in each, which is black until then; a cycle makes them
black again, and so four times. What the same workload takes without the puts is taken off.
"""
import os
import re
import statistics
import subprocess
import sys
import tempfile

from mutators import BUILT, made_shim

if __name__ == "__main__" and (sys.argv[1:] == ["--help"] or len(sys.argv) == 1 and not os.path.exists(BUILT)):
    sys.exit(print(__doc__.strip()) or len(sys.argv) == 1)

OLD, NEW, CYCLES, PERIOD, PUTS, WALKS = 5120, 512, 16, 1536, 60000, 4
HEAD = """registers = 4
strong = 1
blocks = [64, 64, 64, 64, 0]
"""
EACH = re.compile(rb"(freeze|part) (\d+)\n")
CYCLE = re.compile(rb"^cycle (\d+) kept (\d+) freed (\d+)", re.M)


def chain(register, cells, first=0):
    """The operations that make a chain of cells of all classes, held by a register. Each cell takes three."""
    ops = []
    for number in range(first, first + cells):
        ops += [f"alloc r3 {number % 4}", f"put r3 0 {register}", f"move {register} r3"]
    return ops


def set_up():
    return chain("r0", OLD) + ["collect"]


def cycles():
    """The operations of a cycle's parts, for each cycle: one before it, and one while it marks."""
    ops = []
    for number in range(CYCLES):
        new = chain("r1", PERIOD // 3 + PERIOD // 4, number)
        ops += ["drop r1"] + new[:PERIOD + PERIOD * 3 // 4 - 1]
    return ops


def walks(puts):
    """The operations that go along the chain of old cells after a cycle, and put in each; without the puts, for comparison."""
    step = ["put r1 1 r1"] * puts + ["get r1 r1 0"]
    return chain("r0", OLD) + (["collect", "move r1 r0"] + step * OLD) * WALKS


def write(path, head, ops, others):
    with open(path, "w") as file:
        file.write(HEAD + head)
        for script in (ops, others):
            file.write("\n[[mutator]]\nops = [\n" + ",\n".join(f'"{op}"' for op in script) + "\n]\n")


def run(program, path, shim):
    """The microseconds of each freeze and of each part, and the printed cycles."""
    with open(path) as document:
        ended = subprocess.run([program], stdin=document, stdout=subprocess.PIPE, stderr=subprocess.PIPE,
                               env={**os.environ, "LD_PRELOAD": shim, "FREEZES_EACH": "1"})
    if ended.returncode != 0:
        sys.exit(f"{program} ended with {ended.returncode}: {ended.stderr.decode()}")
    told = EACH.findall(ended.stderr)
    freezes, parts = ([int(number) for what, number in told if what == kind] for kind in (b"freeze", b"part"))
    return freezes, parts, [int(number) for number, _, _ in CYCLE.findall(ended.stdout)]


def pauses(program, bare, path, shim):
    """The microseconds of a median Eden cycle's freezes, of a median full one's, and of all."""
    freezes, _, numbers = run(program, bare, shim)
    before, first = len(freezes) - 1, numbers[-1]
    freezes, _, numbers = run(program, path, shim)
    if len(freezes) != before + 2 * CYCLES + 1 or numbers[-1] != first + CYCLES:
        sys.exit(f"{program}: {len(freezes)} freezes and {numbers[-1]} cycles, not two of each of {CYCLES} behind {before}")
    mine = [freezes[before + 2 * number] + freezes[before + 2 * number + 1] for number in range(CYCLES)]
    eden, full = ([took for number, took in enumerate(mine, first) if (number % 4 == 0) == is_full] for is_full in (False, True))
    return statistics.median(eden), statistics.median(full), sum(mine)


def put(program, bare, path, puts, shim):
    """The nanoseconds of a put, of which the second workload has so many more."""
    took = [sum(run(program, each, shim)[1]) for each in (bare, path)]
    return 1e3 * (took[1] - took[0]) / puts


def main():
    times = int(sys.argv[1]) if len(sys.argv) > 1 else 21
    programs = sys.argv[2:] or [os.path.relpath(BUILT)]
    with tempfile.TemporaryDirectory() as room:
        shim = made_shim(room)
        paths = [os.path.join(room, name) for name in ("bare", "full", "new", "new_puts", "old", "old_puts", "walks", "walk_puts")]
        triggered = f"period = {PERIOD}\nheadroom = 1\ntrigger = {NEW}\n"
        whole = "period = 65536\nheadroom = 1\n"
        new, old, puts = ["alloc r0 0"], ["alloc r0 0", "collect"], ["put r0 1 r0"] * PUTS
        for path, head, ops in zip(paths, [triggered] * 2 + [whole] * 6, [
                set_up(), set_up() + cycles(), new, new + puts, old, old + puts, walks(0), walks(1)]):
            others = [op if op == "collect" else "drop r0" for op in ops if op == "collect" or head == triggered]
            write(path, head, ops, others)
        rows = [[(pauses(program, *paths[:2], shim), put(program, *paths[2:4], PUTS, shim),
                  put(program, *paths[4:6], PUTS, shim), put(program, *paths[6:], OLD * WALKS, shim))
                 for program in programs] for _ in range(times)]
        print("| Program | An Eden cycle's freezes, µs | A full one's, µs | All of 16, µs | Were all full, µs | Ratio |")
        print("|---|---|---|---|---|---|")
        for program, mine in zip(programs, zip(*rows)):
            eden, full, all_of = (statistics.median(column) for column in zip(*(each[0] for each in mine)))
            ratio = all_of / CYCLES / full
            print(f"| {program} | {eden:.0f} | {full:.0f} | {all_of:.0f} | {CYCLES * full:.0f} | {ratio:.2f} |")
        print("\n| Program | A put in a new cell, ns | In an old, grey one, ns | In an old, black one, ns |\n|---|---|---|---|")
        for program, mine in zip(programs, zip(*rows)):
            new, grey, black = (statistics.median(each[kind] for each in mine) for kind in (1, 2, 3))
            print(f"| {program} | {new:.1f} | {grey:.1f} | {black:.1f} |")


if __name__ == "__main__":
    main()
