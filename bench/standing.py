"""What a part of a standing heap costs, and how long one that sleeps holds up the others.

    python3 bench/standing.py [--keep FOLDER] [TIMES]

It builds two programs in FOLDER, or in one of its own: bench/standing over this tree, without proofs, as
judge/standing.py says, and the plain pool of bench/standing/pool.rs by rustc -O. One that is there is run as it is.

In the first table 2, 4, 8 and 16 members make four calls in each part that do next to nothing. A part is what PARTS (5,000)
of them take, but for the first 200, divided by their number: over a standing heap, whose members park between two parts;
over the same heap where threads are started for each part, as many as members, or four at most, as `riptide` does; and of a
pool of as many parked threads, which have no heap. The second table is of four members in parts of 64 calls, of which one
sleeps before each of its 100 calls; it is the longest call of the other three, where the sleeper lies in a bed
meanwhile and where it doesn't. All runs are made TIMES times (11), in turn, and medians are printed; of the longest calls the
longest too. The load before and behind is printed.
"""
import os
import statistics
import subprocess
import sys
import tempfile

HERE = os.path.dirname(os.path.abspath(__file__))
sys.path.insert(0, os.path.join(HERE, "..", "judge"))

import standing

if __name__ == "__main__" and sys.argv[1:] == ["--help"]:
    sys.exit(print(__doc__.strip()))

PARTS, SLEEPS = 5000, 100
MEMBERS, MILLISECONDS = (2, 4, 8, 16), (1, 10)


def build(folder):
    """The two programs."""
    heap, pool = os.path.join(folder, "standing"), os.path.join(folder, "pool")
    if not os.path.exists(heap):
        standing.built(heap, os.path.join(HERE, "standing"))
    if not os.path.exists(pool):
        subprocess.run(["rustc", "-O", "-o", pool, os.path.join(HERE, "standing", "pool.rs")], check=True)
    return heap, pool


def microseconds(program, *words):
    """What a program prints."""
    return int(subprocess.run([program, *map(str, words)], stdout=subprocess.PIPE, check=True).stdout)


def load():
    with open("/proc/loadavg", encoding="utf-8") as file:
        return file.read().split()[0]


def parts(heap, pool, times):
    """The table of parts."""
    print("| Members | A part whose members park, microseconds | Threads are started, one each | Four at most | A plain pool |")
    print("|---|---|---|---|---|")
    for members in MEMBERS:
        runs = [[
            microseconds(heap, "parked", members, PARTS),
            microseconds(heap, "started", members, PARTS, members),
            microseconds(heap, "started", members, PARTS, min(members, 4)),
            microseconds(pool, members, PARTS),
        ] for _ in range(times)]
        cells = " | ".join(f"{statistics.median(one) / PARTS:.1f}" for one in zip(*runs))
        print(f"| {members} | {cells} |", flush=True)


def sleepers(heap, times):
    """The table of calls beside a sleeper."""
    columns = "The longest call beside one that rests, milliseconds | Of all runs | Beside one that doesn't | Of all runs"
    print(f"\n| It sleeps, milliseconds | {columns} |")
    print("|---|---|---|---|---|")
    for sleep in MILLISECONDS:
        runs = [[microseconds(heap, "held", 4, sleep, SLEEPS, rests) / 1000 for rests in (1, 0)] for _ in range(times)]
        cells = " | ".join(f"{statistics.median(one):.2f} | {max(one):.2f}" for one in zip(*runs))
        print(f"| {sleep} | {cells} |", flush=True)


def main():
    words = sys.argv[1:]
    kept = words.pop(1) if words[:1] == ["--keep"] else None
    times = int(words[-1]) if words and words[-1].isdigit() else 11
    with tempfile.TemporaryDirectory() as folder:
        if kept:
            os.makedirs(kept, exist_ok=True)
        heap, pool = build(kept or folder)
        before = load()
        parts(heap, pool, times)
        sleepers(heap, times)
        print(f"\nload before: {before}, behind: {load()}")


if __name__ == "__main__":
    main()
