"""What an allocation takes, in classes that are empty yet and in nearly full ones.

    python3 bench/allocations.py [TIMES [PROGRAM...]]

PROGRAM is crates/riptide/out/riptide where none is given; of several each has a row, and they run in turn. One mutator
allocates in the five classes of the largest heap in turn, all in one part: a quarter of its 20,480 cells, three
quarters of them, all, and five, each TIMES times (21). Of each run the part alone is timed, as bench/freezes.c tells
it, from where the first thread is started to where the last is joined; a second mutator has no calls, so that a thread
is started. A figure is the difference of two medians over the allocations between them: of the first quarter, in which
a search from the first block of a class looks at 8 blocks in the mean, of the last, in which it looks at 56, and of
all, 32.
"""
import os
import statistics
import sys
import tempfile

from mutators import BUILT, made_shim, part

if __name__ == "__main__" and (sys.argv[1:] == ["--help"] or len(sys.argv) == 1 and not os.path.exists(BUILT)):
    sys.exit(print(__doc__.strip()) or len(sys.argv) == 1)

HEAD = """registers = 4
blocks = [64, 64, 64, 64, 64]
period = 65536
headroom = 65536
"""
CELLS = 5 * 64 * 64
COUNTS = (5, CELLS // 4, 3 * CELLS // 4, CELLS)


def write(path, count):
    with open(path, "w") as file:
        file.write(HEAD + "\n[[mutator]]\nops = [\n")
        for at in range(count):
            file.write(f'"table r{at % 4}",\n' if at % 5 == 4 else f'"alloc r{at % 4} {at % 5}",\n')
        file.write("]\n\n[[mutator]]\nops = []\n")


def main():
    times = int(sys.argv[1]) if len(sys.argv) > 1 else 21
    programs = sys.argv[2:] or [os.path.relpath(BUILT)]
    with tempfile.TemporaryDirectory() as room:
        shim = made_shim(room)
        paths = [os.path.join(room, f"{count}.toml") for count in COUNTS]
        for count, path in zip(COUNTS, paths):
            write(path, count)
        runs = [[[part(program, path, shim) for path in paths] for program in programs] for _ in range(times)]
        print("| Program | First quarter, nanoseconds | Last quarter | All |")
        print("|---|---|---|---|")
        for program, rows in zip(programs, zip(*runs)):
            took = dict(zip(COUNTS, (1e3 * statistics.median(column) for column in zip(*rows))))
            each = [(took[to] - took[since]) / (to - since) for since, to in
                    ((COUNTS[0], COUNTS[1]), (COUNTS[2], COUNTS[3]), (COUNTS[0], COUNTS[3]))]
            print(f"| {program} | " + " | ".join(f"{nanoseconds:.0f}" for nanoseconds in each) + " |")


if __name__ == "__main__":
    main()
