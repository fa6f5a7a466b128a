"""What the sweep of a dead cell costs, and whom: the freeze that ends its cycle, or the allocations that want its block.

    python3 bench/sweeps.py [TIMES [PROGRAM...]]

PROGRAM is crates/riptide/out/riptide where none is given; of several each has a row, and they run in turn, so that a program
that sweeps in each freeze and one whose allocations do are timed in one run. One mutator allocates all 20,480 cells of the
largest heap into one register, in one part; the cycle that begins by itself in the freeze after it frees all of them but
the last. In the second part it allocates 20,479 more, for which each block is swept, and in the third it retires. Each is
run TIMES times (21). Of each freeze and each part the time is told by bench/freezes.c, which gcc builds: of the freeze after
the first part, in which all cells die; of the last one, which sweeps all; of the first part and of the second. A second
mutator has as many calls, which do nothing, so that a thread is started in each part.

The columns are medians: the freeze in which the cells die, a cell of it, the longest freeze of the run, and an allocation of
the first part and of the second; and from the two, what a block's sweep takes those that want it. Behind the table stands
the same run's `--make 7`: the clock, the processor, all freezes and the longest.
"""
import os
import re
import statistics
import subprocess
import sys
import tempfile
import time

HERE = os.path.dirname(os.path.abspath(__file__))
BUILT = os.path.join(HERE, "..", "crates", "riptide", "out", "riptide")

if __name__ == "__main__" and (sys.argv[1:] == ["--help"] or len(sys.argv) == 1 and not os.path.exists(BUILT)):
    sys.exit(print(__doc__.strip()) or len(sys.argv) == 1)

HEAD = """registers = 1
blocks = [64, 64, 64, 64, 64]
period = 20480
headroom = 1000000
trigger = 20480
"""
CELLS = 5 * 64 * 64
BLOCKS = CELLS // 64
EACH = re.compile(rb"(freeze|part) (\d+)\n")
ALL = re.compile(rb"(\d+) freezes, (\d+) microseconds in all, the longest (\d+)")


def write(path):
    born = ['"table r0"' if cell >= 4 * CELLS // 5 else f'"alloc r0 {cell // (CELLS // 5)}"' for cell in range(CELLS)]
    with open(path, "w") as file:
        file.write(HEAD)
        for script in (born + born[:-1] + ['"drop r0"'], ['"drop r0"'] * 2 * CELLS):
            file.write("\n[[mutator]]\nops = [\n" + ",\n".join(script) + "\n]\n")


def run(words, source, shim):
    """The milliseconds of the clock and of the processor, and what the shim told."""
    with open(source) as document, open(os.devnull, "w") as sink, tempfile.TemporaryFile() as told:
        began = time.perf_counter()
        process = subprocess.Popen(words, stdin=document, stdout=sink, stderr=told,
                                   env={**os.environ, "LD_PRELOAD": shim, "FREEZES_EACH": "1"})
        _, status, used = os.wait4(process.pid, 0)
        clock = time.perf_counter() - began
        told.seek(0)
        text = told.read()
    if os.waitstatus_to_exitcode(status) != 0 or not ALL.search(text):
        sys.exit(f"{' '.join(words)} ended with {status}, and told of no freeze")
    return 1e3 * clock, 1e3 * (used.ru_utime + used.ru_stime), text


def times_of(program, path, shim):
    """The microseconds of the freeze in which the cells die, of the longest one, and of the two parts with allocations."""
    text = run([program], path, shim)[2]
    each = {kind: [int(number) for what, number in EACH.findall(text) if what == kind] for kind in (b"freeze", b"part")}
    if len(each[b"freeze"]) != 3 or len(each[b"part"]) != 3:
        sys.exit(f"{program}: {len(each[b'freeze'])} freezes and {len(each[b'part'])} parts, and not three of each")
    return each[b"freeze"][0], max(each[b"freeze"]), *each[b"part"][:2]


def made(program, shim):
    clock, processor, text = run([program, "--make", "7"], os.devnull, shim)
    all_of, longest = (int(number) / 1e3 for number in ALL.search(text).groups()[1:])
    return clock, processor, all_of, longest


def main():
    times = int(sys.argv[1]) if len(sys.argv) > 1 else 21
    programs = sys.argv[2:] or [os.path.relpath(BUILT)]
    with tempfile.TemporaryDirectory() as room:
        shim, path = os.path.join(room, "freezes.so"), os.path.join(room, "workload.toml")
        subprocess.run(["gcc", "-O2", "-shared", "-fPIC", "-o", shim, os.path.join(HERE, "freezes.c"), "-ldl"], check=True)
        write(path)
        runs = [[(times_of(program, path, shim), made(program, shim)) for program in programs] for _ in range(times)]
        print("| Program | Cells die in a freeze of, µs | A cell, ns | Longest freeze, µs | An allocation, ns "
              "| One that may sweep, ns | A block's sweep, µs |")
        print("|---|---|---|---|---|---|---|")
        for program, rows in zip(programs, zip(*runs)):
            dies, longest, first, second = (statistics.median(column) for column in zip(*(own for own, _ in rows)))
            sweep = second - first * (CELLS - 1) / CELLS
            print(f"| {program} | {dies:.0f} | {1e3 * dies / CELLS:.0f} | {longest:.0f} | {1e3 * first / CELLS:.0f} "
                  f"| {1e3 * second / (CELLS - 1):.0f} | {sweep / BLOCKS:.2f} |")
        print("\n| Program, `--make 7` | Clock, ms | Processor, ms | All freezes, ms | Longest, ms |\n|---|---|---|---|---|")
        for program, rows in zip(programs, zip(*runs)):
            medians = (statistics.median(column) for column in zip(*(own for _, own in rows)))
            print(f"| {program} | " + " | ".join(f"{median:.1f}" for median in medians) + " |")


if __name__ == "__main__":
    main()
