"""Runs on threads: riptide beside the unproved twin of twin.rs, from the program's start to its end.

    python3 bench/twin/threads.py [PROGRAM [TIMES]]

PROGRAM is crates/riptide/out/riptide where it isn't given; `cd crates/riptide && rt run < stdin` builds it. The twin is
built by rustc into a folder of its own. It starts threads for each part as PROGRAM does, or runs its mutators in turns.
The two are run TIMES times (21) on each workload, in turn, and medians count: of the seconds by the clock, of those of
the processor, user and system, and of the ratios of two runs that stood side by side. A ratio holds within one run of
this script alone; where other work runs beside, the clock tells of that work too.

- `--make 7` is the generated workload: four mutators, 80,004 calls, 16,000 cells. With visitors it is run beside the twin
  with as many.
- `four` is the same as a file, whose text is printed, and `one` is the first of its mutators alone.
- What a file takes but for its reading is what it takes longer than reading it alone: PROGRAM reads all of a file whose last
  operation is none, and refuses it, and the twin ends there with `--read`.
- `properties` and `ephemerons` are of four mutators, 65,536 calls in all: each gives cells of its own two properties, writes
  one and reads one, or makes tables, gives each a pair whose key its register keeps, and reads it.
- N mutators make 65,536 calls without any cell, in parts of 4 for each. What a part costs is what such a run takes longer
  than one of the same calls in a single part, by the number of parts more. Visitors that are started for a part in which
  nothing is marked cost what their threads do: four mutators beside 0, 1, 3 and 8 of them.

It ends with 1 where a summary or, of one mutator, a text differs from the twin's.
"""
import os
import re
import statistics
import subprocess
import sys
import tempfile
import time

if __name__ == "__main__" and sys.argv[1:] == ["--help"]:
    sys.exit(print(__doc__.strip()))

HERE = os.path.dirname(os.path.abspath(__file__))
HEAD = """registers = 10
strong = 256
blocks = [64, 64, 64, 64, %d]
arrays = [%d, 0, 0, 0, 0]
shapes = ["a b"]
period = %d
headroom = 4000
trigger = %d
"""


def rounds(number, mutator, count=4000):
    """The operations of a mutator of the generated workload, as crates/tide_make says."""
    ops, seed = [], number + mutator
    for i in range(count):
        seed = (seed * 6364136223846793005 + 1442695040888963407) % 2**64
        place = i % 50
        back = (seed >> 33) % (min(place, 6) + 1)
        new, linked = 1 + i % 7, 1 + (i - back) % 7
        ops += [f"alloc r{new} {mutator}", f"put r{new} 0 r{9 if place == 0 else 0}", f"move r0 r{new}", f"put r0 1 r{linked}"]
        ops.append(f"strong {64 * mutator + i // 50 % 64} r0" if place == 49 else "get r8 r0 0")
    return ops


PROPERTIES = "alloc r0 {0}|claim r0|add r0 a r1|add r0 b r0|setp r0 a r0|getp r2 r0 b|release r0|drop r0"
EPHEMERONS = "table r0|alloc r1 {0}|claim r0|pair r0 r1 r1|pget r2 r0 r1|release r0|drop r0|drop r2"


def in_a_ring(operations, mutator):
    """The operations of a mutator again and again: 16,384 calls of them."""
    ops = operations.format(mutator).split("|")
    return [ops[i % len(ops)] for i in range(16384)]


def write(path, period, trigger, scripts, tables=0, arrays=0):
    with open(path, "w") as file:
        file.write(HEAD % (tables, arrays, period, trigger))
        for ops in scripts:
            file.write("\n[[mutator]]\nops = [\n")
            file.writelines('  "%s",\n' % op for op in ops)
            file.write("]\n")


def run(command, path, ends=0):
    """The seconds of one run that ends with this status, by the clock and of the processor."""
    with open(path) as source, open(os.devnull, "w") as sink:
        began = time.perf_counter()
        process = subprocess.Popen(command, stdin=source, stdout=sink, stderr=subprocess.DEVNULL)
        _, status, used = os.wait4(process.pid, 0)
        process.returncode = status
        if os.waitstatus_to_exitcode(status) != ends:
            sys.exit(f"{command} ended with {status} on {path}")
        return time.perf_counter() - began, used.ru_utime + used.ru_stime


def beside(commands, path, times):
    """What each command takes, run in turn: lists of (clock, processor)."""
    return list(zip(*[[run(command, path) for command in commands] for _ in range(times)]))


def median(values):
    return statistics.median(values)


def row(name, mine, others):
    cells = [name]
    for at in (0, 1):
        cells += ["%.1f" % (1000 * median(one[at] for one in mine)), "%.1f" % (1000 * median(one[at] for one in others)),
                  "%.2f" % median(one[at] / other[at] for one, other in zip(mine, others))]
    print("| " + " | ".join(cells) + " |", flush=True)


def said(command, path):
    """What a command prints."""
    with open(path) as source:
        return subprocess.run(command, stdin=source, capture_output=True).stdout


def calls_said(command, path):
    """What a command prints but for the lines of cycles: all of the twin's are full, and so keep less."""
    return re.sub(rb"(?m)^cycle .*\n", b"", said(command, path))


def built(room):
    """The twin, built."""
    twin, source = os.path.join(room, "twin"), os.path.join(HERE, "twin.rs")
    subprocess.run(["rustc", "--edition", "2021", "-O", "-o", twin, source], check=True)
    return twin


def but_for_reading(name, program, twin, words, path, refused, times):
    """Prints what a file takes but for its reading; `refused` is the same file with an operation that is none behind it."""
    runs = (([program], path, 0), ([program], refused, 3), ([twin, *words], path, 0), ([twin, "--read"], path, 0))
    mine, alone, others, read = zip(*[[run(*one) for one in runs] for _ in range(times)])
    cells = []
    for at in (0, 1):
        one, other = (1000 * median(all_[at] - reading[at] for all_, reading in zip(*both))
                      for both in ((mine, alone), (others, read)))
        cells += ["%.1f" % one, "%.1f" % other, "%.2f" % (one / other)]
    print(f"| {name}, but for its reading | {'turns' if words else 'threads'} | " + " | ".join(cells) + " |", flush=True)


def hand_over(program, twin, room, count, visitors, times):
    """Prints what a part of so many mutators and visitors costs."""
    cells, parts, beside_them = [], 16384 // count, ["--visitors", str(visitors)]
    paths = [os.path.join(room, f"{period}.toml") for period in (4, 65536)]
    for path, period in zip(paths, (4, 65536)):
        write(path, period, 0, [["move r0 r1"] * (65536 // count)] * count)
    many, few = [beside([[program, *beside_them], [twin, *beside_them]], path, times) for path in paths]
    for at in (0, 1):
        for one, other in zip(many, few):
            cells.append("%.1f" % (1e6 * (median(run[at] for run in one) - median(run[at] for run in other)) / parts))
    print(f"| {count} | {visitors} | " + " | ".join(cells) + " |", flush=True)


def main():
    out = os.path.join(HERE, "..", "..", "crates", "riptide", "out", "riptide")
    program = sys.argv[1] if len(sys.argv) > 1 else out
    times = int(sys.argv[2]) if len(sys.argv) > 2 else 21
    differing = 0
    with tempfile.TemporaryDirectory() as room:
        twin, path = built(room), os.path.join(room, "workload.toml")
        print("| Workload | Twin on | Clock, ms | Twin | Ratio | Processor, ms | Twin | Ratio |")
        print("|---|---|---|---|---|---|---|---|")
        for words in ([], ["--turns"]):
            commands = [[program, "--make", "7"], [twin, *words, "--make", "7"]]
            row("`--make 7` | " + ("turns" if words else "threads"), *beside(commands, os.devnull, times))
            differing |= said(commands[0], os.devnull) != said(commands[1], os.devnull)
        for visitors in ("1", "3", "8"):
            words = ["--visitors", visitors, "--make", "7"]
            commands = [[program, *words], [twin, *words]]
            row(f"`--make 7`, {visitors} visitors | threads", *beside(commands, os.devnull, times))
            differing |= said(commands[0], os.devnull) != said(commands[1], os.devnull)
        for name, count, words in (("four", 4, []), ("one", 1, []), ("one", 1, ["--turns"])):
            write(path, 64, 1000, [rounds(7, mutator) for mutator in range(count)])
            row(f"{name} | " + ("turns" if words else "threads"), *beside([[program], [twin, *words]], path, times))
            differing |= count == 1 and calls_said([program], path) != calls_said([twin], path)
        refused = os.path.join(room, "refused.toml")
        write(refused, 64, 1000, [rounds(7, 0) + ["none"]])
        but_for_reading("one", program, twin, ["--turns"], path, refused, times)
        for name, operations in (("properties", PROPERTIES), ("ephemerons", EPHEMERONS)):
            scripts = [in_a_ring(operations, mutator) for mutator in range(4)]
            write(path, 64, 1000, scripts, 64, 64)
            row(f"{name} | threads", *beside([[program], [twin]], path, times))
            write(refused, 64, 1000, [*scripts[:3], scripts[3] + ["none"]], 64, 64)
            but_for_reading(name, program, twin, [], path, refused, times)
        print()
        print("| Mutators | Visitors | A part by the clock, microseconds | Twin | Of the processor | Twin |")
        print("|---|---|---|---|---|---|")
        for count, visitors in ((1, 0), (4, 0), (4, 1), (4, 3), (4, 8), (16, 0), (16, 8)):
            hand_over(program, twin, room, count, visitors, max(3, times // 3))
    return int(differing)


if __name__ == "__main__":
    sys.exit(main())
