"""Whole runs of one mutator: riptide beside the unproved twin of twin.rs, from the program's start to its end.

    python3 bench/twin/one_mutator.py [PROGRAM [TIMES]]

PROGRAM is crates/riptide/out/riptide where it isn't given; `cd crates/riptide && rt run < stdin` builds it. The twin is
built by rustc into a folder of its own. Each of the two programs is run TIMES times (5) on each workload, in turn, and
the least counts: of the seconds by the clock, and of the processor's, user and system. A ratio holds within one run of
this script alone. It ends with 1 where a text differs from the twin's.
"""
import os
import subprocess
import sys
import tempfile
import time

if __name__ == "__main__" and sys.argv[1:] == ["--help"]:
    sys.exit(print(__doc__.strip()))

HERE = os.path.dirname(os.path.abspath(__file__))
HEAD = """registers = 4
blocks = %s
arrays = [4, 0, 0, 0, 0]
period = 16
headroom = 32
shapes = ["a b"]

[[mutator]]
ops = [
"""


def properties():
    """A cell is made, claimed, given two properties, written, read and dropped; each 256th is a collection."""
    ops = "alloc r0 0|claim r0|add r0 a r1|add r0 b r0|setp r0 a r0|getp r2 r0 b|release r0|drop r0".split("|")
    return ["collect" if (i + 1) % 256 == 0 else ops[i % 8] for i in range(65536)]


def allocations(every):
    """Allocations in turn in four registers and classes, and a collection every so many operations."""
    return ["collect" if i % every == 0 else "alloc r%d %d" % (i % 4, i % 4) for i in range(1, 65537)]


def star():
    """Each of 4,096 cells holds the one before it and the first, and all of them are collected."""
    ops = ["alloc r0 3", "move r2 r0"]
    for _ in range(1, 4096):
        ops += ["alloc r1 3", "put r1 0 r0", "move r0 r1", "put r1 15 r2"]
    return ops + ["drop r1", "drop r2", "collect", "collect", "collect", "collect", "drop r0", "collect"]


WORKLOADS = [
    ("properties", "[4, 0, 0, 0, 0]", properties()),
    ("small heap", "[1, 1, 1, 1, 1]", allocations(8)),
    ("star", "[0, 0, 0, 64, 0]", star()),
    ("largest layout, every 64", "[64, 64, 64, 64, 64]", allocations(64)),
    ("largest layout, every 8", "[64, 64, 64, 64, 64]", allocations(8)),
]


def write(path, blocks, ops):
    with open(path, "w") as file:
        file.write(HEAD % blocks)
        file.writelines('  "%s",\n' % op for op in ops)
        file.write("]\n")


def run(program, path, out):
    """The seconds of one run, by the clock and of the processor."""
    with open(path) as source, open(out, "w") as sink:
        began = time.perf_counter()
        process = subprocess.Popen([program], stdin=source, stdout=sink, stderr=subprocess.DEVNULL)
        _, _, used = os.wait4(process.pid, 0)
        process.returncode = 0
        return time.perf_counter() - began, used.ru_utime + used.ru_stime


def same(one, other):
    with open(one, "rb") as first, open(other, "rb") as second:
        return first.read() == second.read()


def main():
    built = os.path.join(HERE, "..", "..", "crates", "riptide", "out", "riptide")
    program = sys.argv[1] if len(sys.argv) > 1 else built
    times = int(sys.argv[2]) if len(sys.argv) > 2 else 5
    differing = 0
    with tempfile.TemporaryDirectory() as room:
        twin = os.path.join(room, "twin")
        source = os.path.join(HERE, "twin.rs")
        subprocess.run(["rustc", "--edition", "2021", "-O", "-o", twin, source], check=True)
        path, mine, others = (os.path.join(room, name) for name in ("workload.toml", "mine", "others"))
        print("| Workload | Seconds | Twin | Ratio | Processor | Twin | Ratio |")
        print("|---|---|---|---|---|---|---|")
        for name, blocks, ops in WORKLOADS:
            write(path, blocks, ops)
            pairs = [(run(program, path, mine), run(twin, path, others)) for _ in range(times)]
            clock, processor = (min(p[0][k] for p in pairs) for k in (0, 1))
            twin_clock, twin_processor = (min(p[1][k] for p in pairs) for k in (0, 1))
            row = (name, clock, twin_clock, clock / twin_clock)
            row += (processor, twin_processor, processor / twin_processor)
            print("| %s | %.4f | %.4f | %.2f | %.4f | %.4f | %.2f |" % row, flush=True)
            if not same(mine, others):
                differing = 1
                print("the texts of '%s' differ" % name, file=sys.stderr)
    return differing


if __name__ == "__main__":
    sys.exit(main())
