"""What one operation takes, on riptide and on the unproved twin of bench/twin/twin.rs: many calls of each in one part.

    python3 bench/operations.py [PROGRAM [TIMES]]

PROGRAM is crates/riptide/out/riptide where it isn't given; `cd crates/riptide && rt run < stdin` builds it. The twin is
built by rustc and bench/freezes.c by gcc, into a folder of their own. One mutator makes what the calls need, and then
the calls, all in one part; a second mutator has none, so that both programs start a thread for the part. The two
programs are run TIMES times (11) on each workload, in turn. There are 60,000 calls of each operation, but of `alloc`
16,384: all cells that are no tables. A part is timed by bench/freezes.c, from where its first thread is started to
where the last is joined. What a part of the same workload without the calls takes is taken off, by medians, so that
what is left is the calls alone, with the first touch of the list that keeps their replies. A ratio is that of medians,
and holds within one run of this script alone. It asks for two processors.
"""
import os
import statistics
import subprocess
import sys
import tempfile

from mutators import BUILT, HERE, part

if __name__ == "__main__" and (sys.argv[1:] == ["--help"] or len(sys.argv) == 1 and not os.path.exists(BUILT)):
    sys.exit(print(__doc__.strip()) or len(sys.argv) == 1)

HEAD = """registers = 4
strong = 1
blocks = [64, 64, 64, 64, 64]
arrays = [1, 0, 0, 0, 0]
shapes = ["a"]
period = 65536
headroom = 64
"""
CALLS = 60000
OBJECT = ["alloc r0 0", "claim r0", "add r0 a r0"]
TABLE = ["table r0", "alloc r1 0", "claim r0", "pair r0 r1 r1"]
# What an operation is called here, what its calls need, and those calls, again and again.
OPERATIONS = [
    ("move", ["alloc r0 0"], ["move r1 r0"]),
    ("set", [], ["set r1 7"]),
    ("get", ["alloc r0 0", "put r0 0 r0"], ["get r1 r0 0"]),
    ("put", ["alloc r0 0"], ["put r0 1 r0"]),
    ("getp", OBJECT, ["getp r1 r0 a"]),
    ("setp", OBJECT, ["setp r0 a r0"]),
    ("claim and release", ["alloc r0 0"], ["claim r0", "release r0"]),
    ("strong", ["alloc r0 0"], ["strong 0 r0"]),
    ("sget", ["alloc r0 0", "strong 0 r0"], ["sget r1 0"]),
    ("group", ["alloc r0 0"], ["group r0 1"]),
    ("pair", TABLE, ["pair r0 r1 r1"]),
    ("pget", TABLE, ["pget r2 r0 r1"]),
]
# All cells of the four classes that are no tables, one class after another: there is room for no more.
ALLOCATIONS = [f"alloc r1 {size}" for size in range(4) for _ in range(4096)]


def workloads():
    """Each operation's name, its workload without its calls, and its calls."""
    for name, needs, ops in OPERATIONS:
        yield name, needs, ops * (CALLS // len(ops))
    yield "alloc", [], ALLOCATIONS


def write(path, ops):
    with open(path, "w") as file:
        file.write(HEAD)
        for script in (ops, []):
            file.write("\n[[mutator]]\nops = [\n")
            file.writelines(f'"{op}",\n' for op in script)
            file.write("]\n")


def main():
    program = sys.argv[1] if len(sys.argv) > 1 else BUILT
    times = int(sys.argv[2]) if len(sys.argv) > 2 else 11
    with tempfile.TemporaryDirectory() as room:
        shim, twin, bare, full = (os.path.join(room, name) for name in ("freezes.so", "twin", "bare.toml", "full.toml"))
        subprocess.run(["gcc", "-O2", "-shared", "-fPIC", "-o", shim, os.path.join(HERE, "freezes.c"), "-ldl"], check=True)
        source = os.path.join(HERE, "twin", "twin.rs")
        subprocess.run(["rustc", "--edition", "2021", "-O", "-o", twin, source], check=True)
        print("| Operation | Calls | A call, ns | The twin's, ns | Ratio |")
        print("|---|---|---|---|---|")
        for name, needs, calls in workloads():
            write(bare, needs)
            write(full, needs + calls)
            runs = ((program, bare), (program, full), (twin, bare), (twin, full))
            each = zip(*[[part(*run, shim) for run in runs] for _ in range(times)])
            idle, mine, twin_idle, others = (statistics.median(took) for took in each)
            mine, others = (1e3 * took / len(calls) for took in (mine - idle, others - twin_idle))
            print(f"| {name} | {len(calls)} | {mine:.1f} | {others:.1f} | {mine / others:.2f} |", flush=True)


if __name__ == "__main__":
    main()
