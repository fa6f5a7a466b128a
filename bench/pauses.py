"""How long mutators are stopped: the freezes of riptide beside those of the unproved twin of bench/twin/twin.rs.

    python3 bench/pauses.py [PROGRAM [TIMES]]

PROGRAM is crates/riptide/out/riptide where it isn't given; `cd crates/riptide && rt run < stdin` builds it. The twin is
built by rustc and bench/freezes.c, which tells of freezes, by gcc, into a folder of their own. The two programs are run
TIMES times (11) on each workload, in turn, and medians are printed: of all freezes of a run together, and of the
longest of them.

- `--make 7` is the generated workload: four mutators, 80,004 calls, 16,000 cells.
- `full of live cells` is the largest heap: 16,384 cells in one chain, with a table at each of the first 4,096. It is
  collected by a forced freeze, and once more at the end of the run.
- In `full of dead cells` the chain dies before it is collected.
- In `dead cells and arrays` 16,384 cells die, and with 4,096 of them the array of their property.

A second mutator asks for each collection too, so that both programs start a thread for each part. It asks for two processors.
"""
import os
import re
import statistics
import subprocess
import sys
import tempfile

from mutators import BUILT, HERE, made_shim

if __name__ == "__main__" and (sys.argv[1:] == ["--help"] or len(sys.argv) == 1 and not os.path.exists(BUILT)):
    sys.exit(print(__doc__.strip()) or len(sys.argv) == 1)

HEAD = """registers = 6
blocks = [64, 64, 64, 64, 64]
arrays = [64, 0, 0, 0, 0]
shapes = ["a"]
period = 65536
headroom = 32
"""
TOLD = re.compile(rb"(\d+) freezes, (\d+) microseconds in all, the longest (\d+)")


def chain(tables=4096):
    """The operations that fill a heap with one chain of 16,384 cells, and tables beside the first of them."""
    ops = []
    for i in range(16384):
        new, old = ("r0", "r1") if i % 2 else ("r1", "r0")
        ops += [f"alloc {new} {i % 4}", f"put {new} 0 {old}" if i else "move r2 r1"]
        if i < tables:
            ops += ["table r4", f"put {new} 1 r4"]
    return ops


def properties(objects=4096):
    """The operations that fill a heap with 16,384 cells, the first of which have a property each. None is held at the end."""
    ops = []
    for i in range(16384):
        ops.append(f"alloc r0 {i % 4}")
        if i < objects:
            ops += ["claim r0", "add r0 a r0", "release r0"]
    return ops


DROPS = ["drop r0", "drop r1", "drop r2", "drop r4"]
WORKLOADS = [
    ("full of live cells", chain() + ["collect"]),
    ("full of dead cells", chain() + DROPS + ["collect"]),
    ("dead cells and arrays", properties() + DROPS + ["collect"]),
]


def write(path, ops):
    with open(path, "w") as file:
        file.write(HEAD)
        for script in (ops, [op for op in ops if op == "collect"]):
            file.write("\n[[mutator]]\nops = [\n")
            file.writelines(f'"{op}",\n' for op in script)
            file.write("]\n")


def freezes(command, path, shim):
    """The number of freezes of a run, the milliseconds of all of them and those of the longest."""
    with open(path) as source:
        run = subprocess.run(command, stdin=source, stdout=subprocess.DEVNULL, stderr=subprocess.PIPE,
                             env={**os.environ, "LD_PRELOAD": shim})
    told = TOLD.search(run.stderr)
    if run.returncode != 0 or not told:
        sys.exit(f"{command} ended with {run.returncode}, and told of no freeze")
    return int(told[1]), int(told[2]) / 1e3, int(told[3]) / 1e3


def main():
    program = sys.argv[1] if len(sys.argv) > 1 else BUILT
    times = int(sys.argv[2]) if len(sys.argv) > 2 else 11
    with tempfile.TemporaryDirectory() as room:
        shim, twin, path = made_shim(room), os.path.join(room, "twin"), os.path.join(room, "workload.toml")
        source = os.path.join(HERE, "twin", "twin.rs")
        subprocess.run(["rustc", "--edition", "2021", "-O", "-o", twin, source], check=True)
        print("| Workload | Freezes | All of them, ms | The twin's | Ratio | The longest, ms | The twin's | Ratio |")
        print("|---|---|---|---|---|---|---|---|")
        for name, ops in [("`--make 7`", None)] + WORKLOADS:
            words = ["--make", "7"] if ops is None else []
            write(path, ops or [])
            runs = [(freezes([program] + words, path, shim), freezes([twin] + words, path, shim)) for _ in range(times)]
            count = runs[0][0][0]
            cells = [name, str(count)]
            for what in (1, 2):
                mine, others = (statistics.median(run[which][what] for run in runs) for which in (0, 1))
                cells += [f"{mine:.2f}", f"{others:.2f}", f"{mine / others:.2f}"]
            print("| " + " | ".join(cells) + " |", flush=True)


if __name__ == "__main__":
    main()
