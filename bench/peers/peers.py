"""riptide beside what a user would pick instead: Boehm's collector in C, and node.

    python3 bench/peers/peers.py [--write] [PROGRAM [TIMES]]

PROGRAM is crates/riptide/out/riptide where it isn't given; `cd crates/riptide && rt run < stdin` builds it. Boehm's
collector is Debian's libgc-dev, and its program boehm.c is built by gcc; node runs node.js. What isn't installed has no row.
Each runs the same operations TIMES times (9), in turn, and medians are printed: of all operations but the collections, of a
collection that is asked for, and of a run's longest one. At its end each says how many cells are live, and this script ends
with 1 where these numbers differ. With --write the table goes into docs/BENCH.md, between its marks.

riptide's operations are told as the clock's time of its run, less that of a run of the same file that is refused for a last
line that is no operation, once all of it was read; another mutator asks for each collection too, so that a thread starts in
each part, by which bench/freezes.c tells a freeze. So its operations have their lines of text in them, and the start of threads.
"""
import os
import re
import shutil
import statistics
import struct
import subprocess
import sys
import tempfile
import time

if __name__ == "__main__" and sys.argv[1:] == ["--help"]:
    sys.exit(print(__doc__.strip()))

HERE = os.path.dirname(os.path.abspath(__file__))
TOP = os.path.join(HERE, "..", "..")
PAGE = os.path.join(TOP, "docs", "BENCH.md")
MARKS = "<!-- peers -->\n", "<!-- end of peers -->\n"
TOLD = re.compile(r"(\d+) freezes, (\d+) microseconds in all, the longest (\d+)")
HEAD = """registers = 4
strong = 256
blocks = [64, 64, 64, 64, 0]
period = 65536
headroom = 1000000
"""
CODES = {name: code for code, name in enumerate(["alloc", "get", "put", "move", "drop", "strong", "sget", "collect"])}


# the workloads


def made(cells):
    """So many cells of the four classes in turn, in 64 chains, each of which a strong handle holds."""
    ops = []
    for number in range(cells):
        ops.append(f"alloc r1 {number % 4}")
        if number >= 64:
            ops += [f"sget r0 {number % 64}", "put r1 0 r0"]
        ops.append(f"strong {number % 64} r1")
    return ops + ["drop r0", "drop r1"]


def live_heap():
    """All 16,384 cells live, and collected eight times."""
    return made(16384)[:65536 - 10] + ["drop r0", "drop r1"] + ["collect"] * 8


def dead_heap():
    """Three times 16,384 cells that die at once, each time collected."""
    return (["alloc r0 %d" % (i % 4) for i in range(16384)] + ["drop r0", "collect"]) * 3


def short_lives():
    """1,024 cells live, and beside them 56,000 that die at once, with a collection after each 1,000."""
    ops = made(1024)
    for number in range(56000):
        ops.append(f"alloc r0 {number % 4}")
        if number % 1000 == 999:
            ops += ["drop r0", "collect"]
    return ops


def reads_and_writes():
    """64 cells whose slots are read, written and moved, without a collection but the last."""
    ops = made(64)
    for number in range(20000):
        ops += [f"sget r0 {number % 64}", f"get r1 r0 {number % 2}", f"put r0 {(number + 1) % 2} r1"]
    return ops + ["drop r0", "drop r1", "collect"]


WORKLOADS = [("live heap", live_heap()), ("dead heap", dead_heap()), ("short lives", short_lives()),
             ("reads and writes", reads_and_writes())]


def write_workload(path, ops):
    with open(path, "w") as file:
        file.write(HEAD)
        for script in ([op for op in ops if op == "collect"], ops):
            file.write("\n[[mutator]]\nops = [\n")
            file.writelines(f'  "{op}",\n' for op in script)
            file.write("]\n")


def write_calls(path, ops):
    """The operations as the peers read them: four numbers each, the first of which is the operation."""
    with open(path, "wb") as file:
        for op in ops:
            name, *operands = op.split()
            numbers = [int(operand.lstrip("r")) for operand in operands] + [0, 0, 0]
            file.write(struct.pack("<4i", CODES[name], *numbers[:3]))


# the programs: each says milliseconds of all operations but the collections, how many of these there were, milliseconds of
# one of them and of the longest, and how many cells are live at the end


def timed(words, path, out, preload=None):
    """The seconds by the clock and the status of a run, and what it wrote on its standard error."""
    environment = {**os.environ, "LD_PRELOAD": preload} if preload else os.environ
    with open(path) as source, open(out, "w") as sink, tempfile.TemporaryFile("w+") as told:
        began = time.perf_counter()
        process = subprocess.Popen(words, stdin=source, stdout=sink, stderr=told, env=environment)
        status = process.wait()
        clock = time.perf_counter() - began
        told.seek(0)
        return clock, status, told.read()


def riptide(program, room, ops, shim):
    path, refused, out = (os.path.join(room, name) for name in ("workload.toml", "refused.toml", "out"))
    write_workload(path, ops)
    write_workload(refused, ops + ["nothing"])
    reading = timed([program], refused, out)
    clock, status, told = timed([program], path, out, shim)
    freezes = TOLD.search(told)
    if reading[1] != 3 or status != 0 or not freezes:
        sys.exit(f"{program} ended with {reading[1]} and {status}, and not with 3 and 0")
    with open(out) as text:
        live = int(text.read().split()[-1])
    count, collected, longest = (int(number) for number in freezes.groups())
    return 1e3 * (clock - reading[0]) - collected / 1e3, count, collected / 1e3 / count, longest / 1e3, live


def peer(words, room, ops):
    calls, out = os.path.join(room, "calls"), os.path.join(room, "out")
    write_calls(calls, ops)
    _, status, _ = timed([*words, calls], os.devnull, out)
    if status != 0:
        sys.exit(f"{words[0]} ended with {status}")
    with open(out) as text:
        took, asked, collected, longest, live, _ = (int(number) for number in text.read().split())
    return (took - collected) / 1e6, asked, collected / 1e6 / asked, longest / 1e6, live


def programs(program, room):
    """What is installed: each program's name, and what runs it on a list of operations."""
    shim, boehm = os.path.join(room, "freezes.so"), os.path.join(room, "boehm")
    freezes, source = os.path.join(HERE, "..", "freezes.c"), os.path.join(HERE, "boehm.c")
    subprocess.run(["gcc", "-O2", "-shared", "-fPIC", "-o", shim, freezes, "-ldl"], check=True)
    yield "riptide", lambda ops: riptide(program, room, ops, shim)
    built = subprocess.run(["gcc", "-O2", "-o", boehm, source, "-lgc"], capture_output=True, check=False)
    if built.returncode == 0:
        yield "Boehm's collector", lambda ops: peer([boehm], room, ops)
    if shutil.which("node"):
        yield "node", lambda ops: peer(["node", "--expose-gc", os.path.join(HERE, "node.js")], room, ops)


def rows(program, times):
    with tempfile.TemporaryDirectory() as room:
        runs_of = dict(programs(program, room))
        for workload, ops in WORKLOADS:
            found = {name: [] for name in runs_of}
            for _ in range(times):
                for name, run in runs_of.items():
                    found[name].append(run(ops))
            for name, runs in found.items():
                yield workload, name, [statistics.median(one) for one in zip(*runs)]


def main():
    words = [word for word in sys.argv[1:] if word != "--write"]
    program = words[0] if words else os.path.join(TOP, "crates", "riptide", "out", "riptide")
    times = int(words[1]) if len(words) > 1 else 9
    lines = ["| Workload | Program | Operations, ms | Collections | One, ms | Longest, ms | Live at the end |",
             "|---|---|---|---|---|---|---|"]
    live = {}
    print(*lines, sep="\n")
    for workload, name, (operations, count, one, longest, cells) in rows(program, times):
        lines.append(f"| {workload} | {name} | {operations:.2f} | {count:.0f} | {one:.3f} | {longest:.3f} | {cells:.0f} |")
        live.setdefault(workload, set()).add(cells)
        print(lines[-1], flush=True)
    differing = [workload for workload, cells in live.items() if len(cells) > 1]
    for workload in differing:
        print(f"the programs end '{workload}' with different numbers of live cells", file=sys.stderr)
    if "--write" in sys.argv and not differing:
        with open(PAGE) as file:
            before, rest = file.read().split(MARKS[0])
        with open(PAGE, "w") as file:
            file.write(before + MARKS[0] + "\n".join(lines) + "\n" + MARKS[1] + rest.split(MARKS[1])[1])
    return 1 if differing else 0


if __name__ == "__main__":
    sys.exit(main())
