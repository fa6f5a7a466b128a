"""Heaps that a collection marks a cell a round: what one freeze takes in which each pass over all cells gives one cell
more.

    python3 bench/squares.py [PROGRAM [TIMES]]

PROGRAM is crates/riptide/out/riptide where it isn't given; `cd crates/riptide && rt run < stdin` builds it. Each
workload makes a chain of cells out of ordinary operations and collects once while a register keeps all of it. Each is
made in a quarter of its size too: where the time is four times as long for the whole, the cost is linear, and where it
is sixteen times as long, it is a square. The twin (bench/twin/twin.rs, which rustc builds) and the plain store run the
same files; the three are run TIMES times (3) in turn, and the least counts: of the longest freeze, as bench/freezes.c
tells it, which gcc builds, and of the processor's seconds of each whole run. It ends with 1 where a chain isn't kept
whole, or a text differs.

- keys: each cell is the key of a pair whose value is the next one, in tables that are all kept. The first pair of the
  chain is the last one of the last table, so that a pass over the tables from the first on meets each pair too soon.
- turns: cells that hold one another by a slot and by a group in turn.
- pairs: each table has one pair, whose value is in a group with the next table.
"""
import os
import re
import subprocess
import sys
import tempfile

HERE = os.path.dirname(os.path.abspath(__file__))
BUILT = os.path.join(HERE, "..", "crates", "riptide", "out", "riptide")

if __name__ == "__main__" and (sys.argv[1:] == ["--help"] or len(sys.argv) == 1 and not os.path.exists(BUILT)):
    sys.exit(print(__doc__.strip()) or len(sys.argv) == 1)

HEAD = """registers = 8
blocks = %s
period = 65536
headroom = 1000

[[mutator]]
ops = [
"""
TOLD = re.compile(rb"(\d+) freezes, (\d+) microseconds in all, the longest (\d+)")


def keys(count):
    """A chain of so many keys, made from its end; and the tables in the slots of cells that hold one another. r2 keeps them."""
    made, free = ["alloc r0 0"], [0] * 4
    free[0] = 1
    for number in range(count):
        if number % 8 == 0:
            made += ["release r3"] * (number > 0) + ["table r3", "claim r3"]
            if number // 8 % 15 == 0:
                made += ["alloc r4 3", "put r4 15 r2", "move r2 r4"]
                free[3] += 1
            made.append(f"put r2 {number // 8 % 15} r3")
        new, old = (1, 0) if number % 2 == 0 else (0, 1)
        size = next(size for size in range(4) if free[size] < 4096)
        free[size] += 1
        made += [f"alloc r{new} {size}", f"pair r3 r{new} r{old}"]
    tables = -(-count // 8)
    return "[64, 64, 64, 64, 64]", made + [f"drop r{old}", "drop r3", "drop r4"], count + 1 + tables + -(-tables // 15)


def turns(count):
    """So many cells, each of which is held by the one behind it: by a slot and by a group in turn."""
    made = ["alloc r0 0"]
    for number in range(1, count):
        new, old = f"r{number % 2}", f"r{1 - number % 2}"
        made.append(f"alloc {new} {number % 4}")
        made += [f"group {new} {number}", f"group {old} {number}"] if number % 2 == 0 else [f"put {new} 0 {old}"]
    return "[64, 64, 64, 64, 0]", made + [f"drop {old}"], count


def pairs(count):
    """So many tables, each of which has a pair under one key; its value is in a group with the table before it."""
    made = ["alloc r2 0", "table r0"]
    for number in range(1, count):
        new, old = f"r{number % 2}", f"r{1 - number % 2}"
        made += [f"alloc r3 {number % 4}", f"group r3 {number}", f"group {old} {number}", f"table {new}"]
        made += [f"claim {new}", f"pair {new} r2 r3", f"release {new}"]
    return "[64, 64, 64, 64, 64]", made + [f"drop {old}", "drop r3"], 2 * count


SQUARES = [("keys", 14300, keys), ("turns", 16384, turns), ("pairs", 4000, pairs)]


def write(path, blocks, operations):
    """A second mutator asks for the collection too: for it a thread is started, by which a freeze is told."""
    with open(path, "w") as file:
        file.write(HEAD % blocks)
        file.writelines(f'  "{one}",\n' for one in operations)
        file.write('  "collect",\n]\n\n[[mutator]]\nops = ["collect"]\n')


def run(command, path, out, shim):
    """The milliseconds of the longest freeze of one run, or none, and the processor's seconds of all of it."""
    with open(path) as source, open(out, "w") as sink, tempfile.TemporaryFile() as told:
        process = subprocess.Popen(command, stdin=source, stdout=sink, stderr=told, env={**os.environ, "LD_PRELOAD": shim})
        _, status, used = os.wait4(process.pid, 0)
        process.returncode = os.waitstatus_to_exitcode(status)
        told.seek(0)
        freezes = TOLD.search(told.read())
    if process.returncode != 0:
        sys.exit(f"{' '.join(command)} ended with {process.returncode}")
    return int(freezes[3]) / 1e3 if freezes else 0, used.ru_utime + used.ru_stime


def text(path):
    with open(path) as file:
        return file.read()


def main():
    program = sys.argv[1] if len(sys.argv) > 1 else BUILT
    times = int(sys.argv[2]) if len(sys.argv) > 2 else 3
    wrong = 0
    with tempfile.TemporaryDirectory() as room:
        twin, shim, path = (os.path.join(room, name) for name in ("twin", "freezes.so", "workload.toml"))
        subprocess.run(["rustc", "--edition", "2021", "-O", "-o", twin, os.path.join(HERE, "twin", "twin.rs")], check=True)
        subprocess.run(["gcc", "-O2", "-shared", "-fPIC", "-o", shim, os.path.join(HERE, "freezes.c"), "-ldl"], check=True)
        commands = {"riptide": [program], "the twin": [twin, "--turns"], "the plain store": [program, "--plain"]}
        print("| Chain of | Cells | Longest freeze, ms | Whole run, seconds | Twin | Plain store |")
        print("|---|---|---|---|---|---|")
        for name, size, made in SQUARES:
            for count in (size // 4, size):
                blocks, operations, kept = made(count)
                write(path, blocks, operations)
                each = [[run(command, path, os.path.join(room, one), shim) for one, command in commands.items()] for _ in range(times)]
                freeze = min(runs[0][0] for runs in each)
                seconds = " | ".join("%.3f" % min(runs[at][1] for runs in each) for at in range(3))
                print(f"| {name} | {kept} | {freeze:.1f} | {seconds} |", flush=True)
                texts = {one: text(os.path.join(room, one)) for one in commands}
                if f"\ncycle 1 kept {kept} freed 0\n" not in texts["riptide"]:
                    wrong = 1
                    print(f"the first cycle of {name} doesn't keep its {kept} cells", file=sys.stderr)
                for one in texts:
                    if texts[one] != texts["riptide"]:
                        wrong = 1
                        print(f"the text of {name} is another one by {one}", file=sys.stderr)
    return wrong


if __name__ == "__main__":
    sys.exit(main())
