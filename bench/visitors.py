"""What visitors cost and save: riptide with 0, 1, 3 and 8 of them, on a heap that is full of live cells.

    python3 bench/visitors.py [PROGRAM [TIMES]]

PROGRAM is crates/riptide/out/riptide where it isn't given. Four mutators make 16,000 cells that live to the end, while cycles
begin after each 1,000 births; then each makes 16,384 moves. A part has PERIOD calls of each, and where a cycle marks each
visitor makes as many cells black in it, if so many are grey. The runs are made TIMES times (11), those of one period in turn,
and medians are printed: of the clock, of the processor, of all freezes together and of the longest one. A freeze is told by
bench/freezes.c, which gcc builds. A line behind the table says how many cells a part must have grey for a visitor to pay:
what a part costs more by the clock with one visitor, divided by what a cell takes in a pause.
"""
import os
import re
import statistics
import subprocess
import sys
import tempfile
import time

HERE = os.path.dirname(os.path.abspath(__file__))
BUILT = os.path.join(HERE, "..", "crates", "riptide", "out", "riptide")

if __name__ == "__main__" and (sys.argv[1:] == ["--help"] or len(sys.argv) == 1 and not os.path.exists(BUILT)):
    sys.exit(print(__doc__.strip()) or len(sys.argv) == 1)

HEAD = """registers = 4
strong = 256
blocks = [64, 64, 64, 64, 0]
period = %d
headroom = 16000
trigger = 1000
"""
TOLD = re.compile(rb"(\d+) freezes, (\d+) microseconds in all, the longest (\d+)")


def operations(mutator):
    """A mutator's 4,000 cells in 64 chains, each held by a strong handle, and its moves."""
    made = []
    for number in range(4000):
        made.append(f"alloc r1 {mutator}")
        if number % 63:
            made.append("put r1 0 r0")
        made.append("move r0 r1")
        if number % 63 == 62 or number == 3999:
            made.append(f"strong {64 * mutator + number // 63} r0")
    return made + ["move r2 r3"] * 16384


def write(path, period):
    with open(path, "w") as file:
        file.write(HEAD % period)
        for mutator in range(4):
            file.write("\n[[mutator]]\nops = [\n")
            file.writelines(f'  "{op}",\n' for op in operations(mutator))
            file.write("]\n")


def run(program, visitors, path, shim):
    """The milliseconds of one run: by the clock, of the processor, of all freezes, of the longest one."""
    with open(path) as source, open(os.devnull, "w") as sink, tempfile.TemporaryFile() as told:
        began = time.perf_counter()
        process = subprocess.Popen([program, "--visitors", str(visitors)], stdin=source, stdout=sink, stderr=told,
                                   env={**os.environ, "LD_PRELOAD": shim})
        _, status, used = os.wait4(process.pid, 0)
        process.returncode = status
        clock = time.perf_counter() - began
        told.seek(0)
        freezes = TOLD.search(told.read())
    if os.waitstatus_to_exitcode(status) != 0 or not freezes:
        sys.exit(f"{program} with {visitors} visitors ended with {status}, and told of no freeze")
    return 1e3 * clock, 1e3 * (used.ru_utime + used.ru_stime), int(freezes[2]) / 1e3, int(freezes[3]) / 1e3


def main():
    program = sys.argv[1] if len(sys.argv) > 1 else BUILT
    times = int(sys.argv[2]) if len(sys.argv) > 2 else 11
    with tempfile.TemporaryDirectory() as room:
        shim, path = os.path.join(room, "freezes.so"), os.path.join(room, "workload.toml")
        subprocess.run(["gcc", "-O2", "-shared", "-fPIC", "-o", shim, os.path.join(HERE, "freezes.c"), "-ldl"], check=True)
        print("| Period | Visitors | Clock, ms | Processor, ms | All freezes, ms | Longest, ms |")
        print("|---|---|---|---|---|---|")
        for period in (16, 64, 256, 1024, 4096):
            write(path, period)
            each = list(zip(*[[run(program, visitors, path, shim) for visitors in (0, 1, 3, 8)] for _ in range(times)]))
            for visitors, runs in zip((0, 1, 3, 8), each):
                cells = " | ".join("%.1f" % statistics.median(one) for one in zip(*runs))
                print(f"| {period} | {visitors} | {cells} |", flush=True)


if __name__ == "__main__":
    main()
