"""What mutators gain by threads: how long a part takes in which each makes the same calls, on words of its own.

    python3 bench/mutators.py [PROGRAM [TIMES]]

PROGRAM is crates/riptide/out/riptide where it isn't given. Each of 1, 2, 4, 8 and 16 mutators makes a cell of its own and
then 16,383 gets, puts and moves, all in one part. The runs of each number are made TIMES times (11), in turn, and medians
are printed of the part alone, as bench/freezes.c tells it, which gcc builds: from where the first thread is started to where
the last is joined. Where one mutator has calls, a second one has none, so that a thread is started there too. The last but
one column is how many times as many calls a second all of them make as one does. The last is the same of the threads of
bench/lines.c, each of which stores a word in a line of its own for as long as a part takes, in turn with the parts: more than
these the machine doesn't give. It asks for as many processors as mutators.
"""
import os
import re
import statistics
import subprocess
import sys
import tempfile

HERE = os.path.dirname(os.path.abspath(__file__))
BUILT = os.path.join(HERE, "..", "crates", "riptide", "out", "riptide")

if __name__ == "__main__" and (sys.argv[1:] == ["--help"] or len(sys.argv) == 1 and not os.path.exists(BUILT)):
    sys.exit(print(__doc__.strip()) or len(sys.argv) == 1)

HEAD = """registers = 4
blocks = [4, 4, 4, 4, 0]
period = 20000
headroom = 64
"""
CALLS = 16384
TOLD = re.compile(rb"1 parts, (\d+) microseconds in all")


def write(path, mutators):
    with open(path, "w") as file:
        file.write(HEAD)
        for mutator in range(max(mutators, 2)):
            made = []
            if mutator < mutators:
                made = [f"alloc r0 {mutator % 4}"] + ["get r1 r0 0", "put r0 1 r1", "move r2 r0"] * (CALLS // 3)
            file.write("\n[[mutator]]\nops = [\n")
            file.writelines(f'"{op}",\n' for op in made)
            file.write("]\n")


def made_shim(room):
    """bench/freezes.c, built in a folder."""
    shim = os.path.join(room, "freezes.so")
    subprocess.run(["gcc", "-O2", "-shared", "-fPIC", "-o", shim, os.path.join(HERE, "freezes.c"), "-ldl"], check=True)
    return shim


def part(program, path, shim):
    """The microseconds of the one part of a run."""
    with open(path) as source:
        run = subprocess.run([program], stdin=source, stdout=subprocess.DEVNULL, stderr=subprocess.PIPE,
                             env={**os.environ, "LD_PRELOAD": shim})
    told = TOLD.search(run.stderr)
    if run.returncode != 0 or not told:
        sys.exit(f"{program} ended with {run.returncode}, and told of no part")
    return int(told[1])


def stores(threads, count):
    """The microseconds that so many threads of bench/lines.c take."""
    return int(subprocess.run([threads, str(count)], stdout=subprocess.PIPE, check=True).stdout)


def main():
    program = sys.argv[1] if len(sys.argv) > 1 else BUILT
    times = int(sys.argv[2]) if len(sys.argv) > 2 else 11
    numbers = (1, 2, 4, 8, 16)
    with tempfile.TemporaryDirectory() as room:
        shim = made_shim(room)
        paths = [os.path.join(room, f"{mutators}.toml") for mutators in numbers]
        threads = os.path.join(room, "lines")
        subprocess.run(["gcc", "-O2", "-pthread", "-o", threads, os.path.join(HERE, "lines.c")], check=True)
        for mutators, path in zip(numbers, paths):
            write(path, mutators)
        each = []
        for _ in range(times):
            each.append([part(program, path, shim) for path in paths] + [stores(threads, count) for count in numbers])
        medians = [statistics.median(runs) for runs in zip(*each)]
        parts, loops = medians[:len(numbers)], medians[len(numbers):]
        print("| Mutators | A part, microseconds | A call, nanoseconds | Calls a second, times those of one | Stores alone |")
        print("|---|---|---|---|---|")
        for mutators, took, loop in zip(numbers, parts, loops):
            calls = 1e3 * took / (mutators * CALLS)
            gains = f"{mutators * parts[0] / took:.2f} | {mutators * loops[0] / loop:.2f}"
            print(f"| {mutators} | {took:.0f} | {calls:.0f} | {gains} |", flush=True)


if __name__ == "__main__":
    main()
