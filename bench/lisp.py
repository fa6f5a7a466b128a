"""What scripts cost over a proved heap, beside an interpreter over Boehm's collector, and how long they are stopped.

    python3 bench/lisp.py [TIMES]

The first table: crates/tide_lisp/out/tide_lisp, as the gate builds it, and bench/lisp/boehm.c, built by gcc over Debian's
libgc-dev with one marker, run the scripts of bench/lisp TIMES times (11) in turn. It is the time of the processor, user and
system, the start of the program and the opening of its heap included; a ratio is the median of those of two runs in a row.
The second interpreter is a plain one: it walks a tree, where tide_lisp makes steps on a stack.

The second table: how long scripts are stopped. An unproved build of tide_lisp, made as judge/races.py says, keeps the time
of each freeze, of the processor, since other work on the machine lengthens a freeze by the clock. One in which a cycle begins
and ends is told as one that ends. A freeze is forced by a script's `collect`, or since one found no room; and the last one,
in which all scripts have ended, stops nobody.
"""
import os
import resource
import statistics
import subprocess
import sys
import tempfile

HERE = os.path.dirname(os.path.abspath(__file__))
sys.path.insert(0, os.path.join(HERE, "..", "judge"))

import races

if __name__ == "__main__" and sys.argv[1:] == ["--help"]:
    sys.exit(print(__doc__.strip()))

CRATE = os.path.join(HERE, "..", "crates", "tide_lisp")
SCRIPTS = os.path.join(HERE, "lisp")
DATA = os.path.join(CRATE, "data")
# what is timed: a freeze, and in it the begin and the end of a cycle, and the sweep of all that is dead
FUNCTIONS = [
    "tide_server::keeper::Keeper::end_part",
    "tide_freeze::cycle::begin_cycle",
    "tide_freeze::cycle::end_cycle",
    "tide_freeze::cycle::sweep_all",
]
RUNS = {
    "lists": ["--blocks=64", f"{SCRIPTS}/lists.scm"],
    "objects": ["--blocks=64", f"{SCRIPTS}/objects.scm"],
    "four that build lists, two visitors": ["--helpers=2", "--blocks=512", *[f"{SCRIPTS}/keeps.scm"] * 4],
    "a million pairs": ["--blocks=16384", "--trigger=500000", f"{DATA}/million.scm"],
}


def timed(words):
    """What a program prints, and the milliseconds of the processor that it takes."""
    before = resource.getrusage(resource.RUSAGE_CHILDREN)
    with open(words[-1], encoding="utf-8") as script:
        own = {**os.environ, "GC_MARKERS": "1"}
        ran = subprocess.run(words[:-1], stdin=script, stdout=subprocess.PIPE, env=own, check=True)
    after = resource.getrusage(resource.RUSAGE_CHILDREN)
    return ran.stdout, 1000 * (after.ru_utime + after.ru_stime - before.ru_utime - before.ru_stime)


def costs(ours, theirs, times):
    """The table of what scripts cost."""
    print("| Script | `tide_lisp`, ms | Over Boehm's collector, ms | Ratio |")
    print("|---|---|---|---|")
    for name in ("fib", "lists", "objects"):
        script = os.path.join(SCRIPTS, name + ".scm")
        runs = []
        for _ in range(times):
            (said, one), (told, other) = timed([ours, script]), timed([theirs, script])
            if said != told:
                sys.exit(f"{name}: {said} and {told}")
            runs.append((one, other))
        one, other = (statistics.median(column) for column in zip(*runs))
        ratio = statistics.median(one / other for one, other in runs)
        print(f"| {name} | {one:.1f} | {other:.1f} | {ratio:.2f} |", flush=True)


def marked(module):
    """The module with a call where it goes into one of the functions, and where it comes out."""
    lines, function, enters = [], None, False
    for line in races.unchecked(module).split("\n"):
        if line.startswith("define "):
            name = line.partition('@"')[2].partition('"')[0].partition("::<")[0]
            function = FUNCTIONS.index(name) if name in FUNCTIONS else None
            enters = function is not None
        elif function is not None and line.startswith(" "):
            if enters:
                lines.append(f"  call void @goes_in(i32 {function})")
                enters = False
            if line.split()[0] == "ret":
                lines.append(f"  call void @comes_out(i32 {function})")
        lines.append(line)
    return "\n".join(lines) + "\ndeclare void @goes_in(i32)\ndeclare void @comes_out(i32)\n"


def kind_of(freeze, is_last):
    """Which column a freeze belongs to."""
    (_, (_, begins), (_, ends), (_, sweeps)) = freeze
    if is_last:
        return 4
    if sweeps > 1:
        return 3
    return 2 if ends else 0 if begins else 1


def stops(program, folder):
    """The table of freezes."""
    print("\n| Scripts | Freezes | The longest where a cycle begins, ms | goes on, or none runs | ends | is forced | The last one |")
    print("|---|---|---|---|---|---|---|")
    for name, words in RUNS.items():
        file = os.path.join(folder, "freezes")
        own = {**os.environ, "FREEZES": file}
        subprocess.run([program, *words], stdout=subprocess.DEVNULL, env=own, check=True)
        with open(file, encoding="utf-8") as lines:
            rows = [list(map(int, line.split())) for line in lines]
        longest = [0] * 5
        for number, row in enumerate(rows, 1):
            kind = kind_of(list(zip(row[::2], row[1::2])), number == len(rows))
            longest[kind] = max(longest[kind], row[0])
        cells = " | ".join(f"{took / 1e6:.3f}" if took else "" for took in longest)
        print(f"| {name} | {len(rows)} | {cells} |", flush=True)


def main():
    times = int(sys.argv[1]) if len(sys.argv) > 1 else 11
    with tempfile.TemporaryDirectory() as folder:
        theirs, watched = os.path.join(folder, "boehm"), os.path.join(folder, "watched")
        subprocess.run(["gcc", "-O2", "-o", theirs, os.path.join(SCRIPTS, "boehm.c"), "-lgc"], check=True)
        costs(os.path.join(CRATE, "out", "tide_lisp"), theirs, times)
        libraries = [os.path.join(SCRIPTS, "freezes.c"), "-lm", "-lpthread"]
        races.compiled(races.toolchain(), CRATE, watched, marked, ["-O3", "-g0"], ["gcc", "-O2"], libraries)
        stops(watched, folder)


if __name__ == "__main__":
    main()
