"""What a large heap costs: how long it takes to open and to collect, and what it takes in memory, beside Boehm's collector.

    python3 bench/large.py PROGRAM [MOST]

PROGRAM is bench/large/main.rt.txt, built as the src/main.rt of a crate. It is a program of one's own over the door
`tide`: it isn't proved, and the gate doesn't build it. Heaps of 10^4 cells to MOST (10^7) are filled by one mutator but
for a 64th of their places, with cells of 2, 4, 8 and 16 slots in turn. Boehm's collector is Debian's libgc-dev, built
by gcc, with one marker; it makes the same cells. Where it isn't installed, its columns are empty. The two run in turn,
three times each, and medians are printed as three tables. All times are the processor's, so that other work on the
machine lengthens them only by its use of caches and memory. A peak that isn't above this script's own can't be told,
and is left out.
"""
import os
import resource
import statistics
import subprocess
import sys
import tempfile

if __name__ == "__main__" and sys.argv[1:] in ([], ["--help"]):
    sys.exit(print(__doc__.strip()))

HERE = os.path.dirname(os.path.abspath(__file__))
KINDS = ["drawn", "chain"]
TIMES = 3
HEADS = [
    ["Cells", "Their graph", "Opening, ms", "Peak memory, MB", "The heap's own, MB", "Bytes a cell at the peak"],
    ["Cells", "Their graph", "Full collection, ms", "A live cell, ns", "Boehm's, ms", "Ratio", "Eden cycle, ms",
     "Longest freeze, ms"],
    ["Cells", "Their graph", "4,096 calls in the empty heap, ms", "In the full one"],
]


def run(words, line=""):
    """What a program printed, each name's numbers in their order, and the most memory that it had, in bytes."""
    with tempfile.TemporaryFile("w+") as source, tempfile.TemporaryFile("w+") as out:
        source.write(line)
        source.seek(0)
        process = subprocess.Popen(words, stdin=source, stdout=out, env={**os.environ, "GC_MARKERS": "1"})
        _, status, usage = os.wait4(process.pid, 0)
        if status != 0:
            sys.exit(f"{words[0]} {line} ended with {status}")
        out.seek(0)
        told = {}
        for name, number in (line.split() for line in out):
            told.setdefault(name, []).append(int(number))
    return told, 1024 * usage.ru_maxrss


def built(room):
    """Boehm's program, or None where the collector isn't installed."""
    path, source = os.path.join(room, "boehm"), os.path.join(HERE, "large", "boehm.c")
    done = subprocess.run(["gcc", "-O2", "-o", path, source, "-lgc"], capture_output=True, check=False)
    return path if done.returncode == 0 else None


def median(runs, name, pick=statistics.median):
    return statistics.median(pick(told[name]) for told, _ in runs)


def rows(program, boehm, kind, cells):
    """A row of each table."""
    blocks = max(1, round(cells / 256))
    ours, theirs = [], []
    for _ in range(TIMES):
        ours.append(run([program], f"{kind} {blocks}\n"))
        live = ours[-1][0]["live"][0]
        if boehm:
            theirs.append(run([boehm, kind, str(live)]))
    peak = statistics.median(memory for _, memory in ours)
    is_told = peak > 1.1 * 1024 * resource.getrusage(resource.RUSAGE_SELF).ru_maxrss
    room, own = ours[0][0]["room"][0], 8 * ours[0][0]["words"][0]
    full, eden = median(ours, "full"), median(ours, "eden")
    other = median(theirs, "full") if theirs else None
    name = [f"{live:,}", kind]
    return [
        name + [f"{median(ours, 'opening') / 1e6:.2f}", f"{peak / 1e6:.1f}" if is_told else "", f"{own / 1e6:.1f}",
                f"{peak / room:.0f}" if is_told else ""],
        name + [f"{full / 1e6:.2f}", f"{full / live:.0f}", f"{other / 1e6:.2f}" if other else "",
                f"{full / other:.2f}" if other else "", f"{eden / 1e6:.2f}", f"{median(ours, 'longest') / 1e6:.2f}"],
        name + [f"{median(ours, 'part_empty') / 1e6:.3f}", f"{median(ours, 'part') / 1e6:.3f}"],
    ]


def line_of(row):
    return "| " + " | ".join(row) + " |"


def main():
    most = int(sys.argv[2]) if len(sys.argv) > 2 else 10 ** 7
    tables = [[line_of(head), "|" + "---|" * len(head)] for head in HEADS]
    with tempfile.TemporaryDirectory() as room:
        boehm = built(room)
        for cells in (10 ** 4, 10 ** 5, 10 ** 6, 10 ** 7):
            for kind in KINDS if cells <= most else []:
                for table, row in zip(tables, rows(sys.argv[1], boehm, kind, cells)):
                    table.append(line_of(row))
    print("\n\n".join("\n".join(table) for table in tables))


if __name__ == "__main__":
    main()
