#!/usr/bin/env python3
"""Runs the workloads of one mutator with `--stats`, and compares the lines of their cycles with what their texts tell.

    python3 judge/judge_stats.py PROGRAM

PROGRAM is a built `riptide`. The workloads are those of crates/checks/data/workloads. What tools/schedule.py finds of the
freezes in the text (`--cycles`) has to be what the lines behind it say, by one of the ways that it finds: the kind of each
cycle, how many freezes it went through, and the births before it and while it marked. The text before the lines has to be
that without the word, and a full cycle that ended in the freeze in which it began made black just what it kept. Where
something is otherwise, it prints the workload and both, and the status is 1.
"""
import re
import subprocess
import sys
from pathlib import Path

if __name__ == "__main__" and sys.argv[1:] in ([], ["--help"]):
    sys.exit(print(__doc__.strip()) or len(sys.argv) < 2)

TOP = Path(__file__).resolve().parent.parent
LINE = re.compile(r"stats (\d+) (full|Eden) freezes (\d+) born (\d+) marking (\d+) paused (\d+) visited (\d+)")
FOUND = re.compile(r"cycle (\d+), (full|Eden), freezes? (\d+)(?: to (\d+))?: born (\d+) before it, (\d+) while it marked; kept (\d+)")


def printed(*words, document=None):
    return subprocess.run(words, stdin=document and document.open(), capture_output=True, text=True).stdout


def ways_of(workload, text):
    """What each way through the freezes tells of each cycle, and how many cells each cycle kept."""
    ways = []
    for number, kind, first, last, born, marking, kept in FOUND.findall(
        printed(sys.executable, str(TOP / "tools" / "schedule.py"), "--cycles", str(workload), str(text))
    ):
        if number == "1":
            ways.append([])
        freezes = int(last or first) - int(first) + 1
        ways[-1].append((number, kind, str(freezes), born, marking, kept))
    return ways


def main():
    program, cycles, wrong = sys.argv[1], 0, 0
    for workload in sorted((TOP / "crates" / "checks" / "data" / "workloads").glob("*.toml")):
        text = workload.with_suffix(".txt")
        if workload.read_text().count("[[mutator]]") != 1 or not text.exists():
            continue
        shown = printed(program, "--stats", document=workload)
        lines = LINE.findall(shown.removeprefix(text.read_text()))
        told = [line[:5] for line in lines]
        ways = [way for way in ways_of(workload, text) if [cycle[:5] for cycle in way] == told]
        whole = all(line[1] != "full" or line[2] != "1" or line[5:] == (cycle[5], "0") for way in ways for line, cycle in zip(lines, way))
        if not shown.startswith(text.read_text()) or not ways or not whole:
            print(f"{workload.stem}: it printed {shown!r}, and the ways through its freezes are {ways_of(workload, text)}")
            wrong += 1
        cycles += len(told)
    print(f"{cycles} lines of cycles, {wrong} workloads with other ones than their texts tell")
    sys.exit(wrong > 0)


if __name__ == "__main__":
    main()
