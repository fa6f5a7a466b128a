#!/usr/bin/env python3
"""Lets a standing heap run for long, and tells what memory its process has.

    python3 judge/lasting.py PROGRAM [SECONDS [MEMBERS]]

PROGRAM is that of judge/standing.py. MEMBERS (4) mutators in parts of 64 calls, beside two helpers, make cells, link them,
store them behind handles, give them properties and let them go, again and again for SECONDS (3,600); cycles begin after each
100 births. The first member now and then rests in a bed. The keeper empties its report after each turn. Each half minute a row
is printed: how many parts there were, how many cycles ended in them, how many cells these freed, how many kilobytes the
process has in memory, and how many of these are its own and no file's. The last line tells what these last ones were in the
row after five minutes, or in the first one where there was no other, and in the last one; the status is 1 where they grew
by more than a hundredth.
"""
import random
import re
import subprocess
import sys
import tempfile

import judge_threads

if __name__ == "__main__" and sys.argv[1:] in ([], ["--help"]):
    sys.exit(print(__doc__.strip()) or len(sys.argv) < 2)

EARLY = 300


def workload(members):
    """The document of a workload of so many mutators whose cells live for a while."""
    work, _ = judge_threads.aging(1)
    draw = random.Random("lasting")
    work |= {"strong": 2, "blocks": [4, 1, 0, 0, 1], "arrays": [2, 2, 0, 0, 0], "period": 64, "trigger": 100, "headroom": 200}
    ops = [op for number in range(1, 40) for script in judge_threads.aging(number)[0]["mutators"] for op in script]
    # where these have the number of their handle
    at = {"strong": 1, "sget": 2}
    ops = [op for op in ops if op[0] != "collect" and (op[0] not in at or op[at[op[0]]] < work["strong"])]
    work["mutators"] = []
    for _ in range(members):
        first = draw.randrange(len(ops) - 2000)
        work["mutators"].append(ops[first:first + 2000])
    return judge_threads.document_of(work)


def resident(process):
    """How many kilobytes of a process are in memory, and how many of these are its own."""
    with open(f"/proc/{process}/status", encoding="utf-8") as status:
        text = status.read()
    return [int(re.search(name + r":\s+(\d+) kB", text)[1]) for name in ("VmRSS", "RssAnon")]


def rows(process):
    """Prints a row for each line of the process, and answers them."""
    found = []
    for line in process.stdout:
        told = re.fullmatch(r"seconds (\d+) parts (\d+) cycles (\d+) freed (\d+)\n", line)
        if told:
            found.append((*map(int, told.groups()), *resident(process.pid)))
            print("| " + " | ".join(map(str, found[-1])) + " |", flush=True)
    return found


def main():
    seconds, members = [int(word) for word in (sys.argv[2:] + ["3600", "4"][len(sys.argv) - 2:])[:2]]
    words = ["--visitors", "2", "--rests", "200", "--sleepers", "1", "--seconds", str(seconds), "--seed", "1"]
    print("| Seconds | Parts | Cycles | Cells freed | Kilobytes in memory | Of its own |")
    print("|---|---|---|---|---|---|", flush=True)
    with tempfile.TemporaryFile("w+") as document:
        document.write(workload(members))
        document.seek(0)
        process = subprocess.Popen([sys.argv[1], *words], stdin=document, stdout=subprocess.PIPE, text=True)
        found = rows(process)
    if process.wait() != 0:
        sys.exit(f"ended with status {process.returncode}")
    early = next((row for row in found if row[0] >= EARLY), found[0])
    print(f"from {early[-1]} kilobytes of its own after {early[0]} seconds to {found[-1][-1]} after {found[-1][0]}")
    sys.exit(found[-1][-1] > early[-1] * 1.01)


if __name__ == "__main__":
    main()
