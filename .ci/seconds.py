"""Runs the gate and says what each crate took of the processor.

    python3 .ci/seconds.py [COMMAND...]

COMMAND is `bash .ci/run` where none is given, and its output and status are passed on. Then out/seconds.txt is written: a
line a crate with the processor seconds, user and system, of its proof, of building and running it, and of its edits, and a
line for all else. `python3 .ci/lists.py --sizes` prints it beside the size of each crate.

The processes below the command are looked at five times a second, so what one takes after the last look is lost. The
system's own sum of all that ended stands in the last line, and what is lost is counted there with `other`.
Linux alone: it reads /proc.
"""

import os
import pathlib
import re
import subprocess
import sys
import threading

if __name__ == "__main__" and sys.argv[1:] == ["--help"]:
    sys.exit(print(__doc__.strip()))

TOP = pathlib.Path(__file__).resolve().parent.parent
TICKS = os.sysconf("SC_CLK_TCK")
PROOF, RUN, EDITS = range(3)


def crates():
    return re.findall(r"^(\w+):", (TOP / "crates.txt").read_text(), re.M)


def processes():
    """Each process as its number, its parent's, when it began, the seconds that it took, its words and its folder."""
    for entry in os.scandir("/proc"):
        if entry.name.isdigit():
            try:
                at = pathlib.Path(entry.path)
                fields = (at / "stat").read_text().rpartition(")")[2].split()
                words = (at / "cmdline").read_bytes().decode(errors="replace").split("\0")
                took = (int(fields[11]) + int(fields[12])) / TICKS
                yield int(entry.name), int(fields[1]), int(fields[19]), took, words, os.readlink(at / "cwd")
            except OSError:
                pass


def place_of(words, folder, known):
    """The crate and the column that a process works for, or None."""
    if not words[0]:
        # it is about to end: its words went with its memory, which takes a while to free where it was large
        return None
    named = words[words.index("--crate-name") + 1] if "--crate-name" in words[:-1] else ""
    below = re.search(r"/crates/(\w+)", folder)
    crate = named or (below[1] if below else "")
    if crate not in known:
        return None
    if "/rt-edit-" in folder:
        return crate, EDITS
    # a library is proved as it is built, and a program before it is: what was proved is handed to its compilers
    return crate, PROOF if named and "--crate-checked" not in words else RUN


class Watch:
    """Looks at the processes below one until it is told to stop."""

    def __init__(self, root):
        self.root = root
        self.known = set(crates())
        # what each process took, and for what; a process is its number and when it began, since numbers come again
        self.seen = {}
        self.over = threading.Event()

    def look(self):
        found = list(processes())
        parents = {number: parent for number, parent, *_ in found}

        def is_below(number):
            while number in parents and number != self.root:
                number = parents[number]
            return number == self.root

        for number, _, began, took, words, folder in found:
            if is_below(number):
                before = self.seen.get((number, began), (None, 0))
                self.seen[number, began] = (place_of(words, folder, self.known) or before[0], took)

    def run(self):
        while not self.over.wait(0.2):
            self.look()

    def sums(self):
        table = {crate: [0.0, 0.0, 0.0] for crate in crates()}
        for place, took in self.seen.values():
            if place:
                table[place[0]][place[1]] += took
        return table


def main():
    command = sys.argv[1:] or ["bash", str(TOP / ".ci" / "run")]
    child = subprocess.Popen(command, cwd=TOP)
    watch = Watch(child.pid)
    thread = threading.Thread(target=watch.run)
    thread.start()
    status = child.wait()
    watch.over.set()
    thread.join()
    spent = os.times()
    total = spent.children_user + spent.children_system
    table = watch.sums()
    other = total - sum(map(sum, table.values()))
    lines = ["# crate, then processor seconds of its proof, of building and running it, and of its edits; written by .ci/seconds.py"]
    lines += [f"{crate} {' '.join(str(round(one)) for one in took)}" for crate, took in table.items()]
    lines += [f"other {round(other)}", f"all {round(total)}"]
    (TOP / "out").mkdir(exist_ok=True)
    (TOP / "out" / "seconds.txt").write_text("\n".join(lines) + "\n")
    sys.exit(status)


if __name__ == "__main__":
    main()
