"""Writes the tables of docs/BENCH.md anew, from what bench/all.sh kept of one run of each script.

    python3 bench/tables.py FOLDER

A table stands between two marks, such as `<!-- threads 2 -->` and `<!-- end of threads 2 -->`: it is the second table that
FOLDER/threads.txt has. Between `<!-- runs -->` and its end is a row for each file: of which commit it is, when it was made,
and what else the machine did then. A file that isn't there, or says that its script ended with an error, ends this with 1,
and the page isn't written.
"""
import os
import re
import sys

if __name__ == "__main__" and sys.argv[1:] in ([], ["--help"]):
    sys.exit(print(__doc__.strip()) or len(sys.argv) < 2)

HERE = os.path.dirname(os.path.abspath(__file__))
PAGE = os.path.join(HERE, "..", "docs", "BENCH.md")
MARKED = re.compile(r"(<!-- (\w+)(?: (\d+))? -->\n)(.*?)(<!-- end of \2(?: \3)? -->)", re.S)


def lines_of(folder, name):
    """The lines of a script's file, or an end where the script had one by an error."""
    with open(os.path.join(folder, name + ".txt")) as file:
        lines = file.read().splitlines()
    if "ended with an error" in lines:
        sys.exit(f"{name}: ended with an error")
    return lines


def tables(folder, name):
    """The tables of a file: runs of lines that begin with a bar."""
    found = [[]]
    for line in lines_of(folder, name):
        if line.startswith("|"):
            found[-1].append(line)
        elif found[-1]:
            found.append([])
    return [table for table in found if table]


def runs(folder):
    """A row for each file of the folder."""
    rows = ["| Script | Commit | Begun, UTC | Processors | In use before | Load before | Behind |", "|---|---|---|---|---|---|---|"]
    for name in sorted(file[:-4] for file in os.listdir(folder) if file.endswith(".txt")):
        lines = lines_of(folder, name)
        first = re.fullmatch(r"commit (\w+), (.+), (\d+) processors", lines[0])
        before = re.fullmatch(r"load before: (.+); in use before: (.+)", lines[1])
        behind = re.fullmatch(r"load behind: (.+)", lines[-1])
        cells = [name, *first.groups(), before[2], before[1].split()[0], behind[1].split()[0]]
        rows.append("| " + " | ".join(cells) + " |")
    return rows


def main():
    folder = sys.argv[1]

    def written(mark):
        begin, name, number, _, end = mark.groups()
        rows = runs(folder) if name == "runs" else tables(folder, name)[int(number or 1) - 1]
        return begin + "\n".join(rows) + "\n" + end

    with open(PAGE) as file:
        page = file.read()
    page = MARKED.sub(written, page)
    with open(PAGE, "w") as file:
        file.write(page)


if __name__ == "__main__":
    main()
