#!/usr/bin/env python3
"""Tests tools/why.py: its first line against what the program prints, and whether a file that is mended is accepted.

    python3 tools/why_test.py [PROGRAM [FIRST [COUNT]]]

- The first line: of each document of crates/checks/data/inputs.txt, each beginning of the stored workload (cuts.txt), and
  each workload there. With PROGRAM, a built `riptide`, also of COUNT (200) documents for the seeds from FIRST (0) on: a
  document of these with some of its characters changed, taken out or doubled.
- The words of a command line: whether tools/why.py takes them is whether PROGRAM ends otherwise than with 2, of those of WORDS
  in all orders of one and two, and of random ones.
- The mended words: of each line of MENDED, what is said to be changed, and that the words behind it are taken.
- The mended file: each example of docs/WHY.md and of tools/why_cases.txt ends with lines with which the workload is taken,
  by tools/why.py and by PROGRAM; and what is said to be changed is what the example has.

A line is printed where a test fails, or a fault has no cause or no change, and at the end how many there were.
"""
import argparse
import random
import re
import subprocess
import sys
from pathlib import Path

import why
import why_words

if __name__ == "__main__" and sys.argv[1:] == ["--help"]:
    sys.exit(print(__doc__.strip()))

TOP = Path(__file__).resolve().parent.parent
DATA = TOP / "crates" / "checks" / "data"
PAGE, CASES = TOP / "docs" / "WHY.md", TOP / "tools" / "why_cases.txt"
PIECES = [*" \n\t\"'[]{},=#.09-_r\\é", "[[mutator]]", "r16", "1.5"]
LINE = re.compile(r"(\d+):(?: (.*))?")
WORDS = """--visitors --visitors=2 --visitors=8 --visitors=9 --visitors=+1 --visitors=-1 --visitors= --plain --plain=1 --make
    --make=7 --make=18446744073709551616 --snapshot --snapshot= --stats --stats= -- - -p --fast --mak 2 08 seven --help -h w.toml
    --trigger -v true""".split() + ["", "--visitors 2"]


# words, what is said of them, and the words when that is done
MENDED = [
    (["--visitors 2"], "write its words apart, without quotes: --visitors 2", ["--visitors", "2"]),
    (["-v"], "write --visitors 2", ["--visitors", "2"]),
    (["-v", "3"], "write --visitors", ["--visitors", "3"]),
    (["--visitor=3"], "write --visitors 3", ["--visitors", "3"]),
    (["--plain", "true"], "take it out", ["--plain"]),
    (["--plain", "off"], "take it out, and --plain too", []),
    (["--snapshot", "out.txt"], "take it out, and write > out.txt behind the words", ["--snapshot"]),
    (["--trigger", "4"], "take --trigger out, with its number, and write trigger in the file", []),
    (["--period=16"], "take --period=16 out, with its number, and write period in the file", []),
    (["--threads", "4"], "take --threads 4 out: mutators and visitors run on up to four threads", []),
    (["--stats", "cycles.txt"], "take it out, and write > cycles.txt behind the words", ["--stats"]),
    (["--stats", "w.toml"], "take it out, and give the workload on the input: riptide < w.toml", ["--stats"]),
    (["--stats", ">", "out.txt"], "write it without quotes", ["--stats"]),
    (["run", "w.toml"], "take it out", []),
    (["--input=w.toml"], "take it out, with its file, and write < w.toml behind the words", []),
    (["-i", "w.toml"], "take it out, with its file, and write < w.toml behind the words", []),
    (["-o", "out.txt", "--stats"], "take it out, with its file, and write > out.txt behind the words", ["--stats"]),
    (["--no-plain"], "take it out: what no word asks for isn't done", []),
    (["--plain=false"], "take it out", []),
    (["--plain=yes"], "write --plain alone", ["--plain"]),
    (["--mutators", "4"], "take --mutators out, and write [[mutator]] in the file for each", []),
    (["--shapes=name"], "take --shapes=name out, with its value, and write shapes in the file", []),
    (["--trace"], "take it out", []),
    (["visitors=2"], "write --visitors 2", ["--visitors", "2"]),
    (["\u2014visitors", "2"], "write --visitors", ["--visitors", "2"]),
    (["--help"], "take it out; docs/WORKLOAD.md says what is taken, and docs/CHANGELOG.md which version it is", []),
]


def documents():
    """Each document with its name and the line that the program says of it, or nothing where it takes it."""
    for head, text in re.findall(r"^=== (.*)\n((?:(?!=== ).*\n)*)", (DATA / "inputs.txt").read_text(), re.M):
        name, _, line = (head + " | ").split(" | ")[:3]
        yield name, text.encode(), line
    stored = (DATA / "workloads" / "stored.toml").read_bytes()
    for length, end in enumerate((DATA / "cuts.txt").read_text().splitlines()):
        yield f"the stored workload cut to {length} bytes", stored[:length], (end + " | ").split(" | ")[1]
    for path in sorted((DATA / "workloads").glob("*.toml")):
        yield path.stem, path.read_bytes(), ""


def examples_of(page):
    """The workload of docs/WHY.md, and its examples."""
    (_, workload), *examples = re.findall(r"^```(\w*)\n(.*?)^```$", page, re.S | re.M)
    return workload, [text for language, text in examples if language != "console"]


def parts_of(example):
    """The numbered lines with which an example begins, what is said of them, and the numbered lines with which it ends."""
    lines = example.splitlines()
    numbered = [found and (int(found[1]), found[2] or "") for found in map(LINE.fullmatch, lines)]
    said = [place for place, line in enumerate(numbered) if not line]
    first, last = said[0], said[-1] + 1
    return numbered[:first], lines[first:last], numbered[last:]


def replaced(workload, *groups):
    """A workload with lines of it replaced. What stands of one number takes the place of that line."""
    lines = {number: [line] for number, line in enumerate(workload.split("\n"), 1)}
    for group in groups:
        lines.update({number: [] for number, _ in group})
        for number, line in group:
            lines[number].append(re.sub(r"<U\+([0-9A-F]+)>", lambda found: chr(int(found[1], 16)), line))
    return "\n".join(line for number in sorted(lines) for line in lines[number]).encode()


def changed(text, draw):
    for _ in range(draw.choice([1, 1, 2, 3])):
        begin = draw.randrange(len(text) + 1)
        end = begin + draw.choice([0, 1, 1, draw.randrange(20)])
        text = text[:begin] + draw.choice(["", "", draw.choice(PIECES), text[begin:end] * 2]) + text[end:]
    return text


def said(program, data):
    ended = subprocess.run([program, "--plain"], input=data, capture_output=True)
    return ended.stderr.decode().rstrip("\n")


def in_full(lines):
    """Whether four lines have words behind their heads, of which `change: ` is the longest, and are printable ASCII."""
    return len(lines) == 4 and all(len(line) > len("change: ") and re.fullmatch("[ -~]+", line) for line in lines)


def differs(name, data, line):
    lines, taken = why.explained(data)
    if taken == (line == "") and (taken or lines[0] == line and in_full(lines)):
        return 0
    print(f"{name}: the program says {line!r}, and why.py {lines}")
    return 1


def case_fails(workload, example, program):
    """Whether another change is said than a case has, or its mended file isn't taken."""
    mistake, told, mended = parts_of(example)
    lines, _ = why.explained(replaced(workload, mistake))
    if told[-1] != lines[-1] or not in_full(lines):
        print(f"{mistake}: why.py says {lines}, and the example {told[-1]!r}")
        return 1
    document = replaced(workload, mistake, mended)
    lines, taken = why.explained(document)
    line = said(program, document) if program else ""
    if mended and (not taken or line):
        print(f"{mistake}: mended by {mended} why.py says {lines}, and the program {line!r}")
        return 1
    return 0


def words_differ(program, words):
    """Whether the program and why.py differ on the words of a command line."""
    ended = subprocess.run([program, *words], stdin=subprocess.DEVNULL, capture_output=True)
    lines, taken = why_words.words_explained(words)
    if taken == (ended.returncode != 2) and (taken or in_full(lines) and lines[0] == ended.stderr.decode().rstrip("\n")):
        return 0
    print(f"{words}: the program ends with {ended.returncode}, and why.py says {lines}")
    return 1


def words_unmended(words, change, mended):
    """Whether another change is said of words than this, or the mended ones aren't taken."""
    lines, _ = why_words.words_explained(words)
    if lines[-1] == f"change: {change}" and why_words.words_explained(mended)[1]:
        return 0
    print(f"{words}: why.py says {lines}, and of {mended} {why_words.words_explained(mended)[0]}")
    return 1


def command_lines(draw, count):
    """The words in each order of one and two, and so many random ones of three and four."""
    yield from [[one] for one in WORDS]
    yield from [[one, other] for one in WORDS for other in WORDS if "--make=7" not in (one, other)]
    for _ in range(count):
        yield draw.choices([word for word in WORDS if word != "--make=7"], k=draw.choice([3, 4]))


def cases():
    """The examples of why_cases.txt, and those of docs/WHY.md that begin with lines of the workload."""
    workload, examples = examples_of(PAGE.read_text())
    own = re.sub("^#.*\n", "", CASES.read_text(), flags=re.M).strip("\n").split("\n\n")
    return workload, own + [text for text in examples if not text.startswith("$ ")]


def main():
    parser = argparse.ArgumentParser(description=__doc__, formatter_class=argparse.RawDescriptionHelpFormatter)
    parser.add_argument("program", nargs="?")
    parser.add_argument("first", nargs="?", type=int, default=0)
    parser.add_argument("count", nargs="?", type=int, default=200)
    given = parser.parse_args()
    told, (workload, examples) = list(documents()), cases()
    failed = sum(differs(*each) for each in told)
    count = len(told)
    if given.program:
        texts = [data.decode() for _, data, line in told if len(data) < 4000]
        for seed in range(given.first, given.first + given.count):
            draw = random.Random(f"why {seed}")
            data = changed(draw.choice(texts), draw).encode()
            failed += differs(f"seed {seed}", data, said(given.program, data))
        count += given.count
    if given.program:
        lines = list(command_lines(random.Random(f"words {given.first}"), given.count))
        unlike = sum(words_differ(given.program, words) for words in lines)
        print(f"{len(lines)} command lines, {unlike} of them explained otherwise than the program says")
        failed += unlike
    print(f"{count} documents, {failed} of them explained otherwise than the program says")
    unmended = sum(case_fails(workload, example, given.program) for example in examples)
    unmended += sum(words_unmended(*each) for each in MENDED)
    print(f"{len(examples) + len(MENDED)} mistakes, {unmended} of them explained otherwise than told, or refused when mended")
    return 1 if failed or unmended else 0


if __name__ == "__main__":
    sys.exit(main())
