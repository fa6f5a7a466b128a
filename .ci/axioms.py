#!/usr/bin/env python3
"""Writes the axioms that `riptide` rests on into docs/PROVED.md, or tells which aren't those that the prover reported.

    (cd crates/riptide && rt check --list-axioms) > LIST
    python3 .ci/axioms.py --write LIST     writes the table between `<!-- axioms -->` and `<!-- end of axioms -->`
    python3 .ci/axioms.py SAID             tells what differs, and ends with 1 where anything does

SAID is what `rt ci` printed, which the gate keeps, or a LIST. An axiom is the contract of a function of C that the toolchain
declares, and that a proof, a contract or linked code of the program reaches. The prover takes it as it is written. `rt ci`
prints how many there are of each crate and the first three names, and all functions of C by which threads are run. Of a
program that it kept from an earlier run it prints nothing: then nothing is compared.
"""
import re
import sys
from pathlib import Path

TOP = Path(__file__).resolve().parent.parent
PAGE, PROGRAM = TOP / "docs" / "PROVED.md", "riptide"
BEGIN, END = "<!-- axioms -->\n\n", "\n\n<!-- end of axioms -->"
COUNTED = re.compile(r"^axioms (\w+): (.*?)\(?(\d+|none) (?:reached )?of the ([\d,]+) declared\)?$")
ROW = re.compile(r"^\| `(\w+)` \| (\d+) \| ([\d,]+) \| (.*) \|$", re.M)
THREADS = re.compile(r"^logic=proved .*? threads=([\w,]+) ", re.M)


def of_program(said):
    """The lines that are about the program: all of a list, and of what `rt ci` printed those below its own heading."""
    parts = re.split(r"^== (\w+)$", said, flags=re.M)
    return parts[0] if len(parts) == 1 else "\n".join(text for name, text in zip(parts[1::2], parts[2::2]) if name == PROGRAM)


def reported(said):
    """Of each crate of the toolchain that declares functions of C: how many are reached, of how many, and names of these."""
    found, crate = {}, None
    for line in of_program(said).splitlines():
        if counted := COUNTED.match(line):
            crate, names, reached, declared = counted.groups()
            found[crate] = (int(reached.replace("none", "0")), declared, re.findall(r"\w+(?:::\w+)+", names))
        elif crate and (name := re.match(r"  (\w+(?:::\w+)+) +reached$", line)):
            found[crate][2].append(name[1])
    return found


def threads(said):
    """The functions of C by which the program's threads are run."""
    found = THREADS.search(of_program(said))
    return found[1].split(",") if found else []


def sentence(names):
    return f"Its threads are run by {len(names)} functions of the C library besides: {', '.join(f'`{name}`' for name in names)}."


def table(found):
    rows = ["| Crate of the toolchain | Reached | Declared | Which |", "|---|---|---|---|"]
    for crate, (reached, declared, names) in sorted(found.items()):
        if len(names) != reached:
            sys.exit(f"of the {reached} axioms of {crate} {len(names)} are named: give a list by --list-axioms")
        which = ", ".join(f"`{name.removeprefix(crate + '::')}`" for name in sorted(names)) or "none"
        rows.append(f"| `{crate}` | {reached} | {declared} | {which} |")
    total = sum(reached for reached, *_ in found.values())
    return f"`{PROGRAM}` reaches {total} of them:\n\n" + "\n".join(rows)


def differences(shown, found, names):
    if sentence(names) not in shown:
        yield f"docs/PROVED.md doesn't tell the functions by which threads are run: {' '.join(names)}"
    told = {crate: (int(reached), declared, re.findall(r"`([\w:]+)`", which)) for crate, reached, declared, which in ROW.findall(shown)}
    for crate in sorted(told.keys() | found.keys()):
        here, there = told.get(crate, (0, "0", [])), found.get(crate, (0, "0", []))
        lost = [name for name in there[2] if name.removeprefix(crate + "::") not in here[2]]
        if here[:2] != there[:2] or lost:
            yield f"docs/PROVED.md tells {here[0]} of {here[1]} axioms of {crate}, the prover {there[0]} of {there[1]} {' '.join(lost)}".rstrip()


def main(words):
    if len(words) != 1 + (words[:1] == ["--write"]) or words == ["--help"]:
        sys.exit(print(__doc__.strip()) or words != ["--help"])
    said = Path(words[-1]).read_text()
    found = reported(said)
    if not found:
        return print(f"no report of the axioms of {PROGRAM}: they are not compared")
    text = PAGE.read_text()
    before, rest = text.split(BEGIN, 1)
    shown, behind = rest.split(END, 1)
    if len(words) == 2:
        return PAGE.write_text(before + BEGIN + table(found) + "\n\n" + sentence(threads(said)) + END + behind) and None
    differ = [*differences(shown, found, threads(said))]
    print("\n".join(differ), end="\n" if differ else "")
    return bool(differ)


sys.exit(main(sys.argv[1:]))
