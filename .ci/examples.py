#!/usr/bin/env python3
"""Tells which examples of README.md and of the pages of docs/ are no files that the gate runs.

    python3 .ci/examples.py         prints what differs, and ends with 1 where anything does

- A block of ```toml is a workload of crates/checks/data, without the comment at its head, and the block of
  text behind it, if one follows before the next, is the text of that workload's run.
- A table with the columns Operation, Printed and Why has one row for each call of the workload that the link before it
  names, in order.
- A block of ```console is what the command behind its `$` prints at the top of the repository.
- A block of ```antt is lines of the last file of specs/ or proofs/ that the page names before it, and one of ```rust in a
  list is lines of the last file of src/.
- A printed call, as `drop r2 = ok`, and a printed count, as `live 1`, is a line of some workload's text.
- The blocks of docs/READING-A-RUN.md are the texts of three workloads, in order.
- In docs/WHY.md a block of text says what tools/why.py prints of that page's workload with the lines that it begins with,
  or of what the command behind its `$` prints; and each line that WORKLOAD.md tells of a refused file is in one of them.
  That the lines with which it ends mend it, tools/why_test.py tests.
- In the pages of CODE a function or a definition that is named behind a file, as `tide_mutator/src/owed/barrier.rt`: `shade`, is
  there, and so is a clause behind a function and its crate, as `pause` of `tide_cycle`: `reached`.
- The fields and operations of docs/WORKLOAD.md, with their limits and operands, are those that tools/why.py has.
- tools/workload.schema.json has these limits too, and its patterns take each operation and path of each workload.
- The README names the version that stands on top of docs/CHANGELOG.md.
- A block that begins with `mutators` is a summary that a run is compared with, and one that begins with `cell #` is the
  lines of a run with a snapshot.
- A line on the error output, as `riptide: not TOML`, is one that a refused input or a run that fails is compared with.

- A page with links to its own headings above the first of them has one to each heading with two marks, in their order.

It also tells which links of the pages lead nowhere, to a file or to a heading, which files that they name below crates/
aren't there, and which crates.
"""
import json
import re
import subprocess
import sys
import tomllib
from pathlib import Path

TOP = Path(__file__).resolve().parent.parent
sys.path[:0] = [str(TOP / "tools"), str(TOP / "judge")]
import model
import why
import why_test

if __name__ == "__main__" and sys.argv[1:] == ["--help"]:
    sys.exit(print(__doc__.strip()))

DATA = TOP / "crates" / "checks" / "data"
WITH_OPERANDS = """
    alloc table get put move set drop claim release add getp setp strong sget weak wget pair pget pdel group
""".split()
PRINTED = re.compile(rf"`((?:(?:{'|'.join(WITH_OPERANDS)}) [^`=]+|unclaim|collect|retire) = [^`]*|live \d+)`")
PAGES = ("ARGUMENT", "CHANGING", "EMBED", "LIFE-OF-A-CELL", "MACHINE", "MAP", "PROVED", "TOUR", "WORDS")
CODE = ["README.md", *(f"docs/{page}.md" for page in PAGES)]
WITH_CLAUSES = ("README.md", "docs/PROVED.md")
TABLE = re.compile(r"^(.*)\n\n\| Operation \| Printed \| Why \|\n\|[-|]*\|\n((?:\|.*\n)+)", re.M)
TOLD = re.compile(r"`(riptide: [^`]*)`")
# The forms that a table gives in place of numbers and names, and the one line that nothing brings about for sure.
FORMS = {"riptide: bad op A of mutator M", "riptide: no memory"}


def workloads():
    """Each workload without the comment at its head, with the path of its file."""
    found = {}
    for path in sorted(DATA.rglob("*.toml")):
        if path.with_suffix(".txt").exists():
            found[re.sub(r"\A(?:#.*\n)+\n", "", path.read_text())] = path
    return found


def texts():
    return [path.with_suffix(".txt").read_text() for path in workloads().values()]


def blocks(page):
    """The fenced blocks of a page: what stands behind the fence, and the text."""
    return re.findall(r"^```(\w*)\n(.*?)^```$", page, re.S | re.M)


def blocks_differ(name, page):
    known, path = workloads(), None
    for language, text in blocks(page):
        if language == "toml":
            path = known.get(text)
            if path is None:
                yield f"{name}: no workload is this one:\n{text}"
        elif language == "" and path is not None:
            if path.with_suffix(".txt").read_text() != text:
                yield f"{name}: the text of {path.stem} isn't this one:\n{text}"
            path = None


def walk_differs(name, *stems):
    """The blocks of a page that leads through runs are their texts, one after another."""
    shown = "".join(text for language, text in blocks((TOP / name).read_text()) if language == "")
    if shown != "".join((DATA / "workloads" / f"{stem}.txt").read_text() for stem in stems):
        yield f"{name}: its blocks aren't the texts of {' and '.join(stems)}"


def summaries_differ(name, page):
    made = [path.read_text() for path in DATA.glob("make_*.txt")]
    for _, text in blocks(page):
        if text.startswith("mutators ") and text not in made:
            yield f"{name}: no run is compared with this summary:\n{text}"


def lines_differ(name, page):
    """The blocks of lines of cells, and of cycles, are those that stand behind the text of a run."""
    behind = [*DATA.rglob("*.snapshot.txt"), *DATA.rglob("*.stats.txt")]
    shown = [path.read_text().partition("\nlive ")[2].partition("\n")[2] for path in behind]
    for _, text in blocks(page):
        if text.startswith(("cell #", "stats ")) and text not in shown:
            yield f"{name}: no run with --snapshot or --stats has these lines:\n{text}"


def tables_differ(name, page):
    for before, table in TABLE.findall(page):
        stem = re.search(r"\((?:[^()]*/)?(\w+)\.toml\)", before).group(1)
        path = next(path for path in workloads().values() if path.stem == stem)
        calls = [line for line in path.with_suffix(".txt").read_text().splitlines() if " = " in line]
        shown = [row.split("|")[2].strip().strip("`") for row in table.splitlines()]
        asked = [row.split("|")[1].strip().strip("`") for row in table.splitlines()]
        if shown != calls[: len(shown)] or [line.split(" = ")[0] for line in shown] != asked:
            yield f"{name}: the table of {stem} isn't its text"


def spans_differ(name, page):
    lines = {line for text in texts() for line in text.splitlines()}
    for span in PRINTED.findall(page):
        if span not in lines and not re.search(r"\b[A-Z]\b|\br[A-Z]\b", span):
            yield f"{name}: no workload prints {span}"
    compared = [*DATA.glob("*.txt"), TOP / ".ci" / "workloads"]
    told = "\n".join(path.read_text() for path in compared)
    for span in TOLD.findall(page):
        if span not in FORMS and not re.search(rf"{re.escape(span)}(?:'|$)", told, re.M):
            yield f"{name}: nothing that the gate runs is told {span}"


def mistake(workload, text):
    """The document of an example of docs/WHY.md, and what the example says of it."""
    if text.startswith("$ "):
        command, _, said = text[2:].partition("\n")
        return subprocess.run(["bash", "-c", command], capture_output=True).stdout, said.splitlines()
    lines, said, _ = why_test.parts_of(text)
    return why_test.replaced(workload, lines), said


def mistakes_differ(name):
    workload, examples = why_test.examples_of((TOP / name).read_text())
    if not why.explained(workload.encode())[1]:
        yield f"{name}: its first workload is refused"
    for text in examples:
        document, said = mistake(workload, text)
        if why.explained(document)[0] != said:
            yield f"{name}: tools/why.py says something else of this one:\n{text}"
    page = (TOP / "docs" / "WORKLOAD.md").read_text()
    section = page.split("### Why a file is refused", 1)[1].split("\n## ", 1)[0]
    shown = "".join(examples)
    for line in set(TOLD.findall(section)) - FORMS:
        if line.split(" of mutator")[0].rstrip("0123456789") not in shown:
            yield f"{name}: no example of {line}"


def forms_differ(name):
    """The limits of fields and the operands of operations in a page, against those of tools/ and judge/."""
    page = (TOP / name).read_text()
    for field, (least, most) in why.NUMBERS.items():
        limits = f"each {least} to {most}" if field in why.FIVES else f"{least:,} to {most:,}"
        if not re.search(rf"^\| `{field}` \| [^|]* \| {limits} \|", page, re.M):
            yield f"{name}: the field {field} isn't told with its limits, {limits}, as tools/why.py has them"
    for operation, form in model.FORMS.items():
        if f"| `{f'{operation} {form}'.rstrip()}` |" not in page:
            yield f"{name}: the operation {operation} {form} isn't told as judge/model.py has it"


def schema_differs():
    """The schema of workloads for editors, against the limits of tools/why.py and the workloads."""
    fields = json.loads((TOP / "tools" / "workload.schema.json").read_text())["properties"]
    for field, limits in why.NUMBERS.items():
        has = fields[field]["items"] if field in why.FIVES else fields[field]
        if (has["minimum"], has["maximum"]) != limits:
            yield f"workload.schema.json: {field} has other limits than tools/why.py"
    if list(fields) != why.FIELDS:
        yield "workload.schema.json: its fields aren't those of tools/why.py"
    ops, path = fields["mutator"]["items"]["properties"]["ops"]["items"]["pattern"], fields["shapes"]["items"]["pattern"]
    for file in sorted((DATA / "workloads").glob("*.toml")):
        work = tomllib.loads(file.read_text())
        texts = [(ops, op) for mutator in work["mutator"] for op in mutator["ops"]]
        for pattern, text in texts + [(path, one) for one in work.get("shapes", [])]:
            if not re.search(pattern, text):
                yield f"workload.schema.json refuses {text!r} of {file.stem}"


def version_differs():
    newest = re.search(r"^## (\S+) ", (TOP / "docs" / "CHANGELOG.md").read_text(), re.M)[1]
    if f"version {newest}" not in (TOP / "README.md").read_text():
        yield f"README.md doesn't name the version {newest} of docs/CHANGELOG.md"


PLACE = re.compile(r"`([\w/]+\.(?:rt|antt))`(?:: | \()((?:`\w+`(?:, )?)+)")
CLAUSE = re.compile(r"`(\w+)` of `(\w+)(?:::\w+)*`(?:: ((?:`\w+`(?:, )?)+))?")


def code_differs(name):
    """The functions and definitions that a page names behind a file of a crate, and the clauses behind a function's crate."""
    page, crates = (TOP / name).read_text(), TOP / "crates"
    for path, names in PLACE.findall(page):
        if (crates / path).is_file():
            text = (crates / path).read_text()
            for item in re.findall(r"\w+", names):
                head = rf"\b(?:fn|struct|enum|trait) {item}\b" if path.endswith(".rt") else rf"^(?:\w+ )*{item}\b"
                if not re.search(head, text, re.M):
                    yield f"{name}: no {item} in crates/{path}"
        elif (crates / path.split("/")[0]).is_dir():
            yield f"{name}: no file crates/{path}"
    for function, crate, clauses in CLAUSE.findall(page) if name in WITH_CLAUSES else []:
        if (crates / crate).is_dir():
            files = [*(crates / crate / "src").rglob("*.rt"), *(crates / crate / "specs").rglob("*.antt")]
            text = "\n".join(path.read_text() for path in sorted(files))
            if not re.search(rf"\b{function}\b", text):
                yield f"{name}: no {function} in {crate}"
            heads = "".join(re.findall(rf"\bfn {function}\b(.*?)(?:^ *\{{$|;$|\Z)", text, re.M | re.S))
            for clause in re.findall(r"\w+", clauses):
                if not re.search(rf"\b(?:ensures|requires) {clause} ", heads):
                    yield f"{name}: {function} of {crate} has no clause {clause}"


def definitions_differ(name):
    """The definitions and proofs that a page shows, against the files that it names before them."""
    file = None
    for path, shown in re.findall(r"`(\w+/(?:specs|proofs)/[\w/]+\.antt)`|^```antt\n(.*?)^```$", (TOP / name).read_text(), re.S | re.M):
        file = TOP / "crates" / path if path else file
        if shown and shown not in file.read_text():
            yield f"{name}: {file.relative_to(TOP)} doesn't have these lines:\n{shown}"


def code_shown_differs(name):
    """The lines of code that a page shows in a list, against the file that it names before them."""
    file = None
    shows = r"`(\w+/src/[\w/]+\.rt)`|^( +)```rust\n(.*?)^ +```$"
    for path, indent, shown in re.findall(shows, (TOP / name).read_text(), re.S | re.M):
        file = TOP / "crates" / path if path else file
        lines = re.sub(f"^{indent}", "", shown, flags=re.M)
        if shown and lines not in file.read_text():
            yield f"{name}: {file.relative_to(TOP)} doesn't have these lines:\n{lines}"


def anchors_of(page):
    """The anchors of a page's headings: what stands there in small letters, with a line for each space."""
    return {anchor_of(head) for head in re.findall(r"^#+ (.*)$", page.read_text(), re.M)}


def consoles_differ(page, text):
    """The commands that a page shows, against what they print."""
    for language, shown in blocks(text):
        if language == "console":
            command, _, said = shown.removeprefix("$ ").partition("\n")
            ran = subprocess.run(["bash", "-c", command], capture_output=True, text=True, cwd=TOP)
            if ran.stdout + ran.stderr != said:
                yield f"{page.relative_to(TOP)}: this prints something else: {command}"


def anchor_of(head):
    return re.sub(r"[^\w -]", "", head).strip().lower().replace(" ", "-")


def contents_differ(page, text):
    """The list of contents of a page, if it has one, against its headings."""
    listed = list(dict.fromkeys(re.findall(r"\]\(#([^()]*)\)", text.partition("\n## ")[0])))
    heads = [anchor_of(head) for head in re.findall(r"^## (.*)$", text, re.M)]
    if listed and [anchor for anchor in listed if anchor in heads] != heads:
        lost = [head for head in heads if head not in listed]
        yield f"{page.relative_to(TOP)}: its list of contents " + (f"lacks {', '.join(lost)}" if lost else "has another order")


def links_differ(page, text):
    """The links of a page that lead to no file, or to no heading of one."""
    for link, anchor in re.findall(r"\]\(([^()#:]*)(?:#([^()]*))?\)", text):
        there = page.parent / link if link else page
        if not there.exists():
            yield f"{page.relative_to(TOP)}: no file {link}"
        elif anchor and there.suffix == ".md" and anchor not in anchors_of(there):
            yield f"{page.relative_to(TOP)}: no heading {anchor} in {there.name}"


def paths_differ():
    """The links of all pages, the files that they name by a crate's folder, and the crates that they name."""
    folders = [TOP / "crates", *(TOP / "crates").iterdir()]
    known = {folder.name for folder in folders}
    known |= set(re.findall(r"\btide_\w+", (TOP / "crates" / "tide_c" / "tide.h").read_text()))
    pages = [TOP / "README.md", *(TOP / "docs").glob("*.md"), *(TOP / "crates").glob("*/README.md")]
    for page in sorted(pages):
        text = page.read_text()
        yield from links_differ(page, text)
        yield from contents_differ(page, text)
        yield from consoles_differ(page, text)
        for path in re.findall(r"`((?:\w+/)?(?:src|specs|proofs|data)/[\w/]+\.\w+)`", text):
            if "NAME" not in path and not any((folder / path).exists() for folder in folders):
                yield f"{page.relative_to(TOP)}: no file {path} in crates/"
        for path in re.findall(r"`(crates/[\w/.-]*\w)/?`", text):
            if not re.search("NAME|CRATE|/X|/out/", path) and not (TOP / path).exists():
                yield f"{page.relative_to(TOP)}: no file {path}"
        for name in set(re.findall(r"`((?:tide|embed)_\w+)(?:::\w+)*`", text)) - known - {"tide_NAME"}:
            yield f"{page.relative_to(TOP)}: no crate {name}"


def main():
    differ = 0
    runs = ("page_with_listeners", "raced_transition_is_deferred", "eden_keeps_old_garbage")
    walk = walk_differs("docs/READING-A-RUN.md", *runs)
    for message in (*paths_differ(), *walk, *mistakes_differ("docs/WHY.md"), *forms_differ("docs/WORKLOAD.md"), *schema_differs(), *version_differs()):
        differ = 1
        print(message)
    for message in (message for name in CODE for differs in (code_differs, definitions_differ, code_shown_differs) for message in differs(name)):
        differ = 1
        print(message)
    for name in ("README.md", "docs/WORKLOAD.md"):
        page = (TOP / name).read_text()
        for differs in (blocks_differ, tables_differ, spans_differ, summaries_differ, lines_differ):
            for message in differs(name, page):
                differ = 1
                print(message)
    return differ


sys.exit(main())
