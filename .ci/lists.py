#!/usr/bin/env python3
"""Writes the lists that follow from the tree, or tells which of them isn't what the tree says.

    python3 .ci/lists.py                          writes them
    python3 .ci/lists.py --check                  tells what differs, and ends with 1 where anything does
    python3 .ci/lists.py --definitions [WORD..]   prints the definitions of specs/, or those that have each WORD
    python3 .ci/lists.py --sizes                  prints the size of each crate, and what it took when it was last measured

- README.md, between `<!-- totals -->` and `<!-- end of totals -->`: how large all of it is.
- docs/PROVED.md, between `<!-- trusted -->` and `<!-- end of trusted -->`: the crates of the toolchain whose statements are
  trusted, from crates.txt.
- docs/EXAMPLES.md: behind each workload's name the first sentence of the comment at its head.
- docs/MAP.md, between `<!-- rooms -->` and `<!-- end of rooms -->`: a picture of the crates by layers, with the folders
  of each; between `<!-- map -->` and `<!-- end of map -->`: the same as tables, from crates.txt and the first sentence of
  each crate's root file.

The definitions are those that have a comment above them: first those that the clauses of the top call `riptide` rest on,
the nearest first, then the others by name, and the rows by which definitions are checked. A WORD is looked for in the name,
in the sentence and in the file. The columns of seconds are those of out/seconds.txt, where .ci/seconds.py wrote it.

It prints how many ways lead through crates.txt, and each module of a crate, in src/ or specs/, that names one that is
listed after it, beside it in lib.rt or in the file of the module around both. It refuses

- a crates.txt in which a crate is listed before one that it stands on, or through which too many ways lead,
- the first lines of a room's root file, where they say that it may touch a room that neither its line of crates.txt nor
  a room of that line names,
- a docs/STATEMENT.md whose steps name a definition that the clauses of `riptide` don't rest on, or leaves out a fact (a name in
  CamelCase) that they do,
- an edit that doesn't fit its file any more, and a table of edits in docs/GATE.md that names others than the files of
  must-fail,
- a README.md, a docs/DECISIONS.md or a room's README that is longer than it may be, and the pages to read together.
"""
import re
import sys
from collections import deque
from dataclasses import dataclass
from pathlib import Path

TOP = Path(__file__).resolve().parent.parent
TOP_CRATE, TOP_CALL, PROGRAM = "tide_run", "riptide", "riptide"
MOST_WAYS, MOST_WAYS_OF_PROGRAM = 28_600, 1_500
NAME = re.compile(r"[^\W\d][\w'-]*|◌\S+◌")
USE = re.compile(r"^(?:unfoldable )?(pub )?use (Rattle\.[\w.]+?)\.?\{([^}]*)\}", re.M)
GHOST_USE = re.compile(r"ghost use (Rattle\.[\w.]+?)\.?\{([^}]*)\}")
HEAD = re.compile(r"^((?:abbrev |unfoldable |inline |pub |record |data )*)([^\s:(){}]+)\s*(?=[:({]|$)")
MODULE = re.compile(r"^(?:pub(?:\(crate\))? )?mod (\w+);", re.M)
HANDED_ON = re.compile(r"^pub(?:\(crate\))? use (\w+)::(?:(\w+)|\{([^}]*)\});", re.M)
HANDED_ROOM = re.compile(r"^Rattle\..*\.(tide_\w+)")
IN_CODE = re.compile(r"\bcrate((?:::\w+)*)(?:::\{([^{}]*)\})?")
IN_SPECS = re.compile(r"\bRattle\.(\w+)\.specs\.(?:declared\.)?([\w.]*)")
MAY_TOUCH = re.compile(r"\bmay touch\b.*?(?=[.:;](?: |$)|,? and (?:knows|not)\b|, (?:knows|has)\b|$)")
FUNCTION = re.compile(r"^\s*(?:pub(?:\(crate\))? )?(?:const )?fn ", re.M)
UNKNOWN = "—"


# crates.txt


def layers():
    """The layers of crates.txt: what each says, and its crates with those that each stands on."""
    found, listed = [("crates", [])], []
    for line in (TOP / "crates.txt").read_text().splitlines()[1:]:
        if line.startswith("#"):
            found.append((line.lstrip("# ").strip(), []))
        elif ":" in line:
            name, below = line.split(":")
            name, below = name.split()[0], below.split()
            for other in below:
                if (TOP / "crates" / other).is_dir() and other not in listed:
                    sys.exit(f"crates.txt: {name} stands on {other}, which is not listed before it")
            listed.append(name)
            found[-1][1].append((name, below))
    return [layer for layer in found if layer[1]]


def crates():
    return [name for _, here in layers() for name, _ in here]


def ways():
    """How many ways lead from each crate through crates.txt: the toolchain sums up a library anew along each of them."""
    found = {}
    for name, below in (row for _, here in layers() for row in here):
        found[name] = 1 + sum(found.get(other, 0) for other in below)
    return found


def too_many_ways(found):
    for what, count, most in (
        ("all crates together", sum(found.values()), MOST_WAYS),
        (PROGRAM, found[PROGRAM], MOST_WAYS_OF_PROGRAM),
    ):
        print(f"ways through crates.txt of {what}: {count:,} of {most:,}")
        if count > most:
            yield f"crates.txt: {count:,} ways lead through it from {what}, which may be {most:,}"


def files_of(crate, part):
    """The files of a crate's src/, specs/ or proofs/."""
    ending = "*.rt" if part == "src" else "*.antt"
    return sorted((TOP / "crates" / crate / part).rglob(ending))


def edits_that_miss():
    """Edits with an `old:` text that, after the pairs before it, isn't in its file just once: which, and how often."""
    for edit in sorted([*TOP.glob("crates/*/must-fail/*.edit"), *TOP.glob("crates/*/wrong/*.edit")]):
        texts, path, old = {}, None, ""
        for line in edit.read_text().splitlines():
            word, _, rest = line.partition(":")
            rest = rest.removeprefix(" ")
            if word == "file":
                path = edit.parent.parent / rest
                texts.setdefault(path, path.read_text() if path.is_file() else "")
            elif word == "old" and texts[path].count(old := rest) != 1:
                yield f"{edit.relative_to(TOP)}: {rest!r} stands {texts[path].count(old)} times in {path.name}"
                break
            elif word == "new":
                texts[path] = texts[path].replace(old, rest)


def edits_told_otherwise():
    """Edits that docs/GATE.md doesn't tell of, in its table or as one `of` a crate, and such as aren't there."""
    page = (TOP / "docs" / "GATE.md").read_text().partition("\n## What an edit shows\n")[2]
    told = {(crate, name) for name, crate in re.findall(r"`(\w+)` of `(\w+)`", page) if edit_of(crate, name).exists()}
    for names, its in re.findall(r"^\| (`[^|]+) \| (`[^|]+) \|", page, re.M):
        told.update((crate, name) for crate in re.findall(r"`(\w+)`", its) for name in re.findall(r"`(\w+)`", names))
    there = {(edit.parent.parent.name, edit.stem) for edit in TOP.glob("crates/*/must-fail/*.edit")}
    for crate, name in sorted(there - told):
        yield f"docs/GATE.md doesn't tell of the edit {name} of {crate}"
    for crate, name in sorted(told - there):
        yield f"docs/GATE.md tells of an edit {name} of {crate}, which isn't there"


def edit_of(crate, name):
    return TOP / "crates" / crate / "must-fail" / f"{name}.edit"


# Who names whom inside a crate


def place_of(path, top):
    """The modules that lead to a file below src/ or specs/."""
    place = path.relative_to(top).with_suffix("").parts
    return () if place in (("lib",), ("main",)) else place


def order_of(text):
    """The modules that a file lists, lowest first, and whose the names are that it hands on from them."""
    handed_on = {}
    for module, one, several in HANDED_ON.findall(text):
        for item in filter(str.strip, (one or several).split(",")):
            handed_on[item.split(" as ")[-1].strip()] = module
    return MODULE.findall(text), handed_on


def named_in(text, crate):
    """What a file names of its own crate, as the modules that lead there, and whether by a path of code."""
    for path, several in IN_CODE.findall(text):
        for item in several.split(","):
            yield (*path.split("::")[1:], *item.split(" as ")[0].strip().split("::")), True
    for its, path in IN_SPECS.findall(text):
        if its == crate:
            yield tuple(path.split(".")), False


def later(orders, place, name, is_code):
    """The module that a name leads into, where it is listed after the one beside it that the place is in."""
    for depth, (here, there) in enumerate(zip(place, name)):
        order, handed_on = orders.get(place[:depth], ([], {}))
        if is_code and there not in order:
            there = handed_on.get(there)
        if there != here:
            return there if here in order and there in order[order.index(here) :] else None
    return None


def named_too_early():
    """Files of src/ and specs/ that name a module that is listed after theirs."""
    for crate in crates():
        top = TOP / "crates" / crate
        orders = {place_of(path, top / "src"): order_of(path.read_text()) for path in files_of(crate, "src")}
        for part in ("src", "specs"):
            for path in files_of(crate, part):
                place = place_of(path, top / part)
                found = {later(orders, place, *name) for name in named_in(path.read_text(), crate)}
                for module in sorted(found - {None}):
                    yield f"{shown(path)} names {module}, which is listed after its own module"


# The definitions of specs/


@dataclass
class Definition:
    name: str
    comment: str
    module: "Module"
    body: list
    is_pub: bool
    is_law: bool


class Module:
    """A file of specs/: its definitions, and what the names that it takes stand for."""

    def __init__(self, crate, path):
        self.crate, self.path = crate, path
        text = path.read_text()
        self.definitions, self.names = {}, {}
        for match in USE.finditer(text):
            self.names.update(names_of(match.group(2), match.group(3)))
        self.read(re.sub(USE, "", text).splitlines())

    def read(self, lines):
        comment, here = [], None
        for line in lines:
            if line.startswith("--"):
                comment.append(line[2:].strip())
                continue
            head = HEAD.match(line)
            if head and line.strip() and head.group(2) not in ("use", "mod", "module", *self.definitions):
                words, name = head.groups()
                is_law = not re.search("abbrev|unfoldable|record|data", words)
                here = Definition(name, sentence(comment), self, [], "pub " in words, is_law)
                self.definitions[name] = here
            if here:
                here.body.append(line.split("--")[0])
            comment = []

def shown(path):
    return path.relative_to(TOP / "crates").as_posix()


def is_rows(path):
    """Whether a file holds theorems by which definitions are checked, by its name."""
    return re.search(r"Rows$|Examples$|^Worked", path.stem) is not None


def comment_at_head(text):
    lines = []
    for line in text.splitlines():
        if not line.startswith("--"):
            break
        lines.append(line[2:].strip())
    return lines


def sentence(lines):
    text = " ".join(lines).strip()
    if not text:
        return ""
    text = text[0].upper() + text[1:]
    return text if text.endswith((".", ":")) else text + "."


def names_of(module, listed):
    """What each name of a list in braces stands for: the module, whichever crate hands it on, and its name there."""
    found, module = {}, HANDED_ROOM.sub(r"Rattle.\1.specs", module)
    for item in filter(None, (item.strip() for item in listed.split(","))):
        there, _, here = item.partition(" as ")
        found[(here or there).strip()] = (module, there.strip())
    return found


def modules():
    found = {}
    for crate in crates():
        for path in files_of(crate, "specs"):
            if path.name != "Lib.antt":
                inside = ".".join(path.relative_to(TOP / "crates" / crate / "specs").with_suffix("").parts)
                found[f"Rattle.{crate}.specs.{inside}"] = Module(crate, path)
    return found


def resolve(found, module, name):
    """The definition that a name stands for in a module, through modules that hand it on."""
    for _ in range(5):
        here = found.get(module)
        if here is None:
            return None
        if name in here.definitions:
            return here.definitions[name]
        if name not in here.names:
            return None
        module, name = here.names[name]
    return None


def code_of(crate):
    return [path.read_text() for path in files_of(crate, "src")]


def reached(found):
    """The definitions that the clauses of the top call rest on, the nearest first."""
    for text in code_of(TOP_CRATE):
        contract = re.search(rf"^pub fn {TOP_CALL}\b.*?^\{{", text, re.S | re.M)
        if contract:
            break
    else:
        sys.exit(f"no function {TOP_CALL} in {TOP_CRATE}")
    names = {}
    for use in GHOST_USE.finditer(text):
        names.update(names_of(*use.groups()))
    cited = [resolve(found, *names[name]) for name in NAME.findall(contract.group(0)) if name in names]
    keys = {id(module): key for key, module in found.items()}
    queue, order, seen = deque(filter(None, cited)), [], set()
    while queue:
        definition = queue.popleft()
        if id(definition) in seen:
            continue
        seen.add(id(definition))
        order.append(definition)
        for name in NAME.findall("\n".join(definition.body)):
            other = resolve(found, keys[id(definition.module)], name)
            if other:
                queue.append(other)
    return order


# docs/STATEMENT.md, and the definitions as a table


def statement_differs():
    """Names of the page's steps that the main statement doesn't rest on, and facts that it does and they leave out.

    A sentence that begins with "No clause of" may name others."""
    order = carrying(modules())
    text = (TOP / "docs" / "STATEMENT.md").read_text()
    steps = "\n".join(line for line in text.splitlines() if re.match(r"\d+\. ", line))
    steps = re.sub(r"No clause of [^.]*\.", "", steps)
    named = {name for name in re.findall(r"`(\w+)`", steps) if "_" in name or name[0].isupper()}
    types = set(re.findall(r"^pub (?:struct|enum) (\w+)", "\n".join(t for c in crates() for t in code_of(c)), re.M))
    lost = sorted(named - {d.name for d in order} - types - set(crates()))
    if lost:
        yield "docs/STATEMENT.md names what the main statement doesn't rest on: " + ", ".join(lost)
    left_out = [d.name for d in order if d.name[0].isupper() and d.name not in named]
    if left_out:
        yield "docs/STATEMENT.md leaves out what the main statement rests on: " + ", ".join(left_out)


def carrying(found):
    """The definitions with a comment that the clauses of the top call rest on, the nearest first."""
    return [d for d in reached(found) if d.comment and not d.is_law]


def table(definitions, words):
    rows = ["| Definition | Says | In |", "|---|---|---|"]
    for d in definitions:
        row = f"| `{d.name}` | {d.comment} | `{shown(d.module.path)}` |".replace("||", "\\|\\|")
        if all(word in row for word in words):
            rows.append(row)
    return rows if len(rows) > 2 else ["none"]


def definitions(words):
    """The definitions that have each of these words, as tables."""
    found = modules()
    order = carrying(found)
    told = {id(d) for d in order}
    here = [m for m in found.values() if not is_rows(m.path)]
    others = [d for m in here for d in m.definitions.values() if d.is_pub and d.comment and id(d) not in told]
    lines = [f"## What the clauses of `{TOP_CALL}` rest on, the nearest first", "", *table(order, words)]
    lines += ["", "## The others, by name", "", *table(sorted(others, key=lambda d: d.name.lower()), words)]
    lines += ["", "## Rows by which definitions are checked", ""]
    rows = [path for crate in crates() for path in filter(is_rows, files_of(crate, "specs") + files_of(crate, "proofs"))]
    told = [f"- `{shown(path)}`: {sentence(comment_at_head(path.read_text()))}" for path in rows]
    return "\n".join(lines + [row for row in told if all(word in row for word in words)])


# The map in docs/MAP.md, and the sizes


def first_sentence(crate):
    for name in ("lib.rt", "main.rt"):
        path = TOP / "crates" / crate / "src" / name
        if path.exists():
            said = []
            for line in path.read_text().splitlines():
                if not line.startswith("//!") or line.strip() == "//!":
                    break
                said.append(line[3:].strip())
            return re.split(r"(?<=[.])\s", " ".join(said))[0]
    return ""


def folders_of(crate):
    """The modules of a crate that have a folder of their own, lowest first."""
    top = TOP / "crates" / crate / "src"
    roots = [path for path in (top / "lib.rt", top / "main.rt") if path.exists()]
    return [name for path in roots for name in MODULE.findall(path.read_text()) if (top / name).is_dir()]


def picture_of_rooms():
    """The crates as a picture of layers, the lowest on top, with the folders of each in brackets."""
    lines = []
    for says, here in layers():
        line, head = "", re.match(r"(?:the )?(?:one )?(\w+)", says).group(1)
        for name, _ in here:
            folders = " ".join(folders_of(name))
            room = f"{name} ({folders})" if folders else name
            if line and len(line) + len(room) > 90:
                lines.append(f"{head:10}  {line}")
                line, head = "", ""
            line = f"{line}  {room}".strip()
        lines.append(f"{head:10}  {line}")
    return "```\n" + "\n".join(lines) + "\n```"


def handed_on():
    """The rooms that each crate hands on whole: the definitions of specs/ that one reaches through it."""
    found = {}
    for crate in crates():
        path = TOP / "crates" / crate / "specs" / "Lib.antt"
        text = path.read_text() if path.exists() else ""
        found[crate] = set(re.findall(r"^pub use Rattle\.(?:\w+\.specs\.)?(\w+)(?:\.specs as \w+)?$", text, re.M))
    return found


def namers():
    """Of each crate those that list it, and which of these hand it on to who lists them."""
    rows, hands, found = [row for _, here in layers() for row in here], handed_on(), {}
    for name in crates():
        first = [other for other, below in rows if name in below]
        by = [other for other in crates() if name in hands[other]]
        lacking = [other for other in crates() if other not in first and other != name]
        said = ", ".join(first) if len(first) < len(lacking) else f"all but {', '.join(lacking)}"
        found[name] = said + (f"; and who names {' or '.join(filter(None, (', '.join(by[:-1]), by[-1])))}" if by else "")
    return found


def touched_unlisted():
    """Rooms that a root file's first lines say its crate may touch, and that neither crates.txt nor a room there names."""
    hands = handed_on()
    for name, below in (row for _, here in layers() for row in here):
        for file in ("lib.rt", "main.rt"):
            path = TOP / "crates" / name / "src" / file
            text = path.read_text() if path.exists() else ""
            head = " ".join(line[3:].strip() for line in text.splitlines() if line.startswith("//!"))
            reach = {name, *below}.union(*(hands.get(room, set()) for room in below))
            for said in MAY_TOUCH.findall(head):
                for room in sorted(set(re.findall(r"`(\w+)`", said)) & {*crates()} - reach):
                    yield f"{shown(path)} says that it may touch {room}, which crates.txt doesn't list for it"


def map_of_crates():
    lines = []
    named_by = namers()
    for says, here in layers():
        lines += [f"**{says[0].upper()}{says[1:]}**", "", "| Crate | What it is | Stands on | Named by |", "|---|---|---|---|"]
        for name, below in here:
            row = [f"[`{name}`](../crates/{name})", first_sentence(name), ", ".join(below), named_by.get(name, "")]
            lines.append(f"| {' | '.join(row)} |")
        lines.append("")
    return "\n".join(lines).rstrip()


def measured():
    """The processor seconds of each crate, where .ci/seconds.py wrote them."""
    path = TOP / "out" / "seconds.txt"
    rows = [line.split() for line in path.read_text().splitlines() if not line.startswith("#")] if path.exists() else []
    return {name: seconds for name, *seconds in rows if len(seconds) == 3}


def sizes():
    """The size of each crate, and what it took of the processor when that was last measured."""
    seconds = measured()
    lines = ["| Crate | Lines of code | Functions | Lines of specs and proofs | Edits | Proof, s | Running, s | Edits, s |"]
    lines.append("|---|---|---|---|---|---|---|---|")
    for crate in crates():
        code = code_of(crate)
        proofs = [path.read_text() for path in files_of(crate, "specs") + files_of(crate, "proofs")]
        row = [f"`{crate}`", sum(text.count("\n") for text in code), sum(len(FUNCTION.findall(text)) for text in code)]
        row.append(sum(text.count("\n") for text in proofs))
        row.append(len(list((TOP / "crates" / crate / "must-fail").glob("*.edit"))))
        row += seconds.get(crate, [UNKNOWN] * 3)
        lines.append("| " + " | ".join(str(cell) for cell in row) + " |")
    return "\n".join(lines)


def lines_of(part):
    return sum(path.read_text().count("\n") for crate in crates() for path in files_of(crate, part))


def totals():
    """How large all of it is, in thousands of lines, so that few commits change it."""
    code, definitions, proofs = (round(lines_of(part) / 1000) for part in ("src", "specs", "proofs"))
    tried, beside = (len(list(TOP.glob(f"crates/*/{folder}/*.edit"))) for folder in ("must-fail", "wrong"))
    return (
        f"{len(crates())} rooms (crates) have {code} thousand lines of code with contracts, {definitions} thousand of "
        f"definitions and {proofs} thousand of proofs. The gate has the prover refuse {tried} bodies with a mistake in them; {beside} more are tried by hand (`.ci/edits.sh`), some not yet."
    )


def trusted():
    """The crates of the toolchain that a room stands on: those that the program reaches, and the others."""
    below = {name: others for _, here in layers() for name, others in here}
    reached, queue = set(), [PROGRAM]
    while queue:
        for other in below.get(queue.pop(), []):
            if other not in reached:
                reached.add(other)
                queue.append(other)
    kits = {other: sorted(name for name in below if other in below[name]) for others in below.values() for other in others}
    kits = {name: by for name, by in kits.items() if name not in below}
    rows = ["| Crate of the toolchain | Listed by | `riptide` reaches it |", "|---|---|---|"]
    for name in sorted(kits, key=lambda name: (name not in reached, name)):
        by = ", ".join(f"`{room}`" for room in kits[name])
        rows.append(f"| `{name}` | {by} | {'yes' if name in reached else 'no'} |")
    return "\n".join(rows)


WORKLOADS = TOP / "crates" / "checks" / "data" / "workloads"
# the pages that are to be read, beside the README, and how many KB all of these may have together
TO_READ, MOST_TO_READ = ("TOUR", "LIFE-OF-A-CELL", "READING-A-RUN", "WORDS"), 50


def told_by(stem):
    """The first sentence of the comment at the head of a workload."""
    head = re.match(r"(?:#.*\n)*", (WORKLOADS / f"{stem}.toml").read_text()).group(0)
    said = " ".join(line.lstrip("# ").strip() for line in head.splitlines())
    return re.split(r"(?<=[.:]) (?=[A-Z]|$)", said)[0] or "The stored workload of `riptide`."


def examples(text):
    """The page of examples, with the sentence of each."""

    def line(found):
        stem = found.group(1)
        if not (WORKLOADS / f"{stem}.toml").exists():
            return found.group(0)
        return f"- [{stem}](../{(WORKLOADS / stem).relative_to(TOP)}.toml): {told_by(stem)}"

    return re.sub(r"^- \[(\w+)\].*$", line, text, flags=re.M)


def too_long():
    """Pages that are longer than they may be, alone or together: they grow by a line at a time, and nobody reads what is too
    long."""
    limits = {TOP / "README.md": 8, TOP / "docs" / "DECISIONS.md": 60}
    limits |= {path: 2 for path in sorted(TOP.glob("crates/*/README.md"))}
    for path, most in limits.items():
        if (size := path.stat().st_size) > 1024 * most:
            yield f"{path.relative_to(TOP)} has {size:,} bytes, and may have {most} KB: {1024 * most:,}"
    to_read = [TOP / "README.md", *(TOP / "docs" / f"{page}.md" for page in TO_READ)]
    if (size := sum(path.stat().st_size for path in to_read)) > 1024 * MOST_TO_READ:
        yield f"README.md, {', '.join(TO_READ)} have {size:,} bytes, and may have {MOST_TO_READ} KB: {1024 * MOST_TO_READ:,}"


def examples_missed():
    """Workloads that docs/EXAMPLES.md has no line of, or has several."""
    listed = re.findall(r"^- \[(\w+)\]", (TOP / "docs" / "EXAMPLES.md").read_text(), re.M)
    for path in sorted(WORKLOADS.glob("*.toml")):
        if (count := listed.count(path.stem)) != 1:
            yield f"docs/EXAMPLES.md has {count} lines of the workload {path.stem}: choose a subject for it"


def between(path, parts):
    """A page with each part that stands between two of its lines written anew."""
    text = path.read_text()
    for name, written in parts.items():
        begin, end = f"<!-- {name} -->\n\n", f"\n\n<!-- end of {name} -->"
        if begin not in text or end not in text:
            sys.exit(f"{path.name} has no place for {name}")
        before, rest = text.split(begin, 1)
        text = before + begin + written + end + rest.split(end, 1)[1]
    return text


def pages():
    shown = TOP / "docs" / "EXAMPLES.md"
    first, plan, proved = TOP / "README.md", TOP / "docs" / "MAP.md", TOP / "docs" / "PROVED.md"
    return {
        first: between(first, {"totals": totals()}),
        plan: between(plan, {"rooms": picture_of_rooms(), "map": map_of_crates()}),
        proved: between(proved, {"trusted": trusted()}),
        shown: examples(shown.read_text()),
    }


def main():
    if sys.argv[1:2] == ["--definitions"]:
        return print(definitions(sys.argv[2:]))
    if sys.argv[1:] == ["--sizes"]:
        return print(sizes())
    if sys.argv[1:] not in ([], ["--check"]):
        sys.exit(print(__doc__.strip()) or sys.argv[1:] != ["--help"])
    differ = 0
    for early in named_too_early():
        print(early)
    misses = [*too_many_ways(ways()), *touched_unlisted(), *edits_that_miss(), *edits_told_otherwise()]
    for miss in [*misses, *statement_differs(), *examples_missed(), *too_long()]:
        differ = 1
        print(miss)
    for path, text in pages().items():
        if path.exists() and path.read_text() == text:
            continue
        if sys.argv[1:]:
            differ = 1
            print(f"{path.name} isn't what .ci/lists.py writes: run it and commit what it wrote")
        else:
            path.write_text(text)
            print(f"wrote {path.name}")
    return differ


sys.exit(main())
