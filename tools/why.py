#!/usr/bin/env python3
"""Tells why `riptide` refuses a workload: the line that it prints, the place, the cause, and what to change.

    python3 tools/why.py FILE          FILE is a workload, or - for standard input
    python3 tools/why.py -- WORD..     the words of a command line, as behind `riptide`

It ends with 0 where the workload is taken, with 1 where it is refused, and with 2 where FILE isn't named or can't be read,
or the output can't be written. docs/WHY.md has examples, which the gate compares, and tools/why_test.py compares the first
line with what the program prints. Like the program it tells the first fault alone, in the order that docs/WORKLOAD.md
gives. What it prints is ASCII: another character of the file is told by its number, as U+00E9. It proves nothing of the
program.
"""
import os
import re
import sys

import toml_lines
from toml_lines import seen
from why_ops import FORMS, NUMBERS, Limits, near, op_fault, path_fault, quoted
from why_words import words_explained

if __name__ == "__main__" and sys.argv[1:] in ([], ["--help"]):
    sys.exit(print(__doc__.strip()) or len(sys.argv) < 2)

MAX_BYTES, MAX_PATHS, MAX_OPS, MAX_MUTATORS = 4194304, 64, 65536, 16
FIVES = {
    "blocks": "for cells of 2, 4, 8 and 16 slots and for tables", "arrays": "for arrays of 4, 8, 16, 32 and 64 properties",
}
FIELDS = [*NUMBERS, "shapes", "mutator"]
# of a long file so many unknown names are compared with the fields
MOST_COMPARED = 100
# in tables nested deeper than so many a field isn't looked for
MOST_NAMES = 4
# what has to be there, and what may stand there
REQUIRED = {
    "registers": "registers = 4", "blocks": "blocks = [1, 0, 0, 0, 1]", "period": "period = 16", "headroom": "headroom = 32",
    "mutator": "[[mutator]] and ops = [] below it",
}
KINDS = {"string": "a text in quotes", "array": "a list", "table": "a table"}


class Fault(Exception):
    """What the program prints of a fault, where it is, why it is one, and what to change."""

    def __init__(self, told, where, why, change):
        super().__init__(told)
        self.lines = [f"riptide: {told}", f"where:  {where}", f"why:    {why}", f"change: {change}"]


def bad(field, line, why, change):
    return Fault(f"bad field {field}", f"line {line}, the field {field}", why, change)


def bad_other(name, value, why, change):
    return Fault("bad field other", f"line {value.named}, the name {seen(name)}", why, change)


def shown(value):
    """A value in words."""
    if value.kind in KINDS:
        return KINDS[value.kind]
    return f"the {value.kind} {str(value.data).lower()}"


def others(table, names):
    """The names of a table that are none of these, with their values, in the order of the file."""
    return sorted(((name, value) for name, value in table.data.items() if name not in names), key=lambda found: found[1].named)


def header_of(name, value):
    """The header of a table, or of a list of tables, by its name."""
    return f"[[{seen(name)}]]" if value.kind == "array" else f"[{seen(name)}]"


# the fields of the top


def tables_in(table, path=()):
    """The tables within a table, those of a list of tables too, and those within these to a few names' depth; each with its
    names from the top."""
    for name, value in table.data.items():
        for inner in value.data if value.kind == "array" else [value]:
            if inner.kind == "table":
                yield [*path, name], inner
                if len(path) < MOST_NAMES:
                    yield from tables_in(inner, [*path, name])


def above(document):
    """Above which line the fields of the top stand."""
    headers = [value for value in document.data.values() if value.origin in ("header", "implicit")]
    first = min(headers, key=lambda value: value.line, default=None)
    if first is None or first is document.data.get("mutator") and first.kind == "array":
        return "above the first [[mutator]]"
    return f"above line {first.line}"


def in_another_table(field, document):
    """The fault of a field of the top that stands in a table, if it does."""
    told = f"missing field {field}"
    for path, table in tables_in(document):
        if field not in table.data:
            continue
        where, name = f"line {table.data[field].named}", seen(".".join(path))
        if path == ["mutator"]:
            line, more = document.data["mutator"].line, [name for name in table.data if name in FIELDS and name != field]
            lines = f"lines of {', '.join([field, *more])}" if more else "line"
            change = f"move the {lines} above the first [[mutator]], which is on line {line}"
            return Fault(told, where, f"`{field}` stands below [[mutator]], and so is that mutator's", change)
        why = f"`{field}` stands in the table `{name}` on line {table.line}"
        if table.origin == "dotted":
            return Fault(told, where, why, f"take `{name}.` off")
        if table.origin is None:
            return Fault(told, where, why, f"write {field} and its value on a line of its own {above(document)}")
        header = f"the line [{name}]" if len(path) == 1 else f"the header of `{name}`"
        if len(path) == 1 and document.data[path[0]].kind == "array":
            header = f"the line [[{name}]]"
        return Fault(told, where, why, f"take {header} out")
    return None


def missing(field, document):
    """The fault of a field that isn't there: it may stand in another table, or under a name near to its own."""
    told = f"missing field {field}"
    if field != "mutator" and (fault := in_another_table(field, document)):
        return fault
    for name, value in others(document, FIELDS)[:MOST_COMPARED]:
        if near(name, FIELDS) == field:
            change = f"write {field} in place of {seen(name)}"
            if field == "mutator" and value.origin == "header":
                change = f"write [[mutator]] in place of {header_of(name, value)}"
            return Fault(told, f"line {value.named}", f"there is no `{field}`, but a field `{seen(name)}`", change)
    if field == "mutator":
        return no_mutator(told, document)
    change = f"write {REQUIRED[field]}, or another value, {above(document)}"
    return Fault(told, "the top of the file", f"there is no `{field}`, and it has to be there", change)


def ops_at_the_top(value):
    """Why `ops` may not stand there, and what to change."""
    change = "write [[mutator]] on the line above `ops`"
    if value.kind == "table" or value.origin == "header":
        change = "write [[mutator]] in place of its header, and the operations below it as ops = []"
    return "`ops` stands at the top, where no mutator is", change


def no_mutator(told, document):
    """The fault of a document without mutators."""
    ops, why = document.data.get("ops"), "there is no `mutator`, and it has to be there"
    if ops is not None:
        return Fault(told, f"line {ops.named}", *ops_at_the_top(ops))
    for path, table in tables_in(document):
        if "mutator" in table.data:
            name = seen(".".join(path))
            return Fault(told, f"line {table.data['mutator'].line}", f"{why}, but one in `{name}`", f"take `{name}.` off")
    for name, value in others(document, FIELDS)[:MOST_COMPARED]:
        if value.origin == "header":
            change = f"write [[mutator]] in place of {header_of(name, value)}"
            return Fault(told, f"line {value.line}", f"{why}, but `{seen(name)}`", change)
    return Fault(told, "the end of the file", why, f"write {REQUIRED['mutator']}")


def whole_number(text):
    """The whole number that a float's text comes to, if it does."""
    try:
        number = float(str(text).replace("_", ""))
    except ValueError:
        return None
    return int(number) if number.is_integer() else None


def number_wanted(field):
    """What to write as a number of this field."""
    least, most = NUMBERS[field]
    return f"write an integer from {least} to {most}" + ("" if field in FIVES or field in REQUIRED else ", or take the line out")


def number_fault(field, value, what="it"):
    """The fault of a value that isn't a number which the field may have, if it isn't."""
    least, most = NUMBERS[field]
    if value.kind == "integer" and least <= value.data <= most:
        return None
    limits, change = f"an integer from {least} to {most}", number_wanted(field)
    if value.kind == "string" and re.fullmatch("0|[1-9][0-9]{0,6}", value.data) and least <= int(value.data) <= most:
        change = f"take the quotes off: {value.data}"
    elif value.kind == "float" and (whole := whole_number(value.data)) is not None and least <= whole <= most:
        change = f"write {whole}"
    elif value.kind == "array" and len(value.data) == 1 and number_fault(field, value.data[0]) is None:
        change = f"take the brackets off: {value.data[0].data}"
    return bad(field, value.line, f"{what} is {shown(value)}, and has to be {limits}", change)


def five_fault(field, value):
    if value.kind != "array" or len(value.data) != 5:
        count = len(value.data) if value.kind == "array" else None
        has = f"it is {shown(value)}" if count is None else f"it has {count} value{'s'[:count != 1]}"
        brackets = f", in brackets: {field} = [1, 0, 0, 0, 1]" if count is None else ""
        more = "; those for arrays of properties stand in `arrays`" if field == "blocks" and (count or 0) > 5 else ""
        change = f"write five numbers of blocks, {FIVES[field]}{brackets}{more}"
        if count == 1 and value.data[0].kind == "array":
            change = "take the inner brackets out"
        return bad(field, value.line, f"{has}, and has to be a list of five integers", change)
    for place, one in enumerate(value.data):
        if fault := number_fault(field, one, f"value {place} of the five, counted from 0,"):
            return fault
    return None


def settings_of(document):
    """The numbers of the top by field, each with its line."""
    found = {}
    for field in NUMBERS:
        value = document.data.get(field)
        if value is None:
            if field in REQUIRED:
                raise missing(field, document)
            found[field] = (0, None)
            continue
        if fault := five_fault(field, value) if field in FIVES else number_fault(field, value):
            raise fault
        found[field] = (value.data, value.named)
    return found


def keys_of(document):
    """The keys of the paths, with the line of `shapes`."""
    value = document.data.get("shapes")
    if value is None:
        return [], None
    if value.kind != "array":
        path = " ".join(re.split("[ ,;]+", value.data.strip())) if value.kind == "string" else ""
        path = path if path and not path_fault(path) else "name next"
        raise bad("shapes", value.line, f"it is {shown(value)}, and has to be a list of texts",
                  f"write it as a list of paths: shapes = [{quoted(path)}]")
    if len(value.data) > MAX_PATHS:
        raise bad("shapes", value.line, f"it has {len(value.data)} paths, and may have {MAX_PATHS}", "take some out")
    for place, path in enumerate(value.data):
        is_text = path.kind == "string"
        if fault := path_fault(path.data) if is_text else (f"it is {shown(path)}", as_text(path, True)):
            which = f"path {place}, counted from 0" + (f", {quoted(path.data)}" if is_text else "")
            raise bad("shapes", path.line, f"of {which}: {fault[0]}", fault[1])
    for place, path in enumerate(value.data):
        words = path.data.split()
        if double := next((word for index, word in enumerate(words) if word in words[:index]), None):
            raise bad("shapes", path.line, f"path {place}, counted from 0, {quoted(path.data)}, names {double} twice",
                      f"take one {double} out")
    return list(dict.fromkeys(word for path in value.data for word in path.data.split())), value.named


def as_text(value, is_path=False):
    """How a value is written as a text. Of a table that is to be a path, the names are meant."""
    if is_path and value.kind == "table" and not path_fault(path := " ".join(value.data)):
        if {one.kind for one in value.data.values()} != {"string"}:
            return f"write it as one text: {quoted(path)}"
    if value.kind == "table" and [one.kind for one in value.data.values()] == ["string"]:
        (name, one), = value.data.items()
        return f"write it as one text: {quoted(f'{name} {one.data}')}"
    if value.kind != "array" or any(one.kind != "string" for one in value.data):
        return "write it in quotes"
    texts = [one.data for one in value.data]
    if len(texts) > 1 and texts[1] not in FORMS and not any(" " in text for text in texts):
        return f"write it as one text: {quoted(' '.join(texts))}"
    return "take the inner brackets out"


def option_named(name, value):
    """What to change where a field has the name of an option of the command line, or of something that has no number."""
    number = f" {value.data}" if value.kind == "integer" else " N"
    if name in ("visitors", "make"):
        return f"take it out, and run riptide --{name}{number}"
    if name in ("plain", "snapshot", "stats"):
        return f"take it out, and run riptide --{name}"
    if name == "threads":
        return "take it out: mutators and visitors run on up to four threads; riptide --visitors N asks for visitors"
    return None


def only_fields(document):
    for name, value in others(document, FIELDS):
        if name == "ops":
            raise bad_other(name, value, *ops_at_the_top(value))
        if value.origin is None and (change := option_named(name, value)):
            raise bad_other(name, value, f"no field of the top is named `{seen(name)}`", change)
        meant, listed = near(name, FIELDS, 0.7), value.kind == "array" and value.origin == "header"
        change = f"take it out; the fields are {', '.join(FIELDS)}"
        if value.origin in ("header", "implicit", "dotted"):
            change = "take it out, with the lines below it" if value.origin != "dotted" else "take its lines out"
        inner = [field for field in FIELDS if value.kind == "table" and field in value.data]
        if inner:
            change = f"move {', '.join(inner)} {above(document)}, and take `{seen(name)}` out"
        elif listed and any("ops" in table.data for table in value.data):
            change = f"write [[mutator]] in place of [[{seen(name)}]]"
        elif value.kind == "table" and value.origin == "header" and "ops" in value.data:
            change = f"write [[mutator]] in place of [{seen(name)}]"
        elif meant and meant not in document.data:
            change = f"write {meant}, if that is meant, or take it out"
        elif meant:
            change = f"take it out: `{meant}` stands on line {document.data[meant].named}"
        raise bad_other(name, value, f"no field of the top is named `{seen(name)}`", change)


# mutators and their operations


def mutators_of(document):
    value = document.data.get("mutator")
    if value is None:
        raise missing("mutator", document)
    write = f"write {REQUIRED['mutator']}"
    if value.kind == "table":
        each = ", in place of each of its headers" if value.origin == "implicit" else ""
        raise bad("mutator", value.line, "it is one table, and has to be a list of tables",
                  f"write [[mutator]], with both brackets{each}")
    if value.kind != "array":
        raise bad("mutator", value.line, f"it is {shown(value)}", f"{write}, in its place")
    count = len(value.data)
    if not 1 <= count <= MAX_MUTATORS:
        raise bad("mutator", value.data[MAX_MUTATORS].line if count else value.line,
                  f"there are {count} mutators, and there may be 1 to {MAX_MUTATORS}", "take some out" if count else write)
    for number, table in enumerate(value.data):
        if table.kind != "table":
            why = f"mutator {number}, counted from 0, is {shown(table)}, and has to be a table"
            raise bad("mutator", table.line, why, write)
    return value.data


def texts_of(number, table, document):
    """The operations of a mutator, as values."""
    of, value, rest = f"mutator {number}, counted from 0,", table.data.get("ops"), others(table, ["ops"])
    if value is None:
        named = rest[:MOST_COMPARED]
        lists = [name for name, other in named if other.kind == "array" and name not in FIELDS]
        meant = next((seen(name) for name, _ in named if near(name, ["ops", "operations"])), next(map(seen, lists), None))
        why = f"{of} has no `ops`" + (f", but a field `{meant}`" if meant else "")
        raise Fault("missing field ops", f"line {table.line}", why,
                    f"write ops in place of {meant}" if meant else "write ops = [] or the operations below it")
    if value.kind != "array":
        lines = value.data.split("\n") if value.kind == "string" else ["collect"]
        bare = [line.strip(" \t\r\"',;") for line in lines]
        text = ", ".join(quoted(line) for line in bare[:8] if line) + (", ..." if len(bare) > 8 else "")
        raise bad("ops", value.line, f"that of {of} is {shown(value)}, and has to be a list of texts",
                  f"write it in brackets: ops = [{text}]")
    if len(value.data) > MAX_OPS:
        raise bad("ops", value.data[MAX_OPS].line, f"{of} has {len(value.data):,} operations, and may have {MAX_OPS:,}",
                  "take some out, or give them to another mutator")
    for place, text in enumerate(value.data):
        if text.kind != "string":
            why = f"operation {place} of {of} is {shown(text)}, and has to be a text"
            raise bad("ops", text.line, why, as_text(text))
    for name, other in rest:
        moved = "take it out, or make it a comment with #"
        if name in FIELDS:
            also = document.data.get(name)
            moved = f"take it out: `{name}` is on line {also.named} too" if also else f"move the line {above(document)}"
        raise bad_other(name, other, f"`{seen(name)}` stands below [[mutator]], where ops alone may stand", moved)
    return value.data


def check(data):
    """The mutators' operations of a workload, as values, or a `Fault`."""
    if len(data) > MAX_BYTES:
        line = data[:MAX_BYTES].count(b"\n") + 1
        why = f"it has more than {MAX_BYTES:,} bytes"
        change = "shorten it: a mutator's 65,536 operations fit easily"
        raise Fault("too long", f"line {line}, at byte {MAX_BYTES:,}", why, change)
    try:
        document = toml_lines.read(data, {field: number_wanted(field) for field in NUMBERS})
    except toml_lines.NotToml as error:
        raise Fault("not TOML", f"line {error.line}", error.why, error.change) from None
    settings, keys, mutators = settings_of(document), keys_of(document), mutators_of(document)
    only_fields(document)
    scripts = [texts_of(number, table, document) for number, table in enumerate(mutators)]
    limits = Limits(settings, keys)
    for who, script in enumerate(scripts):
        for place, text in enumerate(script):
            if fault := op_fault(text.data, limits):
                where = f"line {text.line}, operation {place} of mutator {who}, both counted from 0: {quoted(text.data)}"
                raise Fault(f"bad op {place} of mutator {who}", where, *fault)
    return scripts


def explained(data):
    """What is said of a workload, line by line, and whether it is taken."""
    try:
        scripts = check(data)
    except Fault as fault:
        return fault.lines, False
    ops = sum(map(len, scripts))
    return [f"no fault: {len(scripts)} mutator{'s'[:len(scripts) != 1]} with {ops:,} operation{'s'[:ops != 1]}"], True


def tell(lines):
    """Prints lines, and tells whether they were written; a reader who ends before is no fault."""
    try:
        print("\n".join(lines), flush=True)
    except OSError as error:
        # so that the end of the program doesn't try it again
        os.dup2(os.open(os.devnull, os.O_WRONLY), sys.stdout.fileno())
        if not isinstance(error, BrokenPipeError):
            print(f"the output: {error.strerror}", file=sys.stderr)
            return False
    return True


def main():
    if sys.argv[1] == "--":
        lines, taken = words_explained(sys.argv[2:])
        return 2 if not tell(lines) else 0 if taken else 1
    if len(sys.argv) != 2:
        print(__doc__, file=sys.stderr)
        return 2
    try:
        with open(0 if sys.argv[1] == "-" else sys.argv[1], "rb") as given:
            data = given.read(MAX_BYTES + 1)
    except OSError as error:
        print(f"{sys.argv[1]}: {error.strerror}", file=sys.stderr)
        return 2
    lines, taken = explained(data)
    return 2 if not tell(lines) else 0 if taken else 1


if __name__ == "__main__":
    sys.exit(main())
