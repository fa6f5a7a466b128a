#!/usr/bin/env python3
"""Writes crates/tide_c/tide.h from the exports of crates/tide_c/src, or tells whether it is what they say.

    python3 .ci/header.py            writes it
    python3 .ci/header.py --check    ends with 1 where it differs

What crosses is a struct under #[repr(C)], what an export answers a variant of `Status`, and the numbers of operations,
replies, values and refusals stand in operation.rt, where each is read or written. The comments are those of the source.
"""
import re
import sys
from pathlib import Path

CRATE = Path(__file__).resolve().parent.parent / "crates" / "tide_c"
HEADER = CRATE / "tide.h"
STRUCT = re.compile(r"((?:///[^\n]*\n)*)#\[repr\(C\)\]\n(?:#\[[^\n]*\n)*pub struct (\w+) \{\n(.*?)\n\}", re.S)
FIELD = re.compile(r"((?:    ///[^\n]*\n)*)    (?:pub(?:\(crate\))? )?(\w+): ([^\n]*),")
EXPORT = re.compile(r'((?:///[^\n]*\n)+)#\[unsafe\(no_mangle\)\]\n(?:#\[[^\n]*\n)*pub extern "C" fn (\w+)\((.*?)\)(?: -> (\w+))?\n?[ {]', re.S)
VARIANT = re.compile(r"((?:    ///[^\n]*\n)*)    (\w+)(?: \{[^}]*\}|\([^)]*\))?,")
NUMBERS = {"u8": "uint8_t", "u16": "uint16_t", "u32": "uint32_t", "u64": "uint64_t", "usize": "size_t", "*mut u8": "void *"}
FILES = ("handle", "opening", "operation", "party", "looking", "exports")


def words(comment):
    return " ".join(line.strip().lstrip("/").strip() for line in comment.splitlines())


def shouted(name):
    return "TIDE_" + re.sub(r"(?<!^)(?=[A-Z])", "_", name).upper()


def of_c(kind):
    array = re.fullmatch(r"\[(\w+); (\d+)\]", kind)
    return (NUMBERS[array[1]], f"[{array[2]}]") if array else (NUMBERS[kind], "")


def type_of(name):
    return "tide_" + name.lower()


def wrapped(text, first="", then="   ", width=118):
    lines, line = [], first
    for word in text.split():
        if len(line) + len(word) > width:
            lines.append(line.rstrip())
            line = then
        line += word + " "
    return "\n".join(lines + [line.rstrip()])


def packed(items, first, last, then="    ", width=118):
    """Lines of these items, none of which is broken."""
    lines, line = [], first
    for item in items:
        if len(line) + len(item) > width and line.strip():
            lines.append(line.rstrip())
            line = then
        line += item + " "
    return "\n".join(lines + [line + last])


def structs(text):
    for comment, name, body in STRUCT.findall(text):
        yield wrapped(f"/* {words(comment)} */")
        fields = grouped([(words(said), field, *of_c(kind)) for said, field, kind in FIELD.findall(body)])
        yield packed(fields, "typedef struct { ", f"}} {type_of(name)};")


def grouped(fields):
    """Fields with their comments: behind one that has a comment, those of its type that have none."""
    starts = [at for at, one in enumerate(fields) if at == 0 or one[0] or one[2] != fields[at - 1][2]]
    for at, end in zip(starts, starts[1:] + [len(fields)]):
        said, _, kind, _ = fields[at]
        space = "" if kind.endswith("*") else " "
        listed = ", ".join(field + array for _, field, _, array in fields[at:end])
        yield f"{kind}{space}{listed};" + (f" /* {said} */" if said else "")


def numbered(text, pattern, prefix):
    """The names that a table of numbers gives, in their order."""
    found = sorted({(int(number), name) for number, name in re.findall(pattern, text, re.S)})
    names = [prefix + shouted(name)[5:] for _, name in found]
    if [number for number, _ in found] != list(range(len(found))):
        sys.exit(f"{prefix}: the numbers aren't those from 0 on")
    return names


def one_enum(comment, names):
    """A table of numbers from 0 on, which its comment follows where it is one line."""
    lines = wrapped(", ".join(names) + " };", "enum { ", "    ")
    return f"{lines} /* {comment} */" if "\n" not in lines else f"/* {comment} */\n{lines}"


def statuses(text):
    body = text[text.index("pub enum Status {"):]
    body = body[: body.index("\n}")]
    codes = {name: int(code) for name, code in re.findall(r"Status::(\w+) => (\d+),", text)}
    found = VARIANT.findall(body)
    if [codes[name] for _, name in found] != list(range(len(found))):
        sys.exit("the numbers of statuses aren't those from 0 on")
    yield "/* What a call answers. But for TIDE_DONE and TIDE_AGAIN no call of the heap's was made. */"
    yield packed((f"{shouted(name)}, /* {words(comment)} */" for comment, name in found), "enum { ", "};")


def parameters(text):
    for name, kind in re.findall(r"(\w+): ((?:&mut |&)?(?:\[\w+\]|\w+))", text):
        if kind == "Global":
            continue
        const = "const " if kind.startswith("&") and not kind.startswith("&mut") else ""
        bare = kind.replace("&mut ", "").replace("&", "")
        kind = NUMBERS.get(bare.strip("[]")) or type_of(bare.strip("[]"))
        star = " *" if "&" in text[text.index(f"{name}: "):][: len(name) + 3] else " "
        yield f"{const}{kind}{star}{name}"
        if bare.startswith("["):
            yield f"size_t {name}_count"


def prototypes(text):
    for comment, name, taken, answer in EXPORT.findall(text):
        yield wrapped(f"/* {words(comment)} */")
        listed = ", ".join(parameters(taken)) or "void"
        yield wrapped(f"{listed});", f"{NUMBERS.get(answer, 'void')} {name}(", "    ")


def header():
    source = {name: (CRATE / "src" / f"{name}.rt").read_text() for name in FILES if (CRATE / "src" / f"{name}.rt").exists()}
    operation = source["operation"]
    out = ["/* A heap for a C program. Written by .ci/header.py from the exports of crates/tide_c, which docs/C.md explains.\n   No pointer is null, and no two of one call overlap. */"]
    out += ["#pragma once", "#include <stddef.h>", "#include <stdint.h>", "#ifdef __cplusplus", 'extern "C" {', "#endif"]
    for name in source:
        out += structs(source[name])
    out += statuses((CRATE / "src" / "status.rt").read_text())
    out.append(one_enum("Kinds of operations, as docs/WORKLOAD.md has them, and their operands in the fields of those names.",
                        numbered(operation, r"(\d+) => Some\(Op::(\w+)", "TIDE_")))
    out.append(one_enum("Kinds of answers.", ["TIDE_" + n for n in replies(operation)]))
    out.append(one_enum("What a value is that was seen.", ["TIDE_" + n for n in listed(operation, "Val")]))
    out.append(one_enum("What an operation was refused for.", ["TIDE_" + n for n in listed(operation, "Refusal")]))
    out += prototypes(source["exports"])
    out += ["#ifdef __cplusplus", "}", "#endif"]
    return "\n".join(out) + "\n"


def listed(text, kind):
    """The variants of a type, by the first number that each is told by."""
    found = re.findall(kind + r"::(\w+)(?: \{[^}]*\}|\([^)]*\))? => \(\s*(\d+),", text, re.S)
    return [shouted(name)[5:] for _, name in sorted((int(number), name) for name, number in found)]


def replies(text):
    found = re.findall(r"Reply::(\w+)(?:\([^)]*\))? => \(\s*(\d+),", text, re.S)
    names = {"Done": "MADE"}
    return [names.get(name, shouted(name)[5:]) for _, name in sorted((int(number), name) for name, number in found)]


def main():
    text = header()
    if sys.argv[1:] == ["--check"]:
        if not HEADER.exists() or HEADER.read_text() != text:
            print("tide.h isn't what .ci/header.py writes: run it and commit what it wrote")
            sys.exit(1)
        return
    HEADER.write_text(text)


if __name__ == "__main__":
    main()
