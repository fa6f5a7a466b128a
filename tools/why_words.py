"""Why the words of a command line are refused, and what to change. It is for tools/why.py.

The program's line is the same for each of them. What is taken is told in docs/WORKLOAD.md, under "The command line".
"""
import difflib
import re

from why_ops import NUMBERS

USAGE = "riptide: usage: riptide [--visitors N] [--plain] [--make N] [--snapshot] [--stats]"
NUMBERED, FLAGS, MAX_VISITORS = ("--visitors", "--make"), ("--plain", "--snapshot", "--stats"), 8
ON, OFF = ("true", "yes", "on"), ("false", "no", "off")
# options that other programs have for a file that is read, and for one that is written
READS, WRITES = ("--file", "--input", "--in", "--workload", "-i", "-f"), ("--output", "--out", "-o")
# words that other programs have for what this one always does
VERBS = ("run", "exec", "start")
APART = [
    ("--plain", "--visitors", "a plain run has one thread and no visitor, be their number 0"),
    ("--plain", "--snapshot", "a snapshot is of the heap that threads share"),
    ("--make", "--snapshot", "a generated workload prints a summary, and no cells"),
    ("--plain", "--stats", "the lines of cycles are of a run on the heap that threads share"),
    ("--make", "--stats", "a generated workload prints a summary, and no cycles"),
]


def shown(word):
    """A word as it is told: what isn't printable ASCII by its number."""
    letters = ("\\x%02x" % (ord(one) - 0xDC00) if "\udc80" <= one <= "\udcff" else f"U+{ord(one):04X}" for one in word)
    return "".join(one if " " <= one <= "~" else told for one, told in zip(word, letters))


def number_fault(option, text):
    """Of the text behind an option with a number."""
    if not re.fullmatch(r"\+?[0-9]+", text):
        what = f"`{shown(text)}` is no number from 0 on" if text else "its number is empty"
        return what, f"write {option} 7, or another number in decimal digits" if option == "--make" else f"write {option} 2"
    if int(text) >= 2**64:
        return f"`{text}` is more than 18446744073709551615", "write a smaller number"
    if option == "--visitors" and int(text) > MAX_VISITORS:
        return f"{int(text)} visitors are more than {MAX_VISITORS}", f"write {option} {MAX_VISITORS}, or fewer"
    return None


def meant_by(word):
    """The option that a word is near to, if any is."""
    name = word.split("=")[0]
    dashed = "--" + name.lstrip("-").lower()
    begun = [option for option in (*NUMBERED, *FLAGS) if option.startswith(word) or option[1:3] == word]
    near = difflib.get_close_matches(dashed, [*NUMBERED, *FLAGS], 1, 0.75)
    return next(iter(begun if word.startswith("-") else []), None) or next(iter(near if len(dashed) > 3 else []), None)


def written(option, word, rest):
    """How the option that a word is near to is written, with its number where none stands behind it."""
    if option in FLAGS or rest and re.fullmatch("[0-9]+", rest[0]):
        return f"write {option}"
    number = word.partition("=")[2]
    return f"write {option}" + (f" {number}" if re.fullmatch("[0-9]{1,3}", number) else " 2")


def bare(word, before, rest):
    """Why a word without a dash is none of the five options, and what to change. `before` is the word before it, `rest` are
    those behind."""
    told = shown(word)
    if word in ("<", ">", "|"):
        return f"`{told}` is the shell's, and came to the program as a word", "write it without quotes"
    if before in ("--snapshot", "--stats") and word and word.lower() not in ON + OFF and not word.endswith(".toml"):
        return f"`{told}` is no option, and its lines go to the output", f"take it out, and write > {told} behind the words"
    if before in FLAGS and word.lower() in ON + OFF:
        rest = "" if word.lower() in ON else f", and {before} too"
        return f"`{told}` is no option, and {before} has no value", f"take it out{rest}"
    if re.fullmatch("[0-9]+", word):
        return f"`{told}` is no option, and no number is wanted here", "take it out"
    if word in VERBS:
        return f"`{told}` is no option, and a run is what the program makes", "take it out"
    name = word.lstrip("/\u2010\u2011\u2012\u2013\u2014\u2212")
    if re.fullmatch("[A-Za-z]+(?:=.*)?", name) and (meant := meant_by(name)):
        return f"`{told}` is no option: each begins with --", written(meant, name, rest)
    given = f": riptide < {told}" if word and word != "-" else ""
    return f"`{told}` is no option, and no file is named", f"take it out, and give the workload on the input{given}"


def strange(word, is_behind, before, rest):
    """Why a word is none of the five options, and what to change. `before` is the word before it, `rest` are those behind."""
    told = shown(word)
    if any("\udc80" <= letter <= "\udcff" for letter in word):
        return f"`{told}` isn't UTF-8", "write it in UTF-8"
    if is_behind and word.startswith("-") and word != "-":
        return f"`{told}` stands behind `--`, where no option is read", "take the -- out"
    if word in ("--help", "-h", "--version", "-V"):
        return (f"`{told}` isn't taken",
                "take it out; docs/WORKLOAD.md says what is taken, and docs/CHANGELOG.md which version it is")
    if not word.startswith("-") or word == "-":
        return bare(word, before, rest)
    name, _, given = word.partition("=")
    if name[2:] in ("mutator", "mutators"):
        return "mutators stand in the workload", f"take {told} out, and write [[mutator]] in the file for each"
    if name[2:] in (*NUMBERS, "shapes"):
        number = "number" if name[2:] in NUMBERS else "value"
        return (f"`{name[2:]}` is a field of the workload, and no option",
                f"take {told} out, with its {number}, and write {name[2:]} in the file")
    if name in READS + WRITES:
        given = shown(given or next((one for one in rest[:1] if not one.startswith("-")), "FILE"))
        sign, where = (">", "the text goes to the output") if name in WRITES else ("<", "the workload is read from the input")
        why = f"there is no option `{shown(name)}`: {where}"
        return why, f"take it out, with its file, and write {sign} {given} behind the words"
    if re.fullmatch("--no-?(visitors|plain|make|snapshot|stats)", name):
        return f"there is no option `{told}`", "take it out: what no word asks for isn't done"
    if " " in word and word.split(" ")[0] in (*NUMBERED, *FLAGS):
        return f"`{told}` is one word", f"write its words apart, without quotes: {' '.join(told.split())}"
    if meant := meant_by(word):
        return f"there is no option `{told}`", written(meant, word, rest)
    if "=" in word or not rest or rest[0].startswith("-"):
        return f"there is no option `{told}`", "take it out"
    value = shown(rest[0])
    given = "" if re.fullmatch("[0-9]+", rest[0]) else f", and give the workload on the input: riptide < {value}"
    threads = ": mutators and visitors run on up to four threads" if word == "--threads" else ""
    return f"there is no option `{told}`", f"take {told} {value} out{threads or given}"


def words_fault(words):
    """Of the words of a command line: which one, why, and what to change; or None where they are taken."""
    found, at = {}, 0
    while at < len(words):
        place, word, at = at, words[at], at + 1
        name, equals, text = word.partition("=")
        if word == "--":
            return apart_fault(found) if at == len(words) else (at, *strange(words[at], True, None, words[at + 1:]))
        if name not in (*NUMBERED, *FLAGS):
            return place, *strange(word, False, words[place - 1] if place else None, words[at:])
        if name in FLAGS and equals:
            return place, f"`{name}` has no value", "take it out" if text.lower() in OFF else f"write {name} alone"
        if name in found:
            return place, f"`{name}` stands here for the second time", "take one of the two out"
        if name in NUMBERED and not equals:
            if at == len(words) or words[at].startswith("-"):
                is_signed = at < len(words) and re.fullmatch("-[0-9]+", words[at])
                why = f"`{words[at]}` is no number from 0 on" if is_signed else f"no number stands behind `{name}`"
                return place, why, f"write {name} {7 if name == '--make' else 2}"
            text, at = words[at], at + 1
        if name in NUMBERED and (fault := number_fault(name, text)):
            return place, *fault
        found[name] = place
    return apart_fault(found)


def apart_fault(found):
    """Of options that may not stand together."""
    for one, other, why in APART:
        if one in found and other in found:
            return max(found[one], found[other]), f"`{one}` and `{other}` stand together: {why}", f"take {one} or {other} out"
    return None


def words_explained(words):
    """What is said of a command line, line by line, and whether it is taken."""
    fault = words_fault(words)
    if fault is None:
        return ["no fault: these words are taken"], True
    place, why, change = fault
    return [USAGE, f"where:  word {place + 1}: {shown(words[place])}", f"why:    {why}", f"change: {change}"], False
