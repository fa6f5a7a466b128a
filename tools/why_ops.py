"""Why a text is no operation of a workload, or no path of property keys, and what to change. It is for tools/why.py.

Each answer is None, where nothing is wrong, or two sentences: the cause and the change.
"""
import difflib
import re
import sys
from pathlib import Path

from toml_lines import seen

sys.path.append(str(Path(__file__).resolve().parent.parent / "judge"))
from model import FORMS

# the fields with numbers in the order in which they are read: the least and the most of the number, or of each of five
NUMBERS = {
    "registers": (1, 16), "strong": (0, 256), "weak": (0, 256), "blocks": (0, 64), "arrays": (0, 64), "period": (4, 65536),
    "headroom": (1, 1000000), "trigger": (0, 1000000),
}
MOST_REGISTERS, MOST_HANDLES, MOST_KEYS = 16, 256, 64
# what a slot may be, and what other languages write for nothing
SLOT = "write a slot from 0 to 15: a cell has 2, 4, 8 or 16 slots, by its class"
NOTHING = ["null", "nil", "none", "nothing", "empty", "-"]
# what the letters of a form may look like, and an example of each
LOOKS = {"r": "r[0-9]+", "C": "[0-9]+", "K": "[0-9]+", "N": "[0-9]+", "KEY": "(?!r[0-9]+$)[a-z][a-z0-9_]*"}
PLACES = {"rD": 0, "rS": 1, "rT": 1, "rK": 2, "rV": 3}
SHOWN = {"C": "0", "K": "0", "N": "1"}
# what another operation does, by the name and the looks of operands that aren't its own: why, and the operation that is meant
OTHER = [
    ("move", ["r", "N"], "`{1}` is a number, and move copies registers", "to store a number write set {0} {1}"),
    ("set", ["r", "r"], "`{1}` is a register, and set stores a number", "to copy a register write move {0} {1}"),
    ("get", ["r", "r", "KEY"], "`{2}` is no number, and get reads slots", "to read a property write getp {0} {1} {2}"),
    ("put", ["r", "KEY", "r"], "`{1}` is no number, and put stores slots",
     "to store a property write setp {0} {1} {2}, or add {0} {1} {2} where the cell hasn't it yet"),
    ("getp", ["r", "r", "N"], "`{2}` is no key: a key begins with a letter, and a slot is read by get",
     "to read a slot write get {0} {1} {2}"),
    ("setp", ["r", "N", "r"], "`{1}` is no key: a key begins with a letter, and a slot is stored by put",
     "to store a slot write put {0} {1} {2}"),
    ("add", ["r", "N", "r"], "`{1}` is no key: a key begins with a letter, and a slot is stored by put",
     "to store a slot write put {0} {1} {2}"),
    ("pget", ["r", "r", "KEY"], "`{2}` is no register, and pget reads pairs", "to read a property write getp {0} {1} {2}"),
    ("pget", ["r", "r", "N"], "`{2}` is no register, and pget reads pairs", "to read a slot write get {0} {1} {2}"),
    ("group", ["r", "r"], "`{1}` is a register, and a group is a number",
     "write group {0} 1, and group {1} 1 as a text of its own"),
]
# the same of operations that were given more operands, or fewer
LONGER = [
    ("set", ["r", "N", "r"], "set stores a number in a register", "to store a slot write put {0} {1} {2}"),
    ("set", ["r", "KEY", "r"], "set stores a number in a register", "to store a property write setp {0} {1} {2}"),
    ("set", ["r", "r", "N"], "set stores a number in a register", "to read a slot write get {0} {1} {2}"),
    ("set", ["r", "r", "KEY"], "set stores a number in a register", "to read a property write getp {0} {1} {2}"),
    ("move", ["r", "N", "r"], "move copies a register", "to store a slot write put {0} {1} {2}"),
    ("move", ["r", "r", "N"], "move copies a register", "to read a slot write get {0} {1} {2}"),
    ("add", ["r", "N"], "add gives a cell a property, and adds no numbers", "write the number itself, as set {0} {1}"),
]
# names that other stores have for an operation
MEANT = {"new": "alloc", "malloc": "alloc", "read": "get", "load": "get", "write": "put", "store": "put", "copy": "move",
         "clear": "drop", "free": "drop", "delete": "drop", "unset": "drop", "null": "drop", "lock": "claim",
         "unlock": "release", "root": "strong", "pin": "strong", "assign": "move", "gc": "collect", "pput": "pair",
         "link": "put", "handle": "strong", "global": "strong", "static": "strong", "keep": "strong", "hold": "strong",
         "major": "collect", "minor": "collect", "full": "collect", "eden": "collect", "cell": "alloc", "object": "alloc",
         "node": "alloc", "map": "table", "hashmap": "table", "weakmap": "table", "dict": "table", "own": "claim",
         "acquire": "claim", "give": "release", "forget": "drop", "getattr": "getp", "getfield": "getp", "setattr": "setp",
         "setfield": "setp", "sset": "strong", "setstrong": "strong", "strongget": "sget", "getstrong": "sget", "wset": "weak",
         "setweak": "weak", "deref": "wget", "getweak": "wget", "opaque": "group", "cycle": "collect"}
# names whose operands tell what is meant: by their looks the operation, which takes them all and {empty} for an empty register
MEANT_BY = {
    **dict.fromkeys(("del", "delete", "remove", "unset", "erase", "delp"), [
        (["r", "KEY"], "setp {0} {1} {empty}"), (["r", "N"], "put {0} {1} {empty}"), (["r", "r"], "pdel {0} {1}"),
    ]),
    "pset": [(["r", "r", "r"], "pair {0} {1} {2}"), (["r", "KEY", "r"], "setp {0} {1} {2}")],
    **dict.fromkeys(("insert", "map"), [(["r", "r", "r"], "pair {0} {1} {2}")]),
    "prop": [(["r", "KEY", "r"], "setp {0} {1} {2}"), (["r", "r", "KEY"], "getp {0} {1} {2}")],
    "ungroup": [(["r"], "group {0} 0")],
}
# names of what no operation does, and of what a handle of this kind does with an empty register
WAITS = ["sleep", "wait", "yield", "join", "pause", "sync", "barrier", "freeze"]
ENDS = ["retire", "end", "exit", "quit", "halt", "stop", "return"]
EMPTIES = {"unstrong": "strong", "unroot": "strong", "unpin": "strong", "sdrop": "strong", "sclear": "strong", "sdel": "strong",
           "unweak": "weak", "wdrop": "weak", "wclear": "weak", "wdel": "weak"}
# names of what a workload hasn't: why, and what to change
TELLS = ["assert", "expect", "check", "print", "log", "echo", "dump", "show", "trace", "debug"]
HAS_NOT = [
    (["for", "while", "loop", "repeat", "times", "until", "do", "if", "else", "when", "def", "macro"],
     "no operation repeats others or chooses", "write each call as a text of its own, as often as it is meant"),
    (TELLS, "what a call is answered stands in the printed text", "take it out"),
    (["inc", "dec", "incr", "decr", "sub", "mul", "div", "plus"], "no operation counts", "write the number itself, as set r0 1"),
    (["mark", "sweep", "visit", "safepoint"], "a cycle marks and sweeps by itself", "take it out, or write collect"),
    (["nop", "noop", "pass", "skip", "idle"], "each operation is a call",
     "take it out, or write move r0 r0, which changes nothing"),
]
# a statement of another language, and the operation that does what it says
STATEMENTS = [
    (r"(r[0-9]+) *:?= *(r[0-9]+)", "move {0} {1}"),
    (r"(r[0-9]+) *:?= *([0-9]+)", "set {0} {1}"),
    (r"(r[0-9]+) *:?= *(?:-|nil|null|none|empty)", "drop {0}"),
    (r"(r[0-9]+) *:?= *(r[0-9]+)\[([0-9]+)\]", "get {0} {1} {2}"),
    (r"(r[0-9]+)\[([0-9]+)\] *:?= *(r[0-9]+)", "put {0} {1} {2}"),
    (r"(r[0-9]+) *:?= *(r[0-9]+)\[(r[0-9]+)\]", "pget {0} {1} {2}"),
    (r"(r[0-9]+)\[(r[0-9]+)\] *:?= *(r[0-9]+)", "pair {0} {1} {2}"),
    (r"(r[0-9]+) *:?= *(r[0-9]+)\.([0-9]+)", "get {0} {1} {2}"),
    (r"(r[0-9]+)\.([0-9]+) *:?= *(r[0-9]+)", "put {0} {1} {2}"),
    (r"s(?:trong)? ?\[?([0-9]+)\]? *:?= *(r[0-9]+)", "strong {0} {1}"),
    (r"(r[0-9]+) *:?= *s(?:trong)? ?\[?([0-9]+)\]?", "sget {0} {1}"),
    (r"w(?:eak)? ?\[?([0-9]+)\]? *:?= *(r[0-9]+)", "weak {0} {1}"),
    (r"(r[0-9]+) *:?= *w(?:eak)? ?\[?([0-9]+)\]?", "wget {0} {1}"),
    (r"(r[0-9]+) *:?= *(r[0-9]+)\.([a-z][a-z0-9_]*)", "getp {0} {1} {2}"),
    (r"(r[0-9]+)\.([a-z][a-z0-9_]*) *:?= *(r[0-9]+)", "setp {0} {1} {2}"),
]
# what stands in front of a statement elsewhere
DECLARED = "(?:(?:let|const|var|auto|local|mut|final|int|number|ref) +)*"
# of an operand that is a number: what it is of
OF_NUMBERS = {"C": "a class", "K": "a slot or a handle", "N": "a number"}


def near(name, names, least=0.6):
    """The name of these that is meant, if any is near."""
    for known in names:
        if name.lower() == known:
            return known
    return next(iter(difflib.get_close_matches(name.lower(), names, 1, least)), None)


def quoted(text, most=80):
    """A text as a workload has it, cut where it is long."""
    names = {"\n": "\\n", "\r": "\\r", "\t": "\\t", '"': '\\"', "\\": "\\\\"}
    shown = "".join(names.get(letter) or seen(letter) for letter in text[:most])
    return f'"{shown}{"..." if len(text) > most else ""}"'


def instead(text, otherwise):
    """What to change where this text is meant: to write it, if it can be shown whole."""
    return f"write {quoted(text)}" if len(text) <= 80 and re.fullmatch(r"[\x20-\x7e]+", text) else otherwise


def end_of(text):
    """At which end of a text a space stands."""
    return "front" if text[0] == " " else "end"


def span(letter, count):
    """The names from the first to the last of so many."""
    return f"{letter}0" if count == 1 else f"{letter}0 to {letter}{count - 1}"


def numeral(word, change="write decimal digits alone"):
    """Of a word that is to be a number of 32 bits."""
    told = seen(word)
    if re.fullmatch("[0-9]{1,10}", word):
        return None if int(word) < 2**32 else (f"{told} is more than 4294967295", "write a smaller number")
    if re.fullmatch("[+-][0-9]+", word):
        signless = f"write {told[1:]}" if word[0] == "+" else "write a number from 0 on"
        return f"`{told}` has a sign, and numbers have none", signless
    if re.fullmatch("[0-9]+", word):
        return f"`{told}` has {len(word)} digits, and a number ten at most", "write it with fewer"
    if not word:
        return "its number is missing", "write a number"
    return f"`{told}` is no number in decimal", change


# paths


def key_fault(word):
    """Of a word of a path."""
    told = seen(word)
    if re.fullmatch("[a-z][a-z0-9_]{0,15}", word):
        return None
    if not re.fullmatch(r"[\x21-\x7e]+", word):
        return (f"`{told}` has a character that no key has",
                "part keys by spaces alone, and take letters from a to z, digits and _")
    if not re.search("[A-Za-z0-9_]", word):
        return f"`{told}` is no key", f"take {told} out: spaces alone part keys"
    if other := re.search("[^A-Za-z0-9_]", word):
        change = "write _ in its place" if other[0] in "-./" and other.start() else "take letters from a to z, digits and _"
        parted = ", or a space, where two keys are meant" if other[0] in "./" and other.start() else ""
        return f"`{told}` has a `{other[0]}`", change + parted
    if re.search("[A-Z]", word):
        return f"`{told}` has a capital", f"write {told.lower()}"
    if not re.match("[a-z]", word):
        return f"`{told}` doesn't begin with a letter", "begin it with a letter from a to z"
    return f"`{told}` has {len(word)} bytes, and a key 16 at most", "shorten it"


def path_fault(text):
    """Of a text that is to be a path."""
    words = [word for word in text.split(" ") if word]
    if not words:
        return "it has no key", "write its keys with spaces between, or take it out"
    if text != text.strip(" "):
        return f"a space stands at its {end_of(text)}", instead(text.strip(" "), "take it out")
    if re.fullmatch(r"\w+ *:[^:,;]*(?:[,;] *\w+ *:[^:,;]*)*", text):
        keys = " ".join(re.findall(r"(\w+) *:", text))
        return "a `:` stands in it, and a key has no type", f"write its keys alone: {quoted(keys)}"
    if parted := re.search("[,;]", text):
        spaced = " ".join(re.sub("[,;]", " ", text).split())
        change = f"part keys by spaces: {quoted(spaced)}" if len(spaced) <= 80 else "part keys by spaces"
        return f"a `{parted[0]}` stands in it", change
    if len(words) > MOST_KEYS:
        return f"it has {len(words)} keys, and a path {MOST_KEYS} at most", "make it shorter"
    return next(filter(None, map(key_fault, words)), None)


# operands


class Limits:
    """What the operands of a workload's operations may be: its settings and its keys, each with the line that gives it."""

    def __init__(self, settings, keys):
        self.settings, (self.keys, self.keys_line) = settings, keys

    def register(self, word, form="rD"):
        count, line = self.settings["registers"]
        told, write = seen(word), f"write a register, {span('r', count)}"
        if re.fullmatch("R[0-9]+", word):
            return f"`{told}` has a capital", f"write {told.lower()}"
        if re.fullmatch("[0-9]+", word):
            change = f"a register begins with an r: write r{word}" if len(word) < 3 and int(word) < count else write
            stored = "; a number gets into one by set" if form == "rV" else ""
            return f"`{told}` is no register", change + stored
        if word.lower() in NOTHING and form == "rV":
            return f"`{told}` is no register", f"to store nothing {write}, that is empty, as drop r{count - 1} leaves it"
        if not word.startswith("r"):
            return f"`{told}` is no register", write
        if fault := numeral(word[1:]):
            return f"`{told}` is no register: {fault[0]}", write
        number = int(word[1:])
        if number < count:
            return None
        more = f", or registers = {number + 1} on line {line}" if number < MOST_REGISTERS else ""
        return f"{told} is no register: `registers = {count}` on line {line} gives {span('r', count)}", write + more

    def cell_class(self, word):
        if fault := numeral(word, "write a class from 0 to 3"):
            return fault
        if int(word) == 4:
            return "class 4 is that of tables, which `alloc` doesn't take", "write table and the register alone"
        if int(word) in (8, 16):
            change = f"a cell of {int(word)} slots is of class {[8, 16].index(int(word)) + 2}: write that"
            return f"no cell has class {int(word)}, and a class is no number of slots", change
        return None if int(word) < 4 else (f"no cell has class {int(word)}", "write a class from 0 to 3")

    def slot(self, word):
        if fault := numeral(word, SLOT):
            return fault
        return None if int(word) < 16 else (f"no cell has a slot {int(word)}", SLOT)

    def handle(self, field, word):
        count, line = self.settings[field]
        if fault := numeral(word, f"write the number of a {field} handle, as 0"):
            return fault
        number = int(word)
        if number < count:
            return None
        give = f"{field} = {number + 1}" if number < MOST_HANDLES else None
        if not count:
            stands = "isn't given" if line is None else f"is 0 on line {line}"
            where = "above the first [[mutator]]" if line is None else f"on line {line}"
            return f"there is no {field} handle: `{field}` {stands}", f"write {give or f'{field} = 1'} {where}"
        return (f"{field} handle {number} isn't there: `{field} = {count}` on line {line} gives {span('', count)}",
                f"write a handle, {span('', count)}" + (f", or {give} on line {line}" if give else ""))

    def key(self, word):
        if word in self.keys:
            return None
        told, line = seen(word), self.keys_line
        if not self.keys:
            stands = "isn't given" if line is None else f"names none on line {line}"
            where = "above the first [[mutator]]" if line is None else f"on line {line}"
            path = word if key_fault(word) is None else "name"
            return f"`{told}` is no key: `shapes` {stands}", f'write shapes = ["{path}"] {where}'
        meant = near(word, self.keys)
        listed = ", ".join(self.keys[:8]) + (", ..." if len(self.keys) > 8 else "")
        change = f"write {meant}" if meant else "name a key of `shapes`"
        if not meant and key_fault(word) is None:
            change = f"add {told} to a path of `shapes`, behind the keys that the cell has by then, or name a key of it"
        return f"`{told}` is no key of `shapes` on line {line}: {listed}", change

    def operand(self, name, form, word):
        """Of a word that stands for this letter of an operation's form."""
        if form.startswith("r"):
            return self.register(word, form)
        if form == "K" and name not in ("get", "put"):
            return self.handle("strong" if name in ("strong", "sget") else "weak", word)
        if name == "group" and word.lower() in NOTHING:
            return f"`{seen(word)}` is no number", "write 0: group 0 is none"
        return {"C": self.cell_class, "K": self.slot, "KEY": self.key, "N": numeral}[form](word)

    def operands(self, name, words):
        """Of as many words as the operation has operands."""
        forms = FORMS[name].split()
        if not look_right(forms, words):
            for form, word in zip(forms, words):
                named = re.fullmatch(r"(?!r\d)[a-z]+_?(\d{1,3})|<(\d+)>", word)
                if named and form in OF_NUMBERS and word not in self.keys:
                    why = f"`{seen(word)}` stands for {OF_NUMBERS[form]}, which is a number alone"
                    return why, f"write {named[1] or named[2]}"
            if fault := other_fault(OTHER, name, words):
                return fault
            for order in orders(words):
                if look_right(forms, order):
                    return (f"its operands stand in another order than {name} {FORMS[name]}",
                            f"write {name} {' '.join(order)}, if that is meant")
        faults = [self.operand(name, form, word) for form, word in zip(forms, words)]
        return next(filter(None, faults), None)

    def example(self, name):
        """An operation of this name, with registers and a key that the workload has."""
        last = self.settings["registers"][0] - 1
        shown = {form: f"r{min(place, last)}" for form, place in PLACES.items()}
        shown.update(SHOWN, KEY=self.keys[0] if self.keys else "name")
        return " ".join([name, *(shown[form] for form in FORMS[name].split())])


def other_fault(rows, name, words):
    """Of operands that are those of another operation, by the rows of a table."""
    for other, looks, why, change in rows:
        if name == other and len(looks) == len(words) and look_right(looks, words):
            return why.format(*map(seen, words)), change.format(*map(seen, words))
    return None


def look_right(forms, words):
    """Whether each word looks like what stands in its place."""
    return all(re.fullmatch(LOOKS[form[0] if form[0] == "r" else form], word) for form, word in zip(forms, words))


def is_formed(words):
    """Whether these are the name of an operation and as many words as it has operands, each of which looks right."""
    forms = FORMS[words[0]].split() if words and words[0] in FORMS else None
    return forms is not None and len(words) == 1 + len(forms) and look_right(forms, words[1:])


def orders(words):
    """The orders of at most three words."""
    if len(words) < 2:
        return [words]
    return [[one, *rest] for at, one in enumerate(words) for rest in orders(words[:at] + words[at + 1:])]


# texts


def parted(text, letter):
    """Of a text with one of the letters that part nothing."""
    why = f"a `{letter}` stands in it, and words are parted by spaces alone"
    for statement, operation in STATEMENTS:
        if stated := re.fullmatch(DECLARED + statement, text):
            meant = quoted(operation.format(*stated.groups()))
            return f"a `{letter}` stands in it, and an operation is its name and its operands", f"write {meant}"
    assigned = re.fullmatch(DECLARED + r"(r[0-9]+) *:?= *([a-z]+)[ (]*([^()]*)\)?", text)
    if made := re.fullmatch(DECLARED + r"(r[0-9]+) *:?= *(?:new )?(?:cell|object|node|alloc)(?: *\(? *([0-3]) *\)?)?", text):
        return why, f"write {quoted(f'alloc {made[1]} {made[2] or 0}')}"
    if assigned and assigned[2] in FORMS:
        words = [assigned[2], assigned[1], *re.split("[ ,]+", assigned[3])]
        return why, instead(" ".join(words).strip(" "), "write the register behind the operation")
    if re.search(r" [0-9]{1,3}(?:,[0-9]{3})+$", text):
        return f"a `{letter}` stands in it, and a number has none", instead(text.replace(",", ""), "take it out")
    name, *words = text.split()
    is_named = any(re.fullmatch("[a-z]+=[a-z0-9]+", one) for one in words)
    if is_named and name in FORMS and len(words) == len(FORMS[name].split()):
        return why, instead(" ".join([name, *(re.sub("^[a-z]+=", "", word) for word in words)]), f"take the {letter} out")
    text = re.sub(r"\br\[(\d+)\]", r"r\1", text)
    pieces = [" ".join(re.sub(r"[,;()=\[\]]", " ", piece).split()) for piece in re.split("[,;]", text)]
    if letter == "," and len(FORMS.get(name, "").split()) == 1 and all(re.fullmatch("r[0-9]+", one) for one in pieces[1:]):
        pieces[1:] = [f"{name} {one}" for one in pieces[1:]]
    if several := texts_in(pieces):
        return f"{why}, and texts by commas", several
    return why, instead(" ".join(" ".join(pieces).split()), f"take the {letter} out")


def texts_in(pieces):
    """What to change where several operations stand in one text, if they do."""
    given = [piece.strip() for piece in pieces if piece.strip()]
    if len(given) > 1 and all(piece.split()[0] in FORMS for piece in given):
        return f"write them as texts: {', '.join(map(quoted, given[:8]))}" + (", ..." if len(given) > 8 else "")
    return None


def copied(text):
    """Of a text that was copied from a printed one: it has a reply, or a cell's number among its operands, or is no call."""
    if re.fullmatch(r"mutator \d+|retire = ok|cycle \d+ kept .*|live \d+|(?:stats|cell) #?\d.*", text):
        return "it is a printed line, and no operation", "take it out"
    call = re.fullmatch("([a-z]+(?: [^=#]*?)?) (=|->|=>) [^=]*", text)
    name, *words = call[1].split(" ") if call else [""]
    if name in FORMS and len(words) == len(FORMS[name].split()):
        return f"it is a printed line, with its reply behind the `{call[2]}`", instead(call[1], "take the reply out")
    if cell := re.search("(?:^| )(#[0-9]+)(?: |$)", text):
        name, *words = text[:cell.start()].split(" ")
        if name in FORMS and len(words) < len(FORMS[name].split()):
            if of := OF_NUMBERS.get(FORMS[name].split()[len(words)]):
                return (f"`{cell[1]}` stands for {of}, and is a cell in a printed text",
                        instead(text.replace(cell[1], cell[1][1:]), f"write {cell[1][1:]}"))
            return (f"`{cell[1]}` is a cell in a printed text, and a file has no names for cells",
                    "write a register that holds it: alloc, get or wget puts it into one")
    return None


def text_fault(text):
    """Of the characters of a text."""
    if not text.strip(" "):
        return "it has nothing but spaces" if text else "it is empty", "write an operation, or take the text out"
    if text != text.strip(" "):
        return f"a space stands at its {end_of(text)}", instead(text.strip(" "), "take it out")
    if other := re.search(r"[^\x20-\x7e]", text):
        if other[0].isspace():
            what = {"\t": "a tab", "\n": "a newline", "\r": "a carriage return"}.get(other[0])
            what = what or f"the character {seen(other[0])}"
            spaced = instead(" ".join(text.split()), "write a space in its place")
            several = texts_in(re.split("[\r\n,;]+", text))
            return f"{what} stands in it, and words are parted by spaces alone", several or spaced
        without = " ".join(re.sub(r"[^\x20-\x7e]", "", text).split())
        change = instead(without, "take it out") if not other[0].isprintable() else "write letters, digits and spaces alone"
        return f"the character {seen(other[0])} stands in it", change
    if fault := copied(text):
        return fault
    comment = re.search("(?:^| )(#|//|--)", text)
    if comment and text.split(" ")[0] not in TELLS:
        before = text[:comment.start()].rstrip(" ,;")
        return f"a comment stands in it, behind a `{comment[1]}`" if before else "it is a comment", \
            f'write {quoted(before)}, and # and the comment behind it' if before else "write # in front of its quote"
    if other := re.search(r"[,;()=\[\]]", text):
        return parted(text, other[0])
    return None


def name_fault(name, words, limits):
    """Of the first word of a text."""
    if name in FORMS:
        return None
    told = seen(name)
    if name.lower() in FORMS:
        return f"`{told}` has a capital", f"write {told.lower()}"
    if name.lower() in ENDS:
        return f"no operation is named `{told}`: a mutator retires by itself, after its last one", "take it out"
    empty = f"r{limits.settings['registers'][0] - 1}"
    if kind := EMPTIES.get(name.lower()):
        handle = words[0] if words and re.fullmatch("[0-9]+", words[0]) else "0"
        return (f"no operation is named `{told}`: a handle is emptied by {kind}, with an empty register",
                f"write {kind} {handle} {empty}, where {empty} is empty, as drop {empty} leaves it")
    if name.lower() in WAITS:
        return f"no operation is named `{told}`: mutators wait for each other where a part ends, and nowhere else", "take it out"
    if (run := re.fullmatch("([a-z]+?)(r?[0-9].*)", name)) and run[1] in FORMS:
        return f"no space stands behind `{run[1]}`", instead(" ".join([run[1], run[2], *words]), "write one there")
    for moved in ([*words[:1], name, *words[1:]], words, [*name.split("_"), *words]):
        if is_formed(moved):
            return f"no operation is named `{told}`", instead(" ".join(moved), f"write {moved[0]} in front")
    if has_not := next(((why, change) for names, why, change in HAS_NOT if name.lower() in names), None):
        return f"no operation is named `{told}`: {has_not[0]}", has_not[1]
    for looks, shape in MEANT_BY.get(name.lower(), []):
        if len(looks) == len(words) and look_right(looks, words):
            with_empty = f", where {empty} is empty, as drop {empty} leaves it" if "{empty}" in shape else ""
            return f"no operation is named `{told}`", f"write {shape.format(*map(seen, words), empty=empty)}{with_empty}"
    meant = MEANT.get(name.lower()) or near(re.sub("[^A-Za-z].*", "", name), list(FORMS), 0.7)
    if meant:
        fits = len(words) == len(FORMS[meant].split()) and not limits.operands(meant, words)
        shown = " ".join([meant, *words]) if fits else limits.example(meant)
        return f"no operation is named `{told}`", f"write {meant}, if that is meant, as {shown}"
    return f"no operation is named `{told}`", f"write one of {', '.join(FORMS)}"


def op_fault(text, limits):
    """Of a text that is to be an operation."""
    if fault := text_fault(text):
        return fault
    name, *words = [word for word in text.split(" ") if word]
    if fault := name_fault(name, words, limits):
        return fault
    form, count = FORMS[name], len(FORMS[name].split())
    if len(words) == count:
        return limits.operands(name, words)
    second = next((place for place, word in enumerate(words) if word in FORMS and word not in limits.keys), None)
    if second == count < len(words):
        parts = [" ".join([name, *words[:second]]), " ".join(words[second:])]
        return "two operations stand in one text", f"write them as two texts: {', '.join(map(quoted, parts))}"
    if fault := other_fault(LONGER, name, words):
        return fault
    loosened = [word for word in re.sub(r"->|=>|[.:]", " ", text).split(" ") if word]
    if is_formed(loosened):
        return "words are parted by spaces alone", instead(" ".join(loosened), "take the other signs out")
    has = f"{count} operand{'s'[:count != 1]}, {form}" if count else "no operand"
    stand = f"{len(words)} stand{'s'[:len(words) == 1]} here" if words else "none stands here"
    change = f"write {name} {form}, as {limits.example(name)}" if count else f"write {name} alone"
    slots = {"2": 0, "4": 1, "8": 2, "16": 3}
    if name == "unclaim":
        change += ", which gives up the oldest claim"
        if re.fullmatch("r[0-9]+", words[0]):
            change = f"write release {words[0]}, or unclaim alone, which gives up the oldest claim"
    elif name == "collect" and words[0].lower() in ("eden", "minor", "young"):
        change += ": what is asked for is full, and Eden cycles begin by `trigger`"
    elif name == "alloc" and len(words) == 3 and words[2].startswith("slot") and words[1] in slots:
        change = f"a cell of {words[1]} slots is of class {slots[words[1]]}: write alloc {words[0]} {slots[words[1]]}"
    return f"`{name}` has {has}, and {stand}", change
