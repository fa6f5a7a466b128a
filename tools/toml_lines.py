"""Reads a TOML document and keeps the line on which each value stands, or tells where it is none, why, and what to change.

It is for tools/why.py, which explains why a workload is refused. It reads version 1.1, as docs/WORKLOAD.md says the program
does: a nest may be 80 deep, a name may have 80 parts, an integer has 64 bits. A value is a `Value`, with its kind, its data
(a Python number, text, list of values, or dictionary from name to value) and its line. A document that is none is a `NotToml`.
"""
import bisect
import datetime
import re

DEPTH = 80
BLANK = re.compile(r"(?:[ \t\n]|\r\n|#[\t\x20-\x7e\x80-\U0010ffff]*)*")
SPACES = re.compile(r"[ \t]*")
BARE = re.compile(r"[A-Za-z0-9_-]+")
WORD = re.compile(r"[A-Za-z0-9+\-_.:]+(?: (?=[0-9])[A-Za-z0-9+\-_.:]+)?")
INTEGER = re.compile(r"[+-]?(?:0|[1-9](?:_?[0-9])*)|0x[0-9A-Fa-f](?:_?[0-9A-Fa-f])*|0o[0-7](?:_?[0-7])*|0b[01](?:_?[01])*")
FLOAT = re.compile(r"[+-]?(?:inf|nan|(?:0|[1-9](?:_?[0-9])*)(?:\.[0-9](?:_?[0-9])*)?(?:[eE][+-]?[0-9](?:_?[0-9])*)?)")
TIME = r"(\d\d):(\d\d)(?::(\d\d)(?:\.\d+)?)?"
DATE = re.compile(rf"(?:(\d{{4}})-(\d\d)-(\d\d)(?:[Tt ]{TIME}(?:[Zz]|[+-](\d\d):(\d\d))?)?|{TIME})")
PLAIN = {
    '"': re.compile(r'[^"\\\x00-\x08\x0a-\x1f\x7f]*'), "'": re.compile(r"[^'\x00-\x08\x0a-\x1f\x7f]*"),
    '"""': re.compile(r'(?:[^"\\\x00-\x08\x0b-\x1f\x7f]|\r\n)*'), "'''": re.compile(r"(?:[^'\x00-\x08\x0b-\x1f\x7f]|\r\n)*"),
}
ESCAPES = {"b": "\b", "e": "\x1b", "f": "\f", "n": "\n", "r": "\r", "t": "\t", '"': '"', "\\": "\\"}
HEX = {"x": 2, "u": 4, "U": 8}
CLOSING = {"[": "]", "{": "}"}
OTHER_QUOTES = "“”„‘’‚«»`´"
# what begins a comment elsewhere; a field behind a value on its line; and the header of a mutator
COMMENT = re.compile(r"//|/\*|--|%|;")
FIELD = re.compile(r"[A-Za-z_][A-Za-z0-9_-]*[ \t]*=[^=]")
LIST_HEADER = re.compile(r"\[\[[ \t]*(?!true|false|inf|nan)[A-Za-z_][A-Za-z0-9_-]*[ \t]*\]\]")


def seen(text, most=40):
    """A piece of the file as it is told: what isn't printable ASCII by its number, and cut where it is long."""
    told = re.sub(r"[^\x20-\x7e]", lambda found: f"U+{ord(found[0]):04X}", text[:most])
    return told + ("..." if len(text) > most else "")


class NotToml(Exception):
    """A line of a document, what is wrong there, and what to change."""

    def __init__(self, line, why, change):
        super().__init__(why)
        self.line, self.why, self.change = line, why, change


class Value:
    """A value, with the line on which it begins and that of its name. Of a table that isn't written in braces `origin` tells
    what made it: its own header, another one that passed through it, or a dotted name."""

    def __init__(self, kind, data, line, origin=None):
        self.kind, self.data, self.line, self.named, self.origin = kind, data, line, line, origin


class Reader:
    def __init__(self, text, wanted):
        # `wanted` has what to write where a word is the value of a field with numbers, and `field` is the one that is read
        self.wanted, self.field = wanted, None
        # `open` has the places where the lists and the tables in braces begin that aren't closed yet
        self.text, self.place, self.open = text.removeprefix("\ufeff"), 0, []
        self.newlines = [place.start() for place in re.finditer("\n", self.text)]

    def line(self, place=None):
        return bisect.bisect_left(self.newlines, self.place if place is None else place) + 1

    def fail(self, why, change, place=None):
        raise NotToml(self.line(place), why, change)

    def take(self, pattern):
        found = pattern.match(self.text, self.place)
        self.place = found.end() if found else self.place
        return found and found.group()

    def next(self, count=1):
        return self.text[self.place:self.place + count]

    # what stands between the parts of a document

    def skip_blank(self):
        self.take(BLANK)

    def rest_of_line(self, place=None):
        place = self.place if place is None else place
        return self.text[place:].split("\n", 1)[0].strip(" \t\r")

    def end_line(self, after, start):
        self.take(SPACES)
        if self.next() not in ("", "\n", "#", "\r"):
            rest = self.rest_of_line()
            before = self.text[start:self.place].rstrip(" \t")
            self.fail(f"after {after} stands `{seen(rest)}`", behind(before, rest, after == "the header"))

    # names

    def part(self):
        if self.next() in ('"', "'"):
            return self.string(self.next())
        name = self.take(BARE)
        if name is None:
            self.no_return()
            found = self.rest_of_line()
            if unseen(found):
                self.fail(f"the character {seen(found[0])} stands here", no_character(found[0]))
            self.fail(f"a name is wanted here, and not `{seen(found)}`" if found else "a name is wanted here", no_name(found))
        return name

    def name(self):
        start, parts = self.place, [self.part()]
        self.take(SPACES)
        while self.next() == ".":
            self.place += 1
            self.take(SPACES)
            parts.append(self.part())
            self.take(SPACES)
        if len(parts) > DEPTH:
            self.fail(f"the name has {len(parts)} parts", f"a name may have {DEPTH}", start)
        return parts

    # strings

    def string(self, quote):
        start, pieces = self.place, []
        self.place += len(quote)
        if len(quote) == 3:
            self.take(re.compile(r"\r?\n"))
        while True:
            pieces.append(self.take(PLAIN[quote]))
            if self.next(len(quote)) == quote:
                run = len(self.take(re.compile(re.escape(quote[0]) + "*"))) if len(quote) == 3 else 1
                if run > 5:
                    self.fail("too many quotes stand here", "end the text with three quotes")
                if len(quote) == 1:
                    self.place += 1
                return "".join(pieces) + quote[0] * (run - len(quote) if len(quote) == 3 else 0)
            if self.next() == quote[0]:
                pieces.append(self.take(re.compile(re.escape(quote[0]) + "{1,2}")))
            elif self.next() == "\\":
                pieces.append(self.escape(len(quote) == 3))
            elif self.next() in ("", "\n", "\r"):
                shown = self.rest_of_line(start)
                change = f"close it with {quote}" + (", before the comma" if shown.endswith(",") else "")
                if shown.rstrip(",;] ").endswith(other := "'" if quote == '"' else '"'):
                    change = f"close it with {quote}, in place of {other}"
                self.fail(f"the text that begins with `{seen(shown)}` has no closing {quote}", change, start)
            else:
                self.fail(f"the character {seen(self.next())} stands in a text", "take it out")

    def escape(self, many):
        start = self.place
        if many and (cut := re.compile(r"\\[ \t]*\r?\n(?:[ \t\n]|\r\n)*").match(self.text, self.place)):
            self.place = cut.end()
            return ""
        letter = self.text[self.place + 1:self.place + 2]
        self.place += 2
        if letter in ESCAPES and letter:
            return ESCAPES[letter]
        digits = self.next(HEX.get(letter, 0))
        if digits and re.fullmatch(f"[0-9A-Fa-f]{{{HEX[letter]}}}", digits):
            code = int(digits, 16)
            if code < 0xD800 or 0xE000 <= code < 0x110000:
                self.place += len(digits)
                return chr(code)
        escape = seen(f"\\{letter}{digits}")
        self.fail(f"`{escape}` is no escape" if letter not in HEX else f"`{escape}` is no character",
                  "take the backslash out", start)

    # values

    def value(self, depth=DEPTH):
        start, first = self.place, self.next()
        if first and first in "\"'":
            quote = first * 3 if self.next(3) == first * 3 else first
            return Value("string", self.string(quote), self.line(start))
        if first and first in "[{" and not depth:
            self.fail(f"lists and tables are nested more than {DEPTH} deep", "take some of them out")
        if first == "[":
            return Value("array", list(self.items(start, depth - 1)), self.line(start))
        if first == "{":
            return self.braces(start, depth - 1)
        word = self.take(WORD)
        if word is None:
            return self.no_value(first)
        return Value(*self.scalar(word, start), self.line(start))

    def no_value(self, first):
        found = self.rest_of_line()
        why = f"`{seen(found)}` is no value"
        if first and first in OTHER_QUOTES:
            self.fail(f"the quote {seen(first)} is no quote of TOML", 'write a straight one: "')
        if unseen(found):
            self.fail(f"the character {seen(first)} stands where a value is wanted", no_character(first))
        if first in ("", "\n", "\r", "#"):
            self.fail("a value is missing here", "write one behind the equals sign")
        if first == "=":
            self.fail("two equals signs stand here", "write one")
        if first == ",":
            self.fail("a comma stands where a value is wanted", "take the comma out")
        if self.open and first in "})":
            self.fail(why, f"write {CLOSING[self.text[self.open[-1]]]} in place of {first}")
        if first == ">":
            self.fail(why, "take the > out")
        if first == "(":
            self.fail(why, "write [ and ] in place of ( and )")
        if found == ";":
            self.fail(why, "take the ; out")
        if COMMENT.match(found):
            self.fail(why, f"a comment begins with #: write # in place of {COMMENT.match(found)[0]}")
        self.fail(why, "write a number, a text in quotes, or a list in brackets")

    def scalar(self, word, start):
        if word.lower() in ("true", "false") and word != word.lower() and self.field in self.wanted:
            return self.no_number(word, start)
        if word in ("true", "false"):
            return "boolean", word == "true"
        if INTEGER.fullmatch(word):
            # a decimal number of more than 100 characters begins with no 0 and has 50 digits at least
            based = word[:2] in ("0x", "0o", "0b")
            number = 2**63 if len(word) > 100 and not based else int(word.replace("_", ""), 0 if based else 10)
            if not -2**63 <= number < 2**63:
                self.fail(f"{seen(word)} is too large for the 64 bits of TOML", "write a smaller number", start)
            return "integer", number
        if FLOAT.fullmatch(word):
            number = float(word.replace("_", ""))
            if abs(number) != float("inf") or "inf" in word:
                return "float", number
        if re.fullmatch(r"[+-]?0[0-9_]+", word):
            sign, digits = word[:word[0] in "+-"], word.lstrip("+-0_").replace("_", "") or "0"
            self.fail(f"{seen(word)} begins with a 0", f"write {seen(sign + digits)}", start)
        if re.match(r"\d+[-:]", word):
            if (date := DATE.fullmatch(word)) and is_date(date.groups()):
                return "date", word
            self.fail(f"`{seen(word)}` is no date", "write 2026-01-31, or a text in quotes", start)
        return self.no_scalar(word, start)

    def no_number(self, word, start):
        """The fault of a word that stands for a number."""
        change = self.wanted[self.field]
        if self.field in ("blocks", "arrays") and not self.open:
            change = f"write five numbers in brackets: {self.field} = [1, 0, 0, 0, 1]"
        self.fail(f"`{seen(word)}` is no value", change, start)

    def no_scalar(self, word, start):
        """The fault of a word that is no value."""
        why, listed = f"`{seen(word)}` is no value", self.open and self.text[self.open[-1]] == "["
        first, _, second = word.partition(" ")
        if second and re.fullmatch(r"[0-9.]+", first):
            why = f"no comma stands between `{seen(first)}` and `{seen(second)}`"
            numbers = re.match(r"[0-9. ]+", self.text[start:])[0].split()
            if not listed and re.fullmatch(r"[0-9]{1,3}(?: [0-9]{3})+", " ".join(numbers)):
                self.fail(why, f"a number has no space within: write {seen(''.join(numbers))}", start)
            brackets = f"write the values in brackets, with commas: [{seen(', '.join(numbers))}]"
            self.fail(why, "part the values by commas" if listed else brackets, start)
        if second and first in ("-", "+", ":"):
            self.fail(why, f"write {'-' * (first == '-')}{seen(second)}", start)
        if word.startswith("--"):
            self.fail(why, "a comment begins with #: write # in place of --", start)
        if re.fullmatch(r"[0-9]+\.", word):
            self.fail(why, f"write {seen(word[:-1])}", start)
        if not word.strip("."):
            self.fail(why, "take it out: each value is written", start)
        if word.lower() in ("true", "false"):
            self.fail(why, f"write {word.lower()}", start)
        if word[0] in "0123456789+-.":
            self.fail(why, "write the number in digits alone", start)
        if self.field in self.wanted:
            self.no_number(word, start)
        item = re.match(r"(?:\([^()\r\n]*\)|[^,;\]}#\r\n])*", self.rest_of_line(start))[0].replace('"', "").strip(" \t")
        self.fail(f"`{seen(item)}` is no value", f'write it in quotes: "{seen(item, 80)}"', start)

    def after_item(self, closing, start, what, item=None):
        """To the next value of a list or a table in braces that begins at `start`, behind the value that begins at `item`."""
        end = self.place
        self.skip_blank()
        if self.next() == ",":
            self.place += 1
            return
        if self.next() == closing:
            return
        self.unclosed(start)
        self.no_return()
        found = self.rest_of_line()
        if not found and self.place >= len(self.text):
            self.fail(f"the {what} that begins here has no closing {closing}", f"close it with {closing}", start)
        whose = f"of the {what} that begins on line {self.line(start)}"
        if item is not None and end == self.place and self.text[item] in "\"'" and found[0].isalnum():
            why = f"behind a text {whose} stands `{seen(found)}`: a quote ends the text"
            self.fail(why, self.inner_quotes(item, end), end)
        change = f"write a comma behind the value, or {closing} where the {what} ends"
        if found[0] in "]})":
            change = f"write {closing} in place of {found[0]}"
        elif end == self.place and re.match(r"[\"'][ \t]*(?:[,\]}]|$)", found):
            change = "take one of the two quotes out"
        elif found[0] in ";.:|":
            change = f"write a comma in place of the {found[0]}"
        elif found[0] == "*":
            change = "take it out, and write the value as often as it is meant"
        elif not re.match(r"[\"'\[{(0-9+-]", found) and found[0].isascii():
            change = f"take `{seen(found.split(',')[0].rstrip(closing))}` out"
        elif unseen(found):
            change = no_character(found[0])
        self.fail(f"behind a value {whose} stands `{seen(found)}`, and no comma or {closing}", change, end)

    def inner_quotes(self, start, end):
        """What to change where a letter stands right behind a text."""
        quote, text = self.text[start], self.text[start + 1:end - 1]
        if text.rstrip(" ").endswith(","):
            return f"close the text before the comma: {quote}{seen(text.rstrip(' ')[:-1], 80)}{quote},"
        if whole := re.match(rf"{quote}([^,\]\n]*){quote}[ \t\r]*(?=[,\]\n#]|\Z)", self.text[start:]):
            return f"take the inner quotes out: {quote}{seen(whole[1].replace(quote, ''), 80)}{quote}"
        return "take the inner quotes out, or close the text before on this line"

    def unclosed(self, start):
        """The fault of a header, or of a name and an equals sign, that begins a line within a list."""
        in_list = self.text[start] == "["
        field = in_list and FIELD.match(self.text, self.place)
        if not field and not LIST_HEADER.match(self.text, self.place):
            return
        before = self.text[start:self.place].rstrip(" \t")
        if before.endswith("\n") and not (field and self.rest_of_line().endswith(",")):
            what, closing = ("list", "]") if in_list else ("table", "}")
            self.fail(f"the {what} that begins on line {self.line(start)} has no closing {closing}",
                      f"write {closing} above this line")

    def items(self, start, depth):
        self.open.append(start)
        self.place += 1
        while True:
            self.skip_blank()
            if self.next() == "]":
                self.place += 1
                self.open.pop()
                return
            if not self.next():
                self.fail("the list that begins here has no closing ]", "close it with ]", start)
            self.unclosed(start)
            item = self.place
            yield self.value(depth)
            self.after_item("]", start, "list", item)

    def braces(self, start, depth):
        self.open.append(start)
        self.place += 1
        table = Value("table", {}, self.line(start))
        while True:
            self.skip_blank()
            if self.next() == "}":
                self.place += 1
                self.open.pop()
                return table
            if not self.next():
                self.fail("the table that begins here has no closing }", "close it with }", start)
            self.unclosed(start)
            self.pair(table, depth)
            self.after_item("}", start, "table")

    # tables

    def pair(self, table, depth):
        """A name, an equals sign and a value, into a table; with where the value begins."""
        start, parts = self.place, self.name()
        if self.next() != "=":
            self.no_equals(".".join(parts), start)
        self.place += 1
        self.take(SPACES)
        self.field = ".".join(parts)
        begin, value = self.place, self.value(depth)
        for part in parts[:-1]:
            table = self.through(table, part, "dotted", parts, start)
        if parts[-1] in table.data:
            self.given_twice(parts, table.data[parts[-1]], start)
        table.data[parts[-1]] = value
        value.named = self.line(start)
        return begin

    def no_equals(self, name, start):
        """The fault of a name that no equals sign follows."""
        self.no_return()
        found, told = self.rest_of_line(), seen(name)
        if unseen(found):
            self.fail(f"the character {seen(found[0])} stands behind the name `{told}`", no_character(found[0]))
        value = found.lstrip(":= ")
        if re.fullmatch("-+", name) and not found:
            change = "take the line out"
        elif name.startswith("--"):
            change = "a comment begins with #: write # in place of --"
        elif name == "mutator" and re.fullmatch("[0-9]+", value) and found[0].isdigit():
            change = "this is how a printed text begins: take the workload that it was printed of"
        elif name in ("cycle", "live", "stats", "cell") and re.match("#?[0-9]", found):
            change = "this is a line of a printed text: take the workload that it was printed of"
        elif not self.open and (re.match("r[0-9]", found) or name in ("collect", "unclaim") and not found):
            text = seen(f"{name} {found}").rstrip()
            change = f'write operations as texts of a mutator: [[mutator]], and below it ops = ["{text}"]'
        elif "mutator" in name and not value or name == "mutator" and value.endswith(":") or value == "mutator:":
            change = "write [[mutator]]"
        elif name == "ops" and (is_list := re.match(r"\[ *\] *= *", found)):
            change = f"write ops = {seen(found[is_list.end():])}"
        elif name in ("blocks", "arrays") and re.match(r"\[[0-9]+\]", found):
            change = f"write five numbers in brackets: {name} = [1, 0, 0, 0, 1]"
        elif self.open and found[:1] in (",", "}"):
            change = "write [ and ] in place of { and }"
        elif FIELD.match(found):
            extra = found.split("=")[0].strip() if name in (*self.wanted, "shapes", "ops") else name
            change = f"take `{seen(extra)}` out"
        elif self.text[start] in "\"'" and "=" in name:
            change = f"take the quotes off: {told}"
        elif self.text[start] in "\"'" and not found.startswith(":"):
            change = "a text stands in a list: write it above the closing ], or ops = [ above it"
        elif value and (found[0] in ":[\"'" or found[0].isdigit()):
            change = f"write {told} = {seen(value)}"
        else:
            change = f"write {told} = and its value"
        but = f", and not `{seen(found)}`" if found else ""
        self.fail(f"after the name `{told}` an equals sign is wanted{but}", change)

    def given_twice(self, parts, before, place, header=False):
        change = "take one of the two out"
        if header and parts == ["mutator"] and before.origin == "header":
            change = "write [[mutator]], with both brackets, at each"
        elif header and parts == ["mutator"]:
            change = f"take `mutator` on line {before.named} out, and write [[mutator]] at each"
        elif parts == ["ops"]:
            change = "take one of the two out, or write [[mutator]] on a line above this one for a further mutator"
        self.fail(f"the name `{seen('.'.join(parts))}` is given here and on line {before.named}", change, place)

    def through(self, table, part, how, parts, place):
        """The table of this name in a table, for a header or a dotted name that goes on in it."""
        inner = table.data.get(part)
        if inner is None:
            inner = table.data[part] = Value("table", {}, self.line(place), "dotted" if how == "dotted" else "implicit")
        elif how == "dotted":
            if inner.kind != "table" or inner.origin not in ("dotted", "implicit"):
                self.given_twice(parts, inner, place)
            inner.origin = "dotted"
        elif inner.kind == "array" and inner.origin == "header":
            return inner.data[-1]
        elif inner.kind != "table" or inner.origin is None:
            self.given_twice(parts, inner, place)
        return inner

    def header(self, root):
        start, double = self.place, self.next(2) == "[["
        self.place += 1 + double
        self.take(SPACES)
        if self.next() == "[":
            self.fail(f"`{seen(self.rest_of_line(start))}` is no header", "write [[ and ]] with no space between the brackets")
        parts, closing = self.name(), "]" * (1 + double)
        if self.next(len(closing)) != closing:
            name = seen(".".join(parts))
            change = f"write {'[' * len(closing)}{name}{closing}"
            self.fail(f"the header `{name}` has no closing {closing}", change, start)
        self.place += len(closing)
        table = root
        for part in parts[:-1]:
            table = self.through(table, part, "header", parts, start)
        before = table.data.get(parts[-1])
        if double:
            if before is None:
                before = table.data[parts[-1]] = Value("array", [], self.line(start), "header")
            elif before.kind != "array" or before.origin != "header":
                self.given_twice(parts, before, start, True)
            before.data.append(Value("table", {}, self.line(start), "header"))
            return before.data[-1]
        if before is None:
            before = table.data[parts[-1]] = Value("table", {}, self.line(start), "header")
        elif before.kind != "table" or before.origin != "implicit":
            self.given_twice(parts, before, start, True)
        before.origin = "header"
        return before

    def document(self):
        root = Value("table", {}, 1, "header")
        table = root
        while True:
            self.skip_blank()
            if not self.next():
                return root
            if self.next() == "[":
                start, table = self.place, self.header(root)
                self.end_line("the header", start)
            else:
                self.end_line("the value", self.pair(table, DEPTH))
            self.no_return()

    def no_return(self):
        """A carriage return stands before the end of a line alone."""
        if self.next() == "\r" and self.next(2) != "\r\n":
            self.fail("a carriage return stands within a line", "end lines by a newline")


def unseen(text):
    """Whether a text begins with a character that can't be seen, as a space that doesn't break or a control character."""
    return not text[:1].isprintable()


def no_character(character):
    """What to change where this character stands outside of texts and comments."""
    if character == "\0":
        return "take it out, or save the file in UTF-8"
    return "write a space in its place" if character.isspace() else "take it out"


def no_name(found):
    """What to change where this stands in place of a name."""
    if re.fullmatch("[<({] *mutators? *[>)}]", found):
        return "write [[mutator]]"
    if comment := COMMENT.match(found):
        return f"a comment begins with #: write # in place of {comment[0]}"
    if found[:1] == "{":
        return "a workload is TOML, and not JSON: write each field on a line of its own, as registers = 4"
    if found[:1] in ("]", "}", ")", ","):
        return f"take the {found[0]} out"
    return "a name has letters, digits, _ and - alone, or stands in quotes"


def behind(value, rest, is_header):
    """What to change where more stands behind a value, or a header, on its line."""
    if unseen(rest):
        return no_character(rest[0])
    rest = rest.split("#")[0].rstrip(" \t")
    if rest[0] in "]})":
        name = value.strip("[] \t")
        return f"write [[{seen(name)}]]" if is_header and value[:2] != "[[" else f"take the {rest} out"
    more = rest.lstrip(",; \t")
    if FIELD.match(more):
        without = f", without the {rest[0]}" if more != rest else ""
        return f"write `{seen(more)}` on a line of its own{without}"
    if rest[0] in ",;" and not more:
        return f"take the {rest} out"
    if rest == "%":
        return "take the % out"
    if rest[0] != ";" and (comment := COMMENT.match(rest)):
        return f"a comment begins with #: write # in place of {comment[0]}"
    if re.fullmatch(r"[+-]?[0-9]{1,3}(?:,[0-9]{3})+", value + rest):
        return f"a number has no comma within: write {seen((value + rest).replace(',', ''))}"
    if re.match(r"(?:[-+*/^%]|<<|\*\*) *[0-9]", rest):
        return "write the number itself"
    if not is_header and value[0] not in "[{" and (rest[0] in ",;" or rest[0] in "\"'" and value[0] in "\"'"):
        listed = ", ".join(re.findall(r"\"[^\"]*\"|'[^']*'|[^ \t,;]+", f"{value} {rest}"))
        return f"write the values in brackets: [{seen(listed, 80)}]"
    if value[0] == "[" and not is_header and rest[0] in ",\"'":
        return "write it in the list, before the closing ]"
    return "take it out, or write # in front of it"


def is_date(parts):
    """Whether the numbers of a date and a time are those of one."""
    numbers = [None if part is None else int(part) for part in parts]
    year, month, day, hour, minute, second, off_hour, off_minute, *alone = numbers
    if alone[0] is not None:
        hour, minute, second = alone
    try:
        if year is not None:
            datetime.date(year or 4, month, day)  # 0 is a leap year, as 4 is, and `datetime` begins with 1
    except ValueError:
        return False
    clock = (hour or 0) < 24 and (minute or 0) < 60 and (second or 0) <= 60
    return clock and (off_hour or 0) < 24 and (off_minute or 0) < 60


def read(data, wanted=()):
    """The table that bytes are the document of. `wanted` has what to write in place of a word as the value of a field."""
    try:
        text = data.decode()
    except UnicodeDecodeError as error:
        line = data[:error.start].count(b"\n") + 1
        why = f"byte {error.start} of the file, {data[error.start]:#04x}, isn't UTF-8"
        raise NotToml(line, why, "save the file in UTF-8") from None
    return Reader(text, wanted).document()
