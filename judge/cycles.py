#!/usr/bin/env python3
"""Draws random histories with several collections, once for a plain store and once for a heap in words.

    python3 judge/cycles.py [--check]

It writes checks/data/plain/cycles.txt, the operations with their replies and what each collection frees, and
checks/data/marking/cycles.txt, what the operations change in words with what each whole cycle leaves there: the cells
that it frees and how many it keeps, the weak handles, the pairs of tables, and which cells and arrays are free. What is
expected in both is what the model of judge/model.py says. With --check it compares in place of writing.
"""
import pathlib
import random
import sys

from model import ROOM, SLOTS, TABLE, Refused, Store, shown, text_of

if __name__ == "__main__" and sys.argv[1:] == ["--help"]:
    sys.exit(print(__doc__.strip()))

DATA = pathlib.Path(__file__).resolve().parent.parent / "crates" / "checks" / "data"
WORK = {
    "blocks": [1, 1, 0, 0, 1], "arrays": [1, 1, 0, 0, 0], "registers": 4, "strong": 2, "weak": 2,
    "mutators": [[], []], "shapes": [["k0", "k1", "k2", "k3", "k4"]],
}
LAYOUT = "layout 1 1 0 0 1 + 1 1 0 0 0 4 2 2 2"
KEYS = WORK["shapes"][0]
HEAPS, CYCLES, CALLS = 32, 4, 40
WEIGHTS = {
    "alloc": 16, "table": 14, "get": 4, "put": 16, "move": 4, "set": 2, "drop": 6, "claim": 30, "release": 1, "unclaim": 2,
    "add": 60, "getp": 3, "setp": 6, "strong": 4, "sget": 5, "weak": 8, "wget": 5, "pair": 90, "pget": 3, "pdel": 3,
    "group": 8,
}


def drawn(draw):
    """An operation."""
    name = draw.choices(list(WEIGHTS), list(WEIGHTS.values()))[0]
    one, other, third, handle = draw.randrange(4), draw.randrange(4), draw.randrange(4), draw.randrange(2)
    operands = {
        "alloc": (one, draw.randrange(2)), "get": (one, other, draw.randrange(4)), "put": (one, draw.randrange(4), other),
        "move": (one, other), "set": (one, draw.randrange(9)), "add": (one, draw.choice(KEYS), other),
        "getp": (one, other, draw.choice(KEYS)), "setp": (one, draw.choice(KEYS), other), "strong": (handle, one),
        "weak": (handle, one), "sget": (one, handle), "wget": (one, handle), "pair": (one, other, third),
        "pget": (one, other, third), "pdel": (one, other), "group": (one, draw.randrange(4)), "unclaim": (),
    }
    return (name,) + operands.get(name, (one,))


def value(held):
    """The text of a value in a heap's facts."""
    return "-" if held is None else f"#{held[1]}" if isinstance(held, tuple) else f"n{held}"


def word_text(word):
    """The text of a word that is asked for."""
    if word == 0:
        return "-"
    form, number = word % 4, word // 4
    return f"{'n' if form == 1 else '#'}{number}" if form in (1, 2) and number < 2**32 else str(word)


class Words:
    """Where a table's pairs stand: the lowest empty place is taken."""

    def __init__(self):
        self.places = {}

    def pairs(self, number, table):
        places = self.places.setdefault(number, [None] * 8)
        for place, key in enumerate(places):
            if key is not None and key not in table.pairs:
                places[place] = None
        for key in table.pairs:
            if key not in places:
                places[places.index(None)] = key
        return places

    def facts(self, store):
        """What the words say: for each name its text, where it isn't that of an empty heap."""
        facts = {}

        def say(name, text):
            if text not in ("-", "0"):
                facts[name] = text

        for who, registers in enumerate(store.registers):
            for register, held in enumerate(registers):
                say(f"register {who}.{register}", value(held))
            for number in store.claims[who]:
                facts[f"claim {number}"] = str(who + 1)
        for name in ("strong", "weak"):
            for handle, held in enumerate(getattr(store, name)):
                say(f"{name} {handle}", value(held))
        self.places = {number: places for number, places in self.places.items() if number in store.cells}
        for number, cell in sorted(store.cells.items()):
            facts[f"live {number}"] = ""
            say(f"group {number}", str(cell.group))
            for slot, held in enumerate(cell.slots):
                say(f"slot {number}.{slot}", value(held))
            if cell.array is not None:
                facts[f"properties {number}"] = f"{cell.array} {len(cell.keys)}"
                for place, held in enumerate(cell.properties):
                    say(f"element {cell.array}.{place}", value(held))
            if cell.kind == TABLE:
                for place, key in enumerate(self.pairs(number, cell)):
                    if key is not None:
                        facts[f"pair {number}.{place}"] = f"{key} {value(cell.pairs[key])}"
        return facts


def free_words(store):
    """The word of each block, of cells and then of arrays, in which the free ones have their bit."""
    words = []
    for count, taken in ((sum(WORK["blocks"]), store.cells), (sum(WORK["arrays"]), store.arrays | store.spent)):
        for block in range(count):
            words.append(sum(1 << bit for bit in range(64) if 64 * block + bit not in taken))
    return words


def changes(old, new):
    """The lines that make a heap of the old facts one of the new ones."""
    lines = []
    for name in sorted(set(old) | set(new)):
        if old.get(name) == new.get(name):
            continue
        if name in new:
            lines.append(f"{name} {new[name]}".strip())
        elif name.startswith("pair"):
            lines.append(name.replace("pair", "slot") + " 0")
        elif not name.startswith("element"):
            lines.append(f"{name} {'0' if name.split()[0] in ('claim', 'group') else '-'}")
    return lines


def numbers(cells):
    return " ".join(map(str, cells)) if cells else "none"


def calls(store, draw, count):
    """Some operations with their replies. Of those that are refused most are left out: a refusal changes nothing."""
    lines = []
    while len(lines) < count:
        who, op = draw.randrange(2), drawn(draw)
        try:
            reply = store.call(who, op)
        except Refused as refusal:
            if draw.random() < 0.95:
                continue
            reply = str(refusal)
        lines.append(f"m{who} {text_of(op)} = {reply}")
    return lines


def history(seed):
    """A history in both forms."""
    draw, store, words = random.Random(seed), Store(WORK), Words()
    plain, heap, before = [], [], {}
    for _ in range(CYCLES):
        plain += calls(store, draw, CALLS)
        after = words.facts(store)
        heap += changes(before, after)
        heap += [f"free {block} {word}" for block, word in enumerate(free_words(store))]
        held = sorted(name for name in after if name.startswith("pair"))
        freed = store.collect()
        plain.append(f"collect = {numbers(freed)}")
        heap.append(f"cycle {draw.choice([1, 2, 3, 7, 192])} = kept {len(store.cells)} freed {numbers(freed)}")
        before = words.facts(store)
        heap += [f"weak {handle} = {value(held)}" for handle, held in enumerate(store.weak)]
        heap += [f"{name} = {before.get(name, 'none')}" for name in held]
        for block, word in enumerate(free_words(store)):
            heap.append(f"free {block} = {word_text(word)}")
            heap.append(f"dead {block} = -")
    return plain, heap


def main():
    plain, heap = [f"path {' '.join(key[1:] for key in KEYS)}", LAYOUT], [LAYOUT]
    for seed in range(HEAPS):
        for lines, more in zip((plain, heap), history(seed)):
            lines += ["", f"=== several cycles of random heap {seed}"] + more
    same = True
    for folder, lines in (("plain", plain), ("marking", heap)):
        path, text = DATA / folder / "cycles.txt", "\n".join(lines) + "\n"
        if "--check" not in sys.argv:
            path.write_text(text)
        elif path.read_text() != text:
            print(f"{path} is not what judge/cycles.py draws")
            same = False
    sys.exit(0 if same else 1)


if __name__ == "__main__":
    main()
