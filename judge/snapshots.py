#!/usr/bin/env python3
"""Draws rows for `snapshot lines`: heaps that are told by facts, and how far each cell is that is retained.

    judge/snapshots.py SEED COUNT > crates/checks/data/snapshot/random.txt

What is expected is found here anew, by a fixpoint over all steps and then by rounds: it takes nothing from the program.
"""
import random
import sys

if __name__ == "__main__" and sys.argv[1:] in ([], ["--help"]):
    sys.exit(print(__doc__.strip()) or len(sys.argv) < 2)

CELLS, TABLES, ARRAYS = range(0, 64), range(64, 128), range(0, 64)


def drawn(draw):
    """A heap: its facts, and what they come to."""
    facts, links, pairs, groups, roots = [], {}, {}, {}, set()
    live = sorted(draw.sample(CELLS, draw.randint(2, 14)) + draw.sample(TABLES, draw.randint(0, 5)))
    facts.append('live ' + ' '.join(map(str, live)))

    def value():
        kind = draw.random()
        if kind < 0.7:
            return '#%d' % draw.choice(live)
        return '-' if kind < 0.8 else 'n%d' % draw.choice([0, 7, 4294967295])

    def hold(cell, said):
        if said.startswith('#'):
            links.setdefault(cell, set()).add(int(said[1:]))

    arrays = draw.sample(ARRAYS, len(live))
    for cell in live:
        for slot in range(2 if cell < 64 else 0):
            if draw.random() < 0.4:
                said = value()
                facts.append('slot %d.%d %s' % (cell, slot, said))
                hold(cell, said)
        if cell >= 64:
            keys = draw.sample(live, min(len(live), draw.randint(0, 4)))
            for place, key in zip(draw.sample(range(8), len(keys)), keys):
                said = value()
                facts.append('pair %d.%d %d %s' % (cell, place, key, said))
                if said.startswith('#'):
                    pairs.setdefault(cell, set()).add((key, int(said[1:])))
        if draw.random() < 0.3:
            count = draw.randint(1, 3)
            array = arrays.pop()
            facts.append('properties %d %d %d' % (cell, array, count))
            for place in range(count):
                said = value()
                facts.append('element %d.%d %s' % (array, place, said))
                hold(cell, said)
        if draw.random() < 0.3:
            group = draw.randint(1, 3)
            facts.append('group %d %d' % (cell, group))
            groups[cell] = group
    for _ in range(draw.randint(1, 3)):
        cell, kind = draw.choice(live), draw.randint(0, 3)
        if kind == 0:
            facts.append('strong %d #%d' % (draw.randint(2, 3), cell))
            continue
        if kind == 1:
            facts.append('claim %d %d' % (cell, draw.randint(1, 2)))
        else:
            facts.append('register %d.%d #%d' % (kind % 2, len(facts) % 4, cell))
        roots.add(cell)
    return live, facts, links, pairs, groups


def roots_of(facts):
    """The roots that the facts leave: a later one of the same place stands."""
    held, claimed = {}, set()
    for fact in facts:
        words = fact.split()
        if words[0] in ('strong', 'register'):
            held[(words[0], words[1])] = int(words[2][1:])
        if words[0] == 'claim':
            claimed.add(int(words[1]))
    return set(held.values()) | claimed


def steps_from(cell, retained, links, pairs, groups):
    found = set(links.get(cell, ()))
    found |= {value for key, value in pairs.get(cell, ()) if key in retained}
    if cell in groups:
        found |= {other for other in groups if groups[other] == groups[cell]}
    return found


def distances(roots, links, pairs, groups):
    retained = set()
    grown = set(roots)
    while grown != retained:
        retained = grown
        grown = set(retained)
        for cell in retained:
            grown |= steps_from(cell, retained, links, pairs, groups)
    far, level, round_ = {}, set(roots), 0
    while level:
        for cell in level:
            far[cell] = round_
        level = {next_ for cell in level for next_ in steps_from(cell, retained, links, pairs, groups)} - set(far)
        round_ += 1
    return far


def main():
    draw = random.Random(int(sys.argv[1]))
    print('layout 1 0 0 0 1 + 1 0 0 0 0 4 4 0 2')
    print('keys a b c')
    for number in range(int(sys.argv[2])):
        live, facts, links, pairs, groups = drawn(draw)
        far = distances(roots_of(facts), links, pairs, groups)
        print('\n=== random heap %d' % number)
        print('\n'.join(facts))
        told = ' '.join('%d %d' % (cell, far[cell]) for cell in sorted(far))
        print('distances = %s' % (told or 'none'))


main()
