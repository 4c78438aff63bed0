#!/usr/bin/env python3
"""The oracle: a second, slow and plain implementation of the bench, for comparison.

Reads one sheet on standard input and prints the answer, by brute force straight from the definitions.

    oracle.py             the atom lines, the standings and their total
    oracle.py --settle    the atom lines only
    oracle.py --relays    the atom lines of a sheet without rules; a sheet with rules is only announced
    oracle.py --plain     with the plain reading of loads in place of the bound reading

A set of atoms is a Python int: bit i stands for atom i, in the order of the name lines.
"""

import re
import sys
from itertools import product

MAX_TEXT = 16384            # bytes of a sheet
MAX_OPEN = 16               # open atoms of which the standings are listed
MAX_ENTRIES = 16            # entries of a load
MAX_ITEMS = 16              # items of a rule
MAX_ATTACKERS = 64          # attackers of a relay line
CONTENTS = [("marks", 1, 64), ("loads", 0, 32), ("rules", 0, 128), ("relays", 0, 64)]
RESERVED = {"if", "not", "load", "sum", "count"}
FEW = 5                     # up to so many atoms, stable is decided word for word by its definition


class Refused(Exception):
    """A refusal: its number, and the line and column where it stands."""

    def __init__(self, number, line, column):
        layer = "text" if number <= 4 else "sheet" if number <= 11 else "bench"
        self.number, self.line, self.column = number, line, column
        super().__init__(f"refused {number} {layer} {line} {column}")


# ---------------------------------------------------------------- the text


def places(data):
    """Every byte with its line, its column, the byte before it and the byte after it."""
    line, column = 1, 1
    for at, byte in enumerate(data):
        before = data[at - 1] if at > 0 else 10
        after = data[at + 1] if at + 1 < len(data) else 10
        yield line, column, before, byte, after
        if byte == 10:
            line, column = line + 1, 1
        else:
            column += 1


def check_text(data):
    """Refusals 1 to 4, each tried over the whole text before the next."""
    if len(data) > MAX_TEXT:
        raise Refused(1, 0, 0)
    if len(data) == 0 or data[-1] != 10:
        raise Refused(2, 0, 0)
    for line, column, _, byte, _ in places(data):
        if byte != 10 and not 32 <= byte <= 126:
            raise Refused(3, line, column)
    for line, column, before, byte, after in places(data):
        empty_line = byte == 10 and column == 1
        first_last_or_doubled = byte == 32 and (column == 1 or after == 10 or before == 32)
        if empty_line or first_last_or_doubled:
            raise Refused(4, line, column)


# ---------------------------------------------------------------- the sheet


class Line:
    """The words of one line, taken one by one from the left."""

    def __init__(self, number, text, missing):
        self.number = number
        self.missing = missing          # the refusal for a word that is not there
        self.end = len(text) + 1        # and its column
        self.words = []                 # what is left: (column, word)
        column = 1
        for word in text.split(" "):
            self.words.append((column, word))
            column += len(word) + 1

    def more(self):
        return len(self.words) > 0

    def peek(self):
        """The next word; refused where there is none."""
        if not self.words:
            raise Refused(self.missing, self.number, self.end)
        return self.words[0][1]

    def take(self):
        """The next word, taken."""
        word = self.peek()
        del self.words[0]
        return word

    def wrong(self, refusal):
        """The refusal that stands at the next word."""
        return Refused(refusal, self.number, self.words[0][0])

    def one_of(self, choices, refusal):
        """Takes one of the given words."""
        if self.peek() not in choices:
            raise self.wrong(refusal)
        return self.take()

    def numeral(self, low, high, refusal):
        """Takes a number from low to high."""
        word = self.peek()
        lawful = len(word) <= 8 and re.fullmatch("0|-?[1-9][0-9]*", word)   # -1000000 is the longest
        if not lawful or not low <= int(word) <= high:
            raise self.wrong(refusal)
        return int(self.take())

    def no_more(self, refusal):
        if self.more():
            raise self.wrong(refusal)


class Sheet:
    """names: a list. loads: (kind of comparison, limit, entries), an entry is (weight, negated, atom).
    rules: (head, plain items, negated items, load numbers); items are sets. relays: atom -> attackers, a set."""

    def __init__(self):
        self.names, self.loads, self.rules, self.relays = [], [], [], {}


def read_sheet(data):
    """The sheet in the given bytes, or a refusal."""
    check_text(data)
    texts = data.decode("ascii").split("\n")[:-1]

    # 5: the contents.
    announced = []
    for number, (key, low, high) in enumerate(CONTENTS, 1):
        if number > len(texts):
            raise Refused(5, number, 0)
        line = Line(number, texts[number - 1], missing=5)
        line.one_of([key], 5)
        announced.append(line.numeral(low, high, 5))
        line.no_more(5)

    # 6: the number of lines.
    if len(texts) != len(CONTENTS) + sum(announced):
        raise Refused(6, len(texts), 0)

    # 7 to 11: the bodies, from the top.
    marks, loads, rules, relays = announced
    lines = [Line(number, text, missing=9) for number, text in enumerate(texts, 1)][len(CONTENTS):]
    sheet = Sheet()
    for line in lines[:marks]:
        read_name(line, sheet)
    atoms = {name: atom for atom, name in enumerate(sheet.names)}
    for line in lines[marks:marks + loads]:
        read_load(line, sheet, atoms)
    for line in lines[marks + loads:marks + loads + rules]:
        read_rule(line, sheet, atoms)
    for line in lines[marks + loads + rules:]:
        read_relay(line, sheet, atoms)
    return sheet


def read_name(line, sheet):
    word = line.peek()
    if not re.fullmatch("[a-z][a-z0-9_]{0,15}", word) or word in RESERVED or word in sheet.names:
        raise line.wrong(7)
    sheet.names.append(line.take())
    line.no_more(9)


def read_condition(line, atoms):
    """A name, or `not` and a name: (negated, atom)."""
    negated = line.peek() == "not"
    if negated:
        line.take()
    return negated, atoms[line.one_of(atoms, 8)]


def read_load(line, sheet, atoms):
    what = line.one_of(["sum", "count"], 9)
    comparison = line.one_of(["<=", ">=", "=", "!="], 9)
    limit = line.numeral(-1000000, 1000000, 10)
    entries = []
    while line.more():
        if len(entries) == MAX_ENTRIES:
            raise line.wrong(9)
        weight = line.numeral(-10000, 10000, 10) if what == "sum" else 1
        negated, atom = read_condition(line, atoms)
        entries.append((weight, negated, atom))
    sheet.loads.append((comparison, limit, entries))


def read_rule(line, sheet, atoms):
    head = atoms[line.one_of(atoms, 8)]
    plain, negative, loads = 0, 0, []
    if line.more():
        line.one_of(["if"], 9)
        line.peek()                     # at least one item
        items = 0
        while line.more():
            if items == MAX_ITEMS:
                raise line.wrong(9)
            items += 1
            if line.peek() == "load":
                line.take()
                loads.append(line.numeral(0, len(sheet.loads) - 1, 10))
            else:
                negated, atom = read_condition(line, atoms)
                if negated:
                    negative |= 1 << atom
                else:
                    plain |= 1 << atom
    sheet.rules.append((head, plain, negative, loads))


def read_relay(line, sheet, atoms):
    if line.peek() in atoms and atoms[line.peek()] in sheet.relays:
        raise line.wrong(11)
    atom = atoms[line.one_of(atoms, 8)]
    line.one_of(["!"], 9)
    attackers, count = 0, 0
    while line.more():
        if count == MAX_ATTACKERS:
            raise line.wrong(9)
        count += 1
        attackers |= 1 << atoms[line.one_of(atoms, 8)]
    sheet.relays[atom] = attackers


# ---------------------------------------------------------------- what a sheet means


def within(a, b):
    """Is the set a within the set b?"""
    return a & ~b == 0


def apart(a, b):
    """Have the sets a and b no atom in common?"""
    return a & b == 0


def weigh(load, l, u):
    """low and high of a load between the bounds l and u, and whether it has an open entry."""
    low = high = 0
    some_open = False
    for weight, negated, atom in load[2]:
        in_l, in_u = l >> atom & 1, u >> atom & 1
        met, failed = (not in_u, in_l) if negated else (in_l, not in_u)
        assert not (met and failed), "a lower that is not within its upper"
        if met:
            low += weight
            high += weight
        elif not failed:
            some_open = True
            low += min(weight, 0)
            high += max(weight, 0)
    return low, high, some_open


def load_sure(load, l, u, plain_reading):
    comparison, limit, _ = load
    low, high, some_open = weigh(load, l, u)
    if plain_reading and some_open:
        return False
    return {"<=": high <= limit,
            ">=": low >= limit,
            "=": low == high == limit,
            "!=": high < limit or low > limit}[comparison]


def load_may(load, l, u, plain_reading):
    comparison, limit, _ = load
    low, high, some_open = weigh(load, l, u)
    if plain_reading and some_open:
        return True
    return {"<=": low <= limit,
            ">=": high >= limit,
            "=": low <= limit <= high,
            "!=": not low == high == limit}[comparison]


class Board:
    """A sheet with a reading of its loads: the approximator and what follows from it."""

    def __init__(self, sheet, plain_reading=False):
        self.sheet = sheet
        self.plain_reading = plain_reading
        self.size = len(sheet.names)
        self.all = (1 << self.size) - 1

    def derived(self, held, possible, holds):
        """The heads of the rules whose plain marks are held, whose negated ones are not possible and whose loads hold, and
        the marks with a relay line none of whose attackers is possible."""
        out = 0
        for head, plain, negative, loads in self.sheet.rules:
            if within(plain, held) and apart(negative, possible) and all(holds(self.sheet.loads[i]) for i in loads):
                out |= 1 << head
        for atom, attackers in self.sheet.relays.items():
            if apart(attackers, possible):
                out |= 1 << atom
        return out

    def sure(self, l, u):
        return self.derived(l, u, lambda load: load_sure(load, l, u, self.plain_reading))

    def may(self, l, u):
        return self.derived(u, l, lambda load: load_may(load, l, u, self.plain_reading))

    def next_bounds(self, l, u):
        return (climb(lambda c: self.sure(c, u), 0),
                climb(lambda c: self.may(l, c), l))

    def settled(self):
        """The earliest bounds that equal their successor."""
        l, u = 0, self.all
        while True:
            next_l, next_u = self.next_bounds(l, u)
            if not within(next_l, next_u):
                raise Refused(14, 0, 0)
            if (next_l, next_u) == (l, u):
                return l, u
            l, u = next_l, next_u

    def stable_by_definition(self, z):
        """sure(z, z) = z, and no other s within z has sure(s, z) within s."""
        return self.sure(z, z) == z and not any(
            within(s, z) and within(self.sure(s, z), s) for s in range(z))

    def stable_by_climb(self, z):
        """The same for more atoms: sure(., z) grows with its argument, so its least fixpoint decides."""
        return self.sure(z, z) == z and climb(lambda c: self.sure(c, z), 0) == z

    def stable(self, z):
        return self.stable_by_definition(z) if self.size <= FEW else self.stable_by_climb(z)

    def standings(self, l, u):
        """The stable sets between the bounds, in listing order: of two, the one that lacks the lowest atom in which
        they differ comes first. So the lowest open atom changes slowest."""
        for choice in product([0, 1], repeat=count(u & ~l)):
            z = l
            for chosen, atom in zip(choice, members(u & ~l)):
                z |= chosen << atom
            if self.stable(z):
                yield z


def climb(step, c):
    """c becomes step(c) until it repeats."""
    while True:
        after = step(c)
        assert within(c, after), "a climb that falls"
        if after == c:
            return c
        c = after


def members(a):
    """The atoms of a set, the lowest first."""
    return [atom for atom in range(a.bit_length()) if a >> atom & 1]


def count(a):
    return len(members(a))


# ---------------------------------------------------------------- the answer


def answer(data, mode="whole", plain_reading=False):
    """What is printed for the given bytes. Mode: "relays", "settle" or "whole"."""
    out = []
    try:
        sheet = read_sheet(data)
        if mode == "relays" and sheet.rules:
            return "rules are not settled yet\n"
        board = Board(sheet, plain_reading)
        l, u = board.settled()
        for atom, name in enumerate(sheet.names):
            state = "on" if l >> atom & 1 else "open" if u >> atom & 1 else "off"
            out.append(f"{name} {state}")
        if mode == "whole":
            if count(u & ~l) > MAX_OPEN:
                raise Refused(15, 0, count(u & ~l))
            total = 0
            for z in board.standings(l, u):
                total += 1
                out.append(" ".join(["standing"] + [sheet.names[atom] for atom in members(z)]))
            out.append(f"total {total}")
    except Refused as refusal:
        out.append(str(refusal))
    return "".join(line + "\n" for line in out)


def main(words):
    unknown = set(words) - {"--relays", "--settle", "--plain"}
    if unknown or {"--relays", "--settle"} <= set(words):
        sys.exit("usage: oracle.py [--relays | --settle] [--plain] < sheet")
    mode = "relays" if "--relays" in words else "settle" if "--settle" in words else "whole"
    sys.stdout.write(answer(sys.stdin.buffer.read(), mode, "--plain" in words))


if __name__ == "__main__":
    main(sys.argv[1:])
