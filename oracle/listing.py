#!/usr/bin/env python3
"""The oracle's listing: next, peg, pull, rewind, tally and close by brute force, and the keeper's desk around them.

    listing.py SHEET < COMMANDS     prints what the program `keeper` has to print

All stable interpretations are worked out once. Those that agree with the pegs in force are picked out of them for each call.
"""

import sys

import oracle

ALONE = ["next", "rewind", "tally", "marks", "close"]           # commands that take no words
SIDED = ["peg", "pull"]                                         # commands that take a name and a side


class Listing:
    """Refusals 15 to 19 are the oracle's Refused. `on` says whether a peg holds its atom on, or off."""

    def __init__(self, board):
        lower, upper = board.settled()
        some_open = oracle.count(upper & ~lower)
        if some_open > oracle.MAX_OPEN:
            raise oracle.Refused(15, 0, some_open)
        self.width = board.size
        self.all = list(board.standings(lower, upper))
        self.pegs = {}                                          # atom -> on
        self.handed = 0                                         # how many since the listing last began

    def agreeing(self):
        """All that agree with the pegs, in listing order."""
        return [z for z in self.all if all(z >> atom & 1 == on for atom, on in self.pegs.items())]

    def next(self):
        """The next, or None where there are no more."""
        following = self.agreeing()[self.handed:]
        if not following:
            return None
        self.handed += 1
        return following[0]

    def peg(self, atom, on):
        if atom >= self.width:
            raise oracle.Refused(16, 0, atom)
        if atom in self.pegs:
            raise oracle.Refused(17, 0, atom)
        self.pegs[atom] = on
        self.handed = 0

    def pull(self, atom, on):
        if self.pegs.get(atom) != on:
            raise oracle.Refused(18, 0, atom)
        del self.pegs[atom]
        self.handed = 0

    def rewind(self):
        self.handed = 0

    def tally(self):
        return len(self.agreeing())

    def close(self):
        if self.pegs:
            raise oracle.Refused(19, 0, len(self.pegs))


# ---------------------------------------------------------------- the keeper's words


class Desk:
    """Answers each line of input by one line."""

    def __init__(self, sheet):
        self.names = sheet.names
        board = oracle.Board(sheet)
        self.bounds = board.settled()
        self.listing = Listing(board)

    def atom(self, name):
        """The number of a mark; a name that is none counts as one past the last."""
        return self.names.index(name) if name in self.names else len(self.names)

    def states(self):
        lower, upper = self.bounds
        state = lambda atom: "on" if lower >> atom & 1 else "open" if upper >> atom & 1 else "off"
        return "marks:" + "".join(f" {name} {state(atom)};" for atom, name in enumerate(self.names))

    def standing(self, z):
        return " ".join(["standing"] + [self.names[atom] for atom in oracle.members(z)])

    def answer(self, line):
        """The reply, and whether it is the last."""
        verb, blank, rest = line.partition(" ")
        if verb in ALONE:
            return (f"say: {verb}", False) if blank else (getattr(self, "say_" + verb)(), verb == "close" and not self.listing.pegs)
        if verb in SIDED:
            name, blank, side = rest.partition(" ")
            if not blank or side not in ("on", "off"):
                return f"say: {verb} NAME on|off", False
            return self.say_sided(verb, name, side), False
        return f"there is no command '{verb}'", False

    def say_next(self):
        z = self.listing.next()
        return "no more" if z is None else self.standing(z)

    def say_rewind(self):
        self.listing.rewind()
        return "begun anew"

    def say_tally(self):
        return f"total {self.listing.tally()}"

    def say_marks(self):
        return self.states()

    def say_close(self):
        try:
            self.listing.close()
        except oracle.Refused:
            return f"refused 19: pegs are in force, {len(self.listing.pegs)} of them"
        return "closed"

    def say_sided(self, verb, name, side):
        atom = self.atom(name)
        if atom == len(self.names):
            return f"refused 16: there is no mark '{name}'"
        try:
            if verb == "peg":
                self.listing.peg(atom, side == "on")
                return f"{name} is pegged {side}"
            self.listing.pull(atom, side == "on")
            return f"{name} is no longer pegged {side}"
        except oracle.Refused as refusal:
            return {17: f"refused 17: {name} has a peg already",
                    18: f"refused 18: no such peg of {name} is in force"}[refusal.number]

    def over(self):
        """Said where the input ends before `close`."""
        return f"the input is over: pegs pulled {len(self.listing.pegs)}, closed"


def refused(data, refusal):
    """What is said of a sheet that is refused: the refusal, and where it has one, the line, with a caret below the column."""
    out = [str(refusal)]
    lines = data.split(b"\n")
    if refusal.number != 15 and 1 <= refusal.line <= len(lines):
        out.append("".join(chr(byte) if 32 <= byte <= 126 else "?" for byte in lines[refusal.line - 1]))
        if refusal.column > 0:
            out.append(" " * (refusal.column - 1) + "^")
    return out


def replies(data, commands):
    """All that is printed for the sheet and the lines of input."""
    try:
        desk = Desk(oracle.read_sheet(data))
    except oracle.Refused as refusal:
        return refused(data, refusal)
    out = []
    for line in commands:
        reply, last = desk.answer(line)
        out.append(reply)
        if last:
            return out
    return out + [desk.over()]


def main(words):
    if len(words) != 1:
        sys.exit("usage: listing.py SHEET < COMMANDS")
    with open(words[0], "rb") as sheet:
        data = sheet.read()
    for line in replies(data, sys.stdin.read().split("\n")[:-1]):
        print(line)


if __name__ == "__main__":
    main(sys.argv[1:])
