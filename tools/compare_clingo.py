#!/usr/bin/env python3
"""Runs a program and clingo on random lawful sheets, and stops at the first difference.

    compare_clingo.py PROGRAM [--count N] [--seed S] [--save FILE] [--corpus FOLDER] [--default]

    PROGRAM          a command that reads one sheet on standard input; words after spaces are its arguments
    --count          how many random sheets (1000)
    --seed           another seed gives other sheets (1)
    --save           where the sheet with a difference goes (difference.sheet)
    --corpus         takes the lawful sheets of that folder's cases.bin in place of random ones
    --default        also runs clingo without `--eq=0`, and prints each sheet that it then answers otherwise

Of every sheet that the program lists, these are compared:

- the `standing` lines, as a set, with the stable models that clingo lists (to_clingo.py says how a sheet is translated;
  with `--eq=0` clingo can list one model more than once, which counts as once);
- that they stand in listing order and none stands twice, and that `total` is their number;
- that each has every mark that is said to be on, and none that is said to be off.

Where a load depends on itself (a head needs a load, and something in the load, plain or after `not`, needs that head), the
bound reading and clingo mean different things by it: both ask whether a set is stable, but clingo tries each smaller set by
itself, and the bound reading all sets between two bounds at once. What is stable by the bound reading is a stable model
for clingo, and not always the other way. So of these sheets each standing is looked for among clingo's models; that there
are no others is compared only where the two definitions, worked out here by trying all sets, come to the same (of sheets up
to 12 marks). Those sheets also hold clingo to its own definition. What a rule negates, or a relay line, makes no load depend on
itself here, since both judge that at the set that is asked about.

A sheet with more than 16 open marks is skipped, since the program does not list it; any other refusal is a difference.
"""

import argparse
import os
import random
import shlex
import sys

HERE = os.path.dirname(os.path.abspath(__file__))
sys.path[:0] = [HERE, os.path.join(HERE, "..", "oracle")]
sys.dont_write_bytecode = True
import compare                                                  # noqa: E402
import oracle                                                   # noqa: E402
import sheets                                                   # noqa: E402
import to_clingo                                                # noqa: E402

FEW = 12                    # up to so many marks, all sets are tried
KINDS = ["without loads", "with loads that do not depend on themselves",
         "with loads that do, where both definitions agree", "with loads that do, where they differ",
         "with loads that do, not tried"]
ALIKE = KINDS[:3]           # where all is compared; of the others only that each standing is a model


class Difference(Exception):
    pass


# ---------------------------------------------------------------- the two definitions


def needs(sheet):
    """What each head needs to be on before it, by its rules: plain items, and what its loads weigh."""
    needed = [0] * len(sheet.names)
    for head, plain, _, loads in sheet.rules:
        needed[head] |= plain
        for i in loads:
            needed[head] |= weighed(sheet.loads[i])
    return needed


def weighed(load):
    return sum({1 << atom for _, _, atom in load[2]})


def reached(needed, start):
    """The start, and all that it needs, directly or not."""
    def step(c):
        for atom in oracle.members(c):
            c |= needed[atom]
        return c
    return oracle.climb(step, start)


def depends_on_itself(sheet):
    """Is there a load that needs a head which needs the load?"""
    needed = needs(sheet)
    return any(reached(needed, weighed(sheet.loads[i])) >> head & 1 for head, _, _, loads in sheet.rules for i in loads)


def clingo_holds(load, s, z):
    """Does the load hold at s, if what it negates is judged at z?"""
    comparison, limit, entries = load
    total = sum(weight for weight, negated, atom in entries if (not z >> atom & 1 if negated else s >> atom & 1))
    return {"<=": total <= limit, ">=": total >= limit, "=": total == limit, "!=": total != limit}[comparison]


def clingo_step(sheet, s, z):
    """The heads whose rules ask for them at s, if what is negated is judged at z; a load has to hold at both."""
    out = 0
    for head, plain, negative, loads in sheet.rules:
        if oracle.within(plain, s) and oracle.apart(negative, z) and all(
                clingo_holds(sheet.loads[i], t, z) for i in loads for t in (s, z)):
            out |= 1 << head
    for atom, attackers in sheet.relays.items():
        if oracle.apart(attackers, z):
            out |= 1 << atom
    return out


def smaller(z):
    """The sets within z other than z."""
    s = z
    while s:
        s = s - 1 & z
        yield s


def clingo_stable(sheet, z):
    """clingo's definition: z is a model, and no smaller set is one of the program that is left when z is tried."""
    return clingo_step(sheet, z, z) == z and not any(oracle.within(clingo_step(sheet, s, z), s) for s in smaller(z))


def kind_of(sheet):
    if not any(loads for _, _, _, loads in sheet.rules):
        return KINDS[0], None
    if not depends_on_itself(sheet):
        return KINDS[1], None
    if len(sheet.names) > FEW:
        return KINDS[4], None
    board = oracle.Board(sheet)
    theirs = [z for z in range(board.all + 1) if clingo_stable(sheet, z)]
    ours = [z for z in range(board.all + 1) if board.stable_by_climb(z)]
    return KINDS[2] if ours == theirs else KINDS[3], theirs


# ---------------------------------------------------------------- one sheet


def read_answer(sheet, text):
    """The settled bounds and the standings that a program prints; no standings where it lists none."""
    atoms = {name: atom for atom, name in enumerate(sheet.names)}
    lines = text.split("\n")
    if lines.pop() != "":
        raise Difference("the last line is not ended")
    lower = upper = 0
    for atom, name in enumerate(sheet.names):
        words = lines.pop(0).split(" ") if lines else []
        if words[:1] != [name] or words[1:] not in (["on"], ["off"], ["open"]):
            raise Difference(f"no line for {name}, or not as it should be")
        lower |= (words[1] == "on") << atom
        upper |= (words[1] != "off") << atom
    open_marks = oracle.count(upper & ~lower)
    if open_marks > oracle.MAX_OPEN:
        if lines != [f"refused 15 bench 0 {open_marks}"]:
            raise Difference("refusal 15 is missing")
        return lower, upper, None
    standings = []
    for line in lines[:-1]:
        words = line.split(" ")
        on = [atoms.get(word, -1) for word in words[1:]]
        if words[0] != "standing" or on != sorted(set(on)) or -1 in on:
            raise Difference(f"no standing: {line}")
        standings.append(sum(1 << atom for atom in on))
    if lines[-1:] != [f"total {len(standings)}"]:
        raise Difference(f"{len(standings)} standings, but the last line is not that total")
    return lower, upper, standings


def check_default(sheet, data, models, tally):
    """Prints the sheet if clingo answers otherwise without `--eq=0`."""
    others = to_clingo.in_order(set(to_clingo.models(sheet, to_clingo.BY_DEFAULT)))
    if others != models:
        tally["otherwise"] += 1
        print(f"without --eq=0 clingo says {others} and not {models} of\n{data.decode('ascii')}")


def check(command, data, tally, with_default):
    """Compares one sheet, and counts it."""
    sheet = oracle.read_sheet(data)
    said, end = compare.run(command, data)
    if end:
        raise Difference(end)
    lower, upper, standings = read_answer(sheet, said.decode("latin-1"))
    if standings is None:
        tally["skipped"] += 1
        return
    if standings != to_clingo.in_order(set(standings)):
        raise Difference("the standings are out of order, or one stands twice")
    if not all(oracle.within(lower, z) and oracle.within(z, upper) for z in standings):
        raise Difference("a standing is not within the settled bounds")
    kind, tried = kind_of(sheet)
    listed = to_clingo.models(sheet)
    models = to_clingo.in_order(set(listed))
    tally["repeated"] += len(models) < len(listed)
    if with_default:
        check_default(sheet, data, models, tally)
    if tried is not None and models != to_clingo.in_order(tried):
        raise Difference(f"clingo does not keep to its own definition: {models}, and by that {tried}")
    if standings != models if kind in ALIKE else set(standings) - set(models):
        raise Difference(f"{kind}: clingo says\n" + "".join(
            " ".join(["standing"] + [sheet.names[atom] for atom in oracle.members(z)]) + "\n" for z in models))
    tally[kind] += 1
    if kind in ALIKE:
        tally["standings"] += len(standings)
        tally["none"] += not standings
        tally["most"] = max(tally["most"], len(standings))
        tally["relays too"] += bool(sheet.relays) and bool(sheet.rules)
        tally["relays only"] += bool(sheet.relays) and not sheet.rules
        tally["both"] += any(rule[0] in sheet.relays for rule in sheet.rules)


def lawful(source):
    for data in source:
        try:
            oracle.read_sheet(data)
            yield data
        except oracle.Refused:
            pass


def random_sheets(rng):
    """Sheets without end."""
    while True:
        yield sheets.valid(rng, rules=rng.random() < 0.9)


def main():
    parser = argparse.ArgumentParser(usage=__doc__.split("\n\n")[1].strip())
    parser.add_argument("program")
    parser.add_argument("--count", type=int, default=1000)
    parser.add_argument("--seed", type=int, default=1)
    parser.add_argument("--save", default="difference.sheet")
    parser.add_argument("--corpus")
    parser.add_argument("--default", action="store_true")
    args = parser.parse_args()
    command = shlex.split(args.program)

    if args.corpus:
        source = lawful(compare.corpus(args.corpus))
    else:
        endless = random_sheets(random.Random(args.seed))
        source = (next(endless) for _ in range(args.count))
    tally = {key: 0 for key in KINDS + ["skipped", "repeated", "otherwise", "standings", "none", "most", "relays too", "relays only", "both"]}
    for data in source:
        try:
            check(command, data, tally, args.default)
        except Difference as difference:
            with open(args.save, "wb") as out:
                out.write(data)
            done = sum(tally[kind] for kind in KINDS)
            print(f"{done} agreed, then a difference; the sheet is in {args.save}\n{difference}")
            sys.exit(1)
    print(f"{sum(tally[kind] for kind in ALIKE)} agreed: " + ", ".join(f"{tally[kind]} {kind}" for kind in ALIKE))
    print(f"    with {tally['standings']} standings, at most {tally['most']}; {tally['none']} with none; "
          f"{tally['relays too']} with rules and relay lines, {tally['both']} with a mark that has both, "
          f"{tally['relays only']} with relay lines only")
    print("each standing is a model: " + ", ".join(f"{tally[kind]} {kind}" for kind in KINDS[3:]))
    print(f"skipped, with more than {oracle.MAX_OPEN} open: {tally['skipped']}; "
          f"clingo lists a model more than once: {tally['repeated']}" +
          (f"; without --eq=0 it answers otherwise: {tally['otherwise']}" if args.default else ""))


if __name__ == "__main__":
    main()
