#!/usr/bin/env python3
"""Tests of the oracle by itself.

    selftest.py [FOLDER]    FOLDER has NAME.sheet with NAME.expect, and NAME.args where the reading is not the bound
                            one; without it the examples beside this file

1. Every example prints what was worked out for it by hand.
2. On random small sheets, the oracle's answer is that of a third way of saying the same, below, which uses Python sets
   in place of bits, lists every choice of the open entries of a load in place of low and high, and looks for the stable
   sets among all subsets and not only between the settled bounds.
3. The two ways to decide stable agree on every subset.
4. The laws that settling rests on: narrower bounds give no less that is sure and no more that may be, and where both
   bounds are one set, sure and may agree.
"""

import os
import random
import sys
from itertools import chain, combinations, product

HERE = os.path.dirname(os.path.abspath(__file__))
sys.path[:0] = [HERE, os.path.join(HERE, "..", "tools")]
sys.dont_write_bytecode = True
import oracle                                                   # noqa: E402
import sheets                                                   # noqa: E402


# ---------------------------------------------------------------- 1. the examples


def examples(folder):
    done = skipped = 0
    for file in sorted(os.listdir(folder)):
        if not file.endswith(".sheet"):
            continue
        stem = os.path.join(folder, file[:-len(".sheet")])
        args = open(stem + ".args").read().split() if os.path.exists(stem + ".args") else []
        if args not in ([], ["--plain"], ["--reading", "plain"], ["--reading", "bound"]):
            skipped += 1
            continue
        plain = args in (["--plain"], ["--reading", "plain"])
        got = oracle.answer(open(stem + ".sheet", "rb").read(), "whole", plain)
        assert got == open(stem + ".expect").read(), f"{file}:\n{got}"
        done += 1
    assert done > 0
    print(f"examples: {done} agree, {skipped} skipped (not a question for the oracle)")


# ---------------------------------------------------------------- 2. a third way


def subsets(items):
    items = sorted(items)
    return [frozenset(s) for s in chain.from_iterable(combinations(items, k) for k in range(len(items) + 1))]


def compare(comparison, value, limit):
    return {"<=": value <= limit, ">=": value >= limit, "=": value == limit, "!=": value != limit}[comparison]


def outcomes(load, l, u):
    """Every sum that a choice of the open entries gives (each entry chosen for itself), and whether one is open."""
    ways = []
    for weight, negated, atom in load[2]:
        values = {atom in l, atom in u}                         # what the atom may still be
        ways.append([weight if value != negated else 0 for value in values])
    return {sum(way) for way in product(*ways)}, any(len(way) > 1 for way in ways)


def verdict(load, l, u, plain):
    """(sure, may). Bound: low and high are the least and the greatest sum, and only these two count."""
    comparison, limit, _ = load
    sums, some_open = outcomes(load, l, u)
    if not some_open:
        truth = compare(comparison, sums.pop(), limit)
        return truth, truth
    if plain:
        return False, True
    low, high = min(sums), max(sums)
    # As if every number from low to high could be the sum; these are enough of them to tell.
    between = {value for value in (low, high, limit) if low <= value <= high}
    truths = {compare(comparison, value, limit) for value in between}
    return truths == {True}, True in truths


def third_way(text, plain):
    """The whole answer for a lawful sheet with few atoms."""
    sheet = oracle.read_sheet(text)                             # reading is tested by the cases, not here
    everything = frozenset(range(len(sheet.names)))
    rules = [(head, set(oracle.members(p)), set(oracle.members(n)), loads) for head, p, n, loads in sheet.rules]
    relays = {atom: set(oracle.members(attackers)) for atom, attackers in sheet.relays.items()}

    def both(l, u):
        verdicts = [verdict(load, l, u, plain) for load in sheet.loads]
        sure, may = set(), set()
        for head, p, n, loads in rules:
            if p <= l and not n & u and all(verdicts[i][0] for i in loads):
                sure.add(head)
            if p <= u and not n & l and all(verdicts[i][1] for i in loads):
                may.add(head)
        sure |= {atom for atom, attackers in relays.items() if not attackers & u}
        may |= {atom for atom, attackers in relays.items() if not attackers & l}
        return frozenset(sure), frozenset(may)

    sequence = [(frozenset(), everything)]
    while True:
        l, u = sequence[-1]
        lowers, uppers = [frozenset()], [l]
        while lowers.count(lowers[-1]) < 2:
            lowers.append(both(lowers[-1], u)[0])
        while uppers.count(uppers[-1]) < 2:
            uppers.append(both(l, uppers[-1])[1])
        assert lowers[-1] <= uppers[-1], "bounds that cross"
        sequence.append((lowers[-1], uppers[-1]))
        if sequence[-1] == sequence[-2]:
            break
    l, u = sequence[-1]

    stable = [z for z in subsets(everything)
              if both(z, z)[0] == z and not any(s != z and both(s, z)[0] <= s for s in subsets(z))]
    assert all(l <= z <= u for z in stable), "a stable set beyond the settled bounds"
    stable.sort(key=lambda z: [atom in z for atom in sorted(everything)])

    lines = [name + (" on" if atom in l else " open" if atom in u else " off") for atom, name in enumerate(sheet.names)]
    lines += [" ".join(["standing"] + [sheet.names[atom] for atom in sorted(z)]) for z in stable]
    return "\n".join(lines + [f"total {len(stable)}", ""]), len(stable)


def random_answers(rng, number):
    totals = {}
    for _ in range(number):
        text = sheets.valid(rng, atoms=rng.randint(1, 5), entries=5)
        plain = rng.random() < 0.3
        expected, total = third_way(text, plain)
        got = oracle.answer(text, "whole", plain)
        assert got == expected, f"{text.decode()}\ngot\n{got}\nexpected\n{expected}"
        atoms = len(oracle.read_sheet(text).names)
        atom_lines = "".join(got.splitlines(keepends=True)[:atoms])
        assert oracle.answer(text, "settle", plain) == atom_lines
        rules = "rules are not settled yet\n" if b"rules 0\n" not in text else atom_lines
        assert oracle.answer(text, "relays", plain) == rules
        totals[total] = totals.get(total, 0) + 1
    print(f"a third way: {number} answers agree; sheets by number of standings: {dict(sorted(totals.items()))}")


# ---------------------------------------------------------------- 3. stable, two ways


def stable_two_ways(rng, number):
    done = 0
    for _ in range(number):
        board = oracle.Board(oracle.read_sheet(sheets.valid(rng, atoms=rng.randint(1, 7))), rng.random() < 0.3)
        for z in range(board.all + 1):
            assert board.stable_by_definition(z) == board.stable_by_climb(z)
            done += 1
    print(f"stable: {done} sets decided alike in two ways")


# ---------------------------------------------------------------- 4. the laws


def laws(rng, number):
    for _ in range(number):
        board = oracle.Board(oracle.read_sheet(sheets.valid(rng, atoms=rng.randint(1, 10))), rng.random() < 0.3)
        for _ in range(20):
            u = rng.getrandbits(board.size)
            l = u & rng.getrandbits(board.size)
            inner_u = u & (l | rng.getrandbits(board.size))
            inner_l = inner_u & (l | rng.getrandbits(board.size))
            assert oracle.within(board.sure(l, u), board.sure(inner_l, inner_u))
            assert oracle.within(board.may(inner_l, inner_u), board.may(l, u))
            assert oracle.within(board.sure(l, u), board.may(l, u))
            assert board.sure(l, l) == board.may(l, l)
    print(f"laws: hold on {number} sheets")


if __name__ == "__main__":
    examples(sys.argv[1] if len(sys.argv) > 1 else os.path.join(HERE, "examples"))
    rng = random.Random(1)
    random_answers(rng, 1500)
    stable_two_ways(rng, 100)
    laws(rng, 200)
