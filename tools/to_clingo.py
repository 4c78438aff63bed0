#!/usr/bin/env python3
"""A sheet in the language of clingo, an answer set solver of another make, and what clingo says of it.

    to_clingo.py < SHEET         prints the program
    to_clingo.py --run < SHEET   runs clingo on it, and prints the models in listing order

Each rule is one rule, and each relay line `a ! b c` is the rule `a :- not b, not c.`; so a mark with both is on where either
gives it. A load stands where it is used, as a sum whose entries have their own tuples, since equal ones would count once:
`sum <= 5 2 a 2 a -1 not b` is `#sum { 2,0: a; 2,1: a; -1,2: not b } <= 5`, and a count is a sum of ones.

clingo runs with `--eq=0`. Without it clingo 5.4.1 answers some sums that depend on themselves wrongly (docs/PERFORMANCE.md).
"""

import json
import os
import subprocess
import sys

sys.path.insert(0, os.path.join(os.path.dirname(os.path.abspath(__file__)), "..", "oracle"))
sys.dont_write_bytecode = True
import oracle                                                   # noqa: E402

BY_DEFAULT = ["clingo", "0", "-Wnone"]                          # 0: all models
CLINGO = [*BY_DEFAULT, "--eq=0"]
TIME_LIMIT = 120            # seconds for one run


def literal(name, negated):
    return "not " + name if negated else name


def sum_of(load, names):
    """A load as an aggregate."""
    comparison, limit, entries = load
    elements = [f"{weight},{k}: {literal(names[atom], negated)}" for k, (weight, negated, atom) in enumerate(entries)]
    return "#sum { " + "; ".join(elements) + " } " + f"{comparison} {limit}"


def rule(head, items):
    return f"{head} :- {', '.join(items)}." if items else f"{head}."


def program(sheet):
    """The sheet as a program."""
    names = sheet.names
    lines = []
    for head, plain, negative, loads in sheet.rules:
        items = [names[atom] for atom in oracle.members(plain)]
        items += [literal(names[atom], True) for atom in oracle.members(negative)]
        items += [sum_of(sheet.loads[i], names) for i in loads]
        lines.append(rule(names[head], items))
    for atom, attackers in sheet.relays.items():
        lines.append(rule(names[atom], [literal(names[b], True) for b in oracle.members(attackers)]))
    return "".join(line + "\n" for line in lines)


def models(sheet, command=CLINGO):
    """All models that clingo lists, as sets of atoms, in the order in which it lists them."""
    done = subprocess.run([*command, "--outf=2"], input=program(sheet), stdout=subprocess.PIPE, stderr=subprocess.PIPE,
                          text=True, timeout=TIME_LIMIT)
    try:
        said = json.loads(done.stdout)
        # (a program without rules has one model and no calls of its own)
        assert said["Result"] in ("SATISFIABLE", "UNSATISFIABLE") and said["Models"]["More"] == "no"
    except (ValueError, KeyError, AssertionError):
        raise RuntimeError(f"clingo failed:\n{done.stdout}{done.stderr}")
    atoms = {name: atom for atom, name in enumerate(sheet.names)}
    found = [sum(1 << atoms[name] for name in witness["Value"])
             for call in said["Call"] for witness in call.get("Witnesses", [])]
    assert len(found) == said["Models"]["Number"]
    return found


def in_order(found):
    """Sorted into listing order: of two, the one that lacks the lowest atom in which they differ comes first."""
    width = max([z.bit_length() for z in found], default=0)
    return sorted(found, key=lambda z: [z >> atom & 1 for atom in range(width)])


def main(words):
    if set(words) - {"--run"}:
        sys.exit("usage: to_clingo.py [--run] < sheet")
    sheet = oracle.read_sheet(sys.stdin.buffer.read())
    if not words:
        sys.stdout.write(program(sheet))
        return
    for z in in_order(models(sheet)):
        print(" ".join(["standing"] + [sheet.names[atom] for atom in oracle.members(z)]))


if __name__ == "__main__":
    main(sys.argv[1:])
