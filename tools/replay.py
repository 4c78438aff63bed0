#!/usr/bin/env python3
"""Replays random command scripts through the keeper and the oracle's listing, and stops at the first difference.

    replay.py KEEPER [--count N] [--seed S] [--save FOLDER]

    KEEPER           a command that takes a sheet's path as its last argument and a command a line on standard input
    --count          how many scripts (1000), each with a sheet of its own
    --seed           another seed gives other scripts (1)
    --save           the folder that gets the sheet, the script and both answers of a difference (difference)

A script has next, peg, pull, rewind, tally, marks and close in random order, some of them ill said, and ends with a granted
close, or with more lines after it, or without one. What is printed has to be, line for line, what oracle/listing.py says.
"""

import argparse
import os
import random
import re
import shlex
import subprocess
import sys
import tempfile

HERE = os.path.dirname(os.path.abspath(__file__))
sys.path[:0] = [HERE, os.path.join(HERE, "..", "oracle")]
sys.dont_write_bytecode = True
import compare                                                  # noqa: E402
import listing                                                  # noqa: E402
import oracle                                                   # noqa: E402
import sheets                                                   # noqa: E402

ILL_SAID = ["", " ", "next ", " next", "Next", "nexts", "next 1", "tally all", "rewind rewind", "marks a", "close now", "peg",
            "pull", "peg ", "peg  on", "peg on", "pull off", "peg a", "peg a b", "peg a On", "peg a on ", "peg a on off",
            "pull  a on", "pull a", "pull a offf", "light", "list", "standing", "peg\ta on", "peg on on", "peg not off",
            "quit"]


def random_sheet(rng):
    """A sheet, mostly lawful and with a few standings."""
    few = rng.random() < 0.1
    while True:
        data = sheets.valid(rng, rules=rng.random() < 0.9)
        some_open = compare.open_atoms(data, False)
        if rng.random() < 0.01:
            return sheets.damaged(rng, data)
        if some_open > compare.MANY_OPEN and rng.random() > 0.01:
            continue
        if few or some_open > oracle.MAX_OPEN or some_open >= 2 and oracle.answer(data).count("standing ") > 2:
            return data


def random_script(rng, data):
    """The lines of a script."""
    try:
        sheet = oracle.read_sheet(data)
        lower, upper = oracle.Board(sheet).settled()
    except oracle.Refused:
        return ["next", "close"]
    names = sheet.names
    open_names = [names[atom] for atom in oracle.members(upper & ~lower)] or names
    in_force = []                                               # (name, side), as far as is known here
    script = []
    for _ in range(rng.choice([0, 1, 3, 10, 20, 40, 80])):
        what = rng.random()
        if what < 0.35:
            script += ["next"] * rng.choice([1, 1, 1, 1, 2, 3])
        elif what < 0.60:
            name = rng.choice(open_names if rng.random() < 0.8 else names + ["zz9", "on", "if"])
            side = rng.choice(["on", "off"])
            script.append(f"peg {name} {side}")
            if name in names and all(name != other for other, _ in in_force):
                in_force.append((name, side))
        elif what < 0.78:
            if in_force and rng.random() < 0.75:
                name, side = in_force.pop(rng.randrange(len(in_force)))
            else:
                name, side = rng.choice(names + ["zz9"]), rng.choice(["on", "off"])
                in_force = [peg for peg in in_force if peg != (name, side)]
            script.append(f"pull {name} {side}")
        elif what < 0.84:
            script.append("rewind")
        elif what < 0.90:
            script.append("tally")
        elif what < 0.92:
            script.append("marks")
        elif what < 0.95 and (in_force or rng.random() < 0.1):
            script.append("close")
        else:
            script.append(rng.choice(ILL_SAID))
    if rng.random() < 0.5:
        script += [f"pull {name} {side}" for name, side in in_force] if rng.random() < 0.7 else []
        script += ["close"] + ["next"] * rng.choice([0, 0, 1])
    return script


def run(command, folder, data, script):
    """What the keeper prints, and how it ended if that was no proper end."""
    with open(os.path.join(folder, "replay.sheet"), "wb") as out:
        out.write(data)
    try:
        done = subprocess.run([*command, "replay.sheet"], input=text_of(script), stdout=subprocess.PIPE,
                              stderr=subprocess.DEVNULL, timeout=compare.TIME_LIMIT, cwd=folder)
    except subprocess.TimeoutExpired:
        return b"", f"not done after {compare.TIME_LIMIT} seconds"
    return done.stdout, f"status {done.returncode}" if done.returncode else ""


def text_of(lines):
    return "".join(line + "\n" for line in lines).encode("ascii")


def kind_of(line, reply):
    """What a command came to."""
    if re.match("refused [0-9]", reply):
        return reply.split(":")[0]
    if line in ("next", "rewind", "tally", "marks", "close"):
        return line if line != "next" else "no more" if reply == "no more" else "standing"
    return line.split(" ")[0] if reply.endswith("pegged on") or reply.endswith("pegged off") else "ill said"


def count_kinds(script, expected, counts):
    """Counts the commands by what they came to."""
    if expected[0].startswith("refused") and ":" not in expected[0]:
        kinds = ["sheet refused"]
    else:
        kinds = [kind_of(line, reply) for line, reply in zip(script, expected)]
    for kind in kinds:
        counts[kind] = counts.get(kind, 0) + 1


def save(folder, files):
    os.makedirs(folder, exist_ok=True)
    for name, content in files.items():
        with open(os.path.join(folder, name), "wb") as out:
            out.write(content)


def main():
    parser = argparse.ArgumentParser(usage=__doc__.split("\n\n")[1].strip())
    parser.add_argument("keeper")
    parser.add_argument("--count", type=int, default=1000)
    parser.add_argument("--seed", type=int, default=1)
    parser.add_argument("--save", default="difference")
    args = parser.parse_args()
    command = [os.path.abspath(word) if os.path.exists(word) else word for word in shlex.split(args.keeper)]

    rng = random.Random(args.seed)
    counts = {}
    with tempfile.TemporaryDirectory() as folder:
        for number in range(args.count):
            data = random_sheet(rng)
            script = random_script(rng, data)
            expected = listing.replies(data, script)
            got, end = run(command, folder, data, script)
            if got != text_of(expected) or end:
                save(args.save, {"replay.sheet": data, "script": text_of(script), "oracle": text_of(expected), "keeper": got})
                print(f"{number} agreed, then a difference, which is in {args.save}/: {end}")
                lines = zip(script + ["(the end)"], expected + ["(nothing)"], got.decode("latin-1").split("\n"))
                for at, (line, wanted, reply) in enumerate(lines, 1):
                    if wanted != reply:
                        print(f"line {at}, '{line}'\n--- the oracle: {wanted}\n--- the keeper: {reply}")
                        break
                sys.exit(1)
            count_kinds(script, expected, counts)
    print(f"{args.count} agreed: " + ", ".join(f"{counts[key]} {key}" for key in sorted(counts)))


if __name__ == "__main__":
    main()
