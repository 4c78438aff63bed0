#!/usr/bin/env python3
"""Runs a program and the oracle on random sheets, and stops at the first difference.

    compare.py PROGRAM [--mode relays|settle|whole] [--count N] [--seed S] [--plain] [--save FILE] [--corpus FOLDER]

    PROGRAM          a command that reads one sheet on standard input; words after spaces are its arguments
    --mode           what it is to print (whole): for relays and settle see oracle.py
    --count          how many random sheets (1000); lawful ones, and ones damaged in bytes, words, lines and numbers
    --seed           another seed gives other sheets (1)
    --plain          the oracle takes the plain reading; PROGRAM has to be told so in its own arguments
    --save           where the sheet with a difference goes (difference.sheet)
    --corpus         runs the cases of that folder's cases.bin in place of random sheets

Only what is printed on standard output counts, and that the program was not killed by a signal or the time limit.
"""

import argparse
import os
import random
import shlex
import subprocess
import sys

HERE = os.path.dirname(os.path.abspath(__file__))
sys.path[:0] = [HERE, os.path.join(HERE, "..", "oracle")]
sys.dont_write_bytecode = True
import oracle                                                   # noqa: E402
import sheets                                                   # noqa: E402

TIME_LIMIT = 60             # seconds for one run of the program
MANY_OPEN = 10              # with more open atoms the oracle is slow, so most such sheets are left out


def random_sheets(rng, mode, plain):
    """Sheets without end."""
    while True:
        few_rules = 0.4 if mode == "relays" else 0.9
        data = sheets.valid(rng, rules=rng.random() < few_rules)
        if rng.random() < 0.55:
            data = sheets.damaged(rng, data)
        if mode == "whole" and rng.random() < 0.98 and MANY_OPEN < open_atoms(data, plain) <= oracle.MAX_OPEN:
            continue
        yield data


def open_atoms(data, plain):
    try:
        l, u = oracle.Board(oracle.read_sheet(data), plain).settled()
        return oracle.count(u & ~l)
    except oracle.Refused:
        return 0


def corpus(folder):
    """The cases of a corpus."""
    data = open(os.path.join(folder, "cases.bin"), "rb").read()
    while data:
        length, _, data = data.partition(b"\n")
        yield data[:int(length)]
        data = data[int(length):]


def run(command, data):
    """What the program prints, and how it ended if that was no proper end."""
    try:
        done = subprocess.run(command, input=data, stdout=subprocess.PIPE, stderr=subprocess.DEVNULL,
                              timeout=TIME_LIMIT)
    except subprocess.TimeoutExpired:
        return b"", f"not done after {TIME_LIMIT} seconds"
    return done.stdout, f"killed by signal {-done.returncode}" if done.returncode < 0 else ""


def main():
    parser = argparse.ArgumentParser(usage=__doc__.split("\n\n")[1].strip())
    parser.add_argument("program")
    parser.add_argument("--mode", choices=["relays", "settle", "whole"], default="whole")
    parser.add_argument("--count", type=int, default=1000)
    parser.add_argument("--seed", type=int, default=1)
    parser.add_argument("--plain", action="store_true")
    parser.add_argument("--save", default="difference.sheet")
    parser.add_argument("--corpus")
    args = parser.parse_args()
    command = shlex.split(args.program)

    if args.corpus:
        source = corpus(args.corpus)
    else:
        endless = random_sheets(random.Random(args.seed), args.mode, args.plain)
        source = (next(endless) for _ in range(args.count))
    agreed = 0
    kinds = {}                                                  # how many of each refusal, and of lawful sheets
    for data in source:
        expected = oracle.answer(data, args.mode, args.plain)
        got, end = run(command, data)
        if got != expected.encode("ascii") or end:
            with open(args.save, "wb") as out:
                out.write(data)
            print(f"{agreed} agreed, then a difference; the sheet is in {args.save}")
            print("--- the oracle:\n" + expected + "--- the program:\n" + got.decode("latin-1") + end)
            sys.exit(1)
        agreed += 1
        words = expected.split()
        unread = words[0] == "refused" and words[2:3] in (["text"], ["sheet"])
        kind = "refused " + words[1] if unread else "lawful"
        kinds[kind] = kinds.get(kind, 0) + 1
    print(f"{agreed} agreed: " + ", ".join(f"{kinds[kind]} {kind}" for kind in sorted(
        kinds, key=lambda kind: (kind != "lawful", int((kind.split() + ["0"])[1])))))


if __name__ == "__main__":
    main()
