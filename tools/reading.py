#!/usr/bin/env python3
"""Times the reading of long sheets alone, and prints a table.

    reading.py [--program FILE] [--copies N] [--runs N]

    --program    the program `cases` (crates/cases/out/cases, which `rt run` builds)
    --copies     how many copies of a sheet it reads in one run (1000)
    --runs       how often each is run (20); the quickest counts

Each sheet has about as many bytes as one may have, and a last word that cannot stand there: so all of it is read, and nothing is
settled. `cases` reads many sheets in one run, so the start of the process goes out: the time of a run with one copy is taken away.
"""

import argparse
import os
import string
import subprocess
import tempfile
import time

ROOT = os.path.join(os.path.dirname(os.path.abspath(__file__)), "..")
MOST = 16384


def sheet(names, loads, rules, relays, attackers):
    """All conditions name the last mark, so that each is compared with every name."""
    last = names[-1]
    lines = [f"marks {len(names)}", f"loads {loads}", f"rules {rules}", f"relays {relays}", *names]
    lines += ["count >= 1" + 16 * f" {last}"] * loads
    lines += [f"{last} if" + 16 * f" {last}"] * rules
    lines += [f"{name} !" + attackers * f" {last}" for name in names[:relays]]
    text = "\n".join(lines)
    return (text[:-len(last)] + "Z" * len(last) + "\n").encode()


def sheets():
    pairs = [a + b for a in "abcd" for b in string.ascii_lowercase]
    yield "64 names of one or two letters, 6848 words that name marks", sheet(pairs[:38] + list(string.ascii_lowercase), 32, 128, 64, 64)
    yield "64 names of two letters", sheet(pairs[:64], 20, 128, 40, 64)
    middles = [a + b for a in "ab" for b in string.ascii_lowercase + string.digits][:64]
    yield "64 names of nine letters, which begin and end alike", sheet([f"abcdaa{middle}e" for middle in middles], 0, 14, 20, 64)
    yield "64 names of 16 letters, which differ in the last two", sheet([f"abcdefghijklmn{i:02}" for i in range(64)], 0, 50, 0, 0)


def seconds(program, text, copies):
    with tempfile.TemporaryDirectory() as folder:
        with open(os.path.join(folder, "cases.bin"), "wb") as data:
            data.write((b"%d\n" % len(text) + text) * copies)
        start = time.perf_counter()
        said = subprocess.run([program], cwd=folder, stdout=subprocess.PIPE, check=True).stdout
        took = time.perf_counter() - start
    if said.count(b"\nrefused 8 sheet") != copies:
        raise SystemExit("a sheet was not refused at its last word")
    return took


def main():
    parser = argparse.ArgumentParser(usage=__doc__.split("\n\n")[1].strip())
    parser.add_argument("--program", default=os.path.join(ROOT, "crates", "cases", "out", "cases"))
    parser.add_argument("--copies", type=int, default=1000)
    parser.add_argument("--runs", type=int, default=20)
    args = parser.parse_args()
    program = os.path.abspath(args.program)
    print("| sheet | bytes | milliseconds |\n|---|---|---|")
    for what, text in sheets():
        assert len(text) <= MOST, len(text)
        one, many = (min(seconds(program, text, copies) for _ in range(args.runs)) for copies in (1, args.copies))
        print(f"| {what} | {len(text)} | {(many - one) / (args.copies - 1) * 1000:.2f} |")


if __name__ == "__main__":
    main()
