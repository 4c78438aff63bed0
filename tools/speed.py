#!/usr/bin/env python3
"""Times the bench and clingo on the same sheets, and prints a table.

    speed.py [--runs N] [--program COMMAND] [--cpu] [--only WORD]

    --runs           how often each is run (20); the quickest counts. Slow sheets take half a minute each at most, if that is 3 runs
    --program        the bench (crates/bench/out/bench, which tools/bench builds)
    --cpu            the processor's time in place of the time from start to end; steadier on a busy machine
    --only           only the sheets whose family has that word in its name

Whole runs count: the start of the process, reading, settling or grounding, and listing all standings or models, which are
written to a file. clingo gets the sheet as to_clingo.py translates it; the translation is not timed. Its options are
`0 -Wnone --eq=0 -V0`: all models, each printed in one line, and nothing else but how it ended. `by default` is without
`--eq=0`. `solving` is what clingo reports of itself, in whole milliseconds by the clock: from where it has ground the program
to its last model. Before a sheet is timed, the bench's answer is compared with clingo's: both have to list the same.
"""

import argparse
import json
import os
import random
import shlex
import subprocess
import sys
import tempfile
import time

HERE = os.path.dirname(os.path.abspath(__file__))
ROOT = os.path.join(HERE, "..")
sys.path[:0] = [HERE, os.path.join(ROOT, "oracle")]
sys.dont_write_bytecode = True
import compare_clingo                                           # noqa: E402
import oracle                                                   # noqa: E402
import sheets                                                   # noqa: E402
import to_clingo                                                # noqa: E402

WITH_EQ_0 = [*to_clingo.CLINGO, "-V0"]
BY_DEFAULT = [*to_clingo.BY_DEFAULT, "-V0"]
LONGEST = 30.0              # seconds for all runs of one sheet; at least 3 runs


def marks(number):
    return [f"m{i}" for i in range(number)]


def pairs(names):
    """Even rings of two."""
    return [f"{one} if not {other}" for a, b in zip(names[::2], names[1::2]) for one, other in [(a, b), (b, a)]]


def ring(names):
    return [f"{one} if not {next}" for one, next in zip(names, names[1:] + names[:1])]


# ---------------------------------------------------------------- the families: (what, sheet)


def nothing():
    yield "one mark, nothing else", sheets.join([["a"], [], [], []])


def even_rings():
    for number in range(9):
        names = marks(max(1, 2 * number))
        yield f"{number} even rings of 2: {2 * number} open", sheets.join([names, [], pairs(names), []])


def odd_rings():
    for number in (1, 3, 5):
        names = marks(3 * number)
        rules = [rule for i in range(number) for rule in ring(names[3 * i:3 * i + 3])]
        yield f"odd rings of 3: {number}", sheets.join([names, [], rules, []])


def long_rings():
    for number in (15, 16):
        yield f"one ring of {number}", sheets.join([marks(number), [], ring(marks(number)), []])


def counts():
    for number in (8, 10, 12, 14, 16):
        names = marks(number)
        loads = [" ".join(["count", "<=", str(number // 2 - 1)] + [b for b in names if b != a]) for a in names]
        rules = [f"{a} if load {i}" for i, a in enumerate(names)]
        yield f"{number} marks, each if at most {number // 2 - 1} others", sheets.join([names, loads, rules, []])


def chains():
    for number in (8, 16, 32, 64):
        names = marks(number)
        relays = [f"{a} ! {b}" for a, b in zip(names, names[1:])] + [f"{names[-1]} !"]
        yield f"chain of {number} relays", sheets.join([names, [], [], relays])


def layered(rng, names, number):
    """Rules of three conditions each, all on marks before their head, which is not one of the first eight."""
    lines = []
    for _ in range(number):
        head = rng.randrange(8, len(names))
        lines.append(" ".join([names[head], "if"] + [rng.choice(["", "not "]) + names[rng.randrange(head)] for _ in range(3)]))
    return lines


def stratified_rules():
    names = marks(64)
    lines = layered(random.Random(1), names, 128)
    for number in (16, 32, 64, 128):
        yield f"{number} rules in layers, all settled", sheets.join([names, [], lines[:number], []])


def open_rules():
    """Rules over four even rings."""
    names = marks(16)
    lines = layered(random.Random(2), names, 120)
    for number in (16, 32, 64, 128):
        rules = pairs(names[:8]) + lines[:number - 8]
        yield f"{number} rules, 4 even rings below", sheets.join([names, [], rules, []])


def sums(rng, names, number):
    """Loads of 16 entries, with a limit about the middle."""
    lines = []
    for i in range(number):
        weights = [rng.randint(-9, 9) for _ in range(16)]
        limit = sum(weight for weight in weights if rng.random() < 0.5)
        entries = [f"{weight} {rng.choice(['', 'not '])}{rng.choice(names)}" for weight in weights]
        lines.append(" ".join(["sum", ["<=", ">=", "=", "!="][i % 4], str(limit)] + entries))
    return lines


def settled_loads():
    rng = random.Random(3)
    names = marks(64)
    loads = sums(rng, names[:32], 32)
    facts = names[:16]
    for number in (4, 8, 16, 32):
        rules = facts + [f"{names[32 + i]} if load {i}" for i in range(number)]
        yield f"{number} sums of 16 entries, all settled", sheets.join([names, loads[:number], rules, []])


def open_loads():
    """Sums over four even rings."""
    rng = random.Random(4)
    names = marks(16)
    loads = sums(rng, names[:8], 32)
    for number in (4, 8, 16, 32):
        rules = pairs(names[:8]) + [f"{names[8 + i % 8]} if load {i}" for i in range(number)]
        yield f"{number} sums of 16 entries over 4 even rings", sheets.join([names, loads[:number], rules, []])


FAMILIES = [nothing, even_rings, odd_rings, long_rings, counts, chains, stratified_rules, open_rules, settled_loads, open_loads]


# ---------------------------------------------------------------- timing


def once(command, source, folder, cpu):
    """The milliseconds of one run."""
    with open(source, "rb") as given, open(os.path.join(folder, "out"), "wb") as out:
        before = time.perf_counter()
        pid = os.posix_spawnp(command[0], command, os.environ, file_actions=[
            (os.POSIX_SPAWN_DUP2, given.fileno(), 0), (os.POSIX_SPAWN_DUP2, out.fileno(), 1)])
        _, _, used = os.wait4(pid, 0)
        after = time.perf_counter()
    return 1000 * (used.ru_utime + used.ru_stime if cpu else after - before)


def quickest(sheets_runs, folder, runs, cpu):
    """The least milliseconds of each command of each sheet. All take turns, so that a busy minute meets all of them."""
    best = [[float("inf")] * len(commands) for commands in sheets_runs]
    spent = [0.0] * len(sheets_runs)
    for run in range(runs):
        for i, commands in enumerate(sheets_runs):
            if run < 3 or spent[i] < LONGEST:
                before = time.perf_counter()
                best[i] = [min(least, once(*command, folder, cpu)) for least, command in zip(best[i], commands)]
                spent[i] += time.perf_counter() - before
    return best


def solving(source, runs):
    """What clingo reports as its solving time, in milliseconds."""
    found = []
    for _ in range(min(runs, 10)):
        with open(source, "rb") as given:
            done = subprocess.run([*to_clingo.CLINGO, "--outf=2"], stdin=given, stdout=subprocess.PIPE)
        found.append(round(1000 * json.loads(done.stdout)["Time"]["Solve"]))
    return min(found)


def alike(program, data):
    """The number of standings, if both list the same."""
    sheet = oracle.read_sheet(data)
    said = subprocess.run(program, input=data, stdout=subprocess.PIPE, check=True).stdout.decode("ascii")
    _, _, standings = compare_clingo.read_answer(sheet, said)
    if standings != to_clingo.in_order(set(to_clingo.models(sheet))):
        raise SystemExit("speed.py: the bench and clingo do not list the same of\n" + data.decode("ascii"))
    return len(standings)


def digits(number):
    return f"{number:.0f}" if number >= 100 else f"{number:.1f}" if number >= 1 else f"{number:.2f}"


def main():
    parser = argparse.ArgumentParser(usage=__doc__.split("\n\n")[1].strip())
    parser.add_argument("--runs", type=int, default=20)
    parser.add_argument("--program", default=os.path.join(ROOT, "crates", "bench", "out", "bench"))
    parser.add_argument("--cpu", action="store_true")
    parser.add_argument("--only", default="")
    args = parser.parse_args()
    program = shlex.split(args.program)
    if not os.path.exists(program[0]):
        sys.exit(f"speed.py: there is no {program[0]}; tools/bench builds the bench")

    load = lambda: " ".join(f"{one:.1f}" for one in os.getloadavg())
    print(f"{'Processor time' if args.cpu else 'Time from start to end'}, milliseconds, the least of up to {args.runs} runs; "
          f"{os.cpu_count()} processors, load {load()} at first\n")
    with tempfile.TemporaryDirectory() as folder:
        rows, sheets_runs = [], []
        for what, data in (case for family in FAMILIES if args.only in family.__name__ for case in family()):
            sheet, translated = (os.path.join(folder, f"{kind}{len(rows)}") for kind in ("sheet", "program"))
            with open(sheet, "wb") as out:
                out.write(data)
            with open(translated, "w") as out:
                out.write(to_clingo.program(oracle.read_sheet(data)))
            rows.append((what, alike(program, data), solving(translated, args.runs)))
            sheets_runs.append([(program, sheet), (WITH_EQ_0, translated), (BY_DEFAULT, translated)])
        best = quickest(sheets_runs, folder, args.runs, args.cpu)
    print("| sheet | standings | bench | clingo | by default | clingo / bench | solving |\n|---|---|---|---|---|---|---|")
    for (what, number, solved), (bench, clingo, default) in zip(rows, best):
        print(f"| {what} | {number} | {digits(bench)} | {digits(clingo)} | {digits(default)} | "
              f"{digits(clingo / bench)} | {solved} |")
    print(f"\nload {load()} at last")


if __name__ == "__main__":
    main()
