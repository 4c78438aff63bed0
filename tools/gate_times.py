#!/usr/bin/env python3
"""Runs the gate and prints what each crate costs it.

    gate_times.py [--log FILE] [COMMAND ..]

    --log      what the gate prints goes there (gate.log)
    COMMAND    another command than .ci/run

A crate's cost is the processor's time of the provers and compilers that had its name, seen twice a second: for its own proof,
tests and program, and for its planted bugs, which are tried in folders of their own. What the machine has passed before the
gate doesn't prove again, so times from nothing are had on a machine that has passed nothing, or with `rt ci --anew`.
"""

import argparse
import os
import subprocess
import sys
import time

ROOT = os.path.join(os.path.dirname(os.path.abspath(__file__)), "..")
EDITS = "/tmp/rt-edit-"
TICKS = os.sysconf("SC_CLK_TCK")


def crate_of(process):
    """The crate that a process works on, if it is told one, and whether it tries a planted bug."""
    with open(f"/proc/{process}/cmdline", "rb") as line:
        words = line.read().split(b"\0")
    if b"--crate-name" not in words:
        return None
    name = words[words.index(b"--crate-name") + 1].decode()
    return name, os.readlink(f"/proc/{process}/cwd").startswith(EDITS)


def state_of(process):
    """Who started a process, when it began, and the seconds of a processor that it has had."""
    with open(f"/proc/{process}/stat") as line:
        fields = line.read().rpartition(")")[2].split()
    return fields[1], int(fields[19]), (int(fields[11]) + int(fields[12])) / TICKS


def below(process, gate):
    """Whether the gate started a process, or one that did."""
    while process not in (gate, "0"):
        process = state_of(process)[0]
    return process == gate


def look(seen, gate):
    for process in filter(str.isdigit, os.listdir("/proc")):
        try:
            whose = crate_of(process)
            if whose is not None and below(process, gate):
                _, began, seconds = state_of(process)
                seen[process, began] = whose, seconds
        except (FileNotFoundError, ProcessLookupError, PermissionError):
            pass


def crates():
    with open(os.path.join(ROOT, "crates.txt")) as lines:
        return [line.split(":")[0] for line in lines if line.strip() and not line.startswith("#")]


def main():
    parser = argparse.ArgumentParser(usage=__doc__.split("\n\n")[1].strip())
    parser.add_argument("--log", default="gate.log")
    parser.add_argument("command", nargs=argparse.REMAINDER)
    args = parser.parse_args()
    seen = {}
    start = time.monotonic()
    with open(args.log, "w") as log:
        gate = subprocess.Popen(args.command or [".ci/run"], cwd=ROOT, stdout=log, stderr=subprocess.STDOUT, stdin=subprocess.DEVNULL)
        while gate.poll() is None:
            look(seen, str(gate.pid))
            time.sleep(0.5)
    minutes = (time.monotonic() - start) / 60
    cost = {}
    for whose, seconds in seen.values():
        cost[whose] = cost.get(whose, 0) + seconds
    print("| crate | proof, s | planted bugs, s |\n|---|---|---|")
    for name in crates():
        print(f"| {name} | {cost.get((name, False), 0):.0f} | {cost.get((name, True), 0):.0f} |")
    print(f"| all | {sum(s for (_, edit), s in cost.items() if not edit):.0f} | {sum(s for (_, edit), s in cost.items() if edit):.0f} |")
    print(f"\n{minutes:.1f} minutes by the clock; {gate.returncode} is how it ended")
    sys.exit(gate.returncode)


if __name__ == "__main__":
    main()
