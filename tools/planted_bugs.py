#!/usr/bin/env python3
"""Writes the list of planted bugs anew at the end of docs/PROOFS.md.

    planted_bugs.py [LOG]

    LOG    what the gate, or `rt must-fail`, printed: what each bug showed is taken from it. Of a bug that is not in it the page
           keeps what it says
"""

import glob
import os
import re
import sys

ROOT = os.path.join(os.path.dirname(os.path.abspath(__file__)), "..")
PAGE = os.path.join(ROOT, "docs", "PROOFS.md")
HEAD = """## Planted bugs

`crates/*/must-fail/` has edits that the prover must refuse; the gate tries each. Every one keeps the shape of the code and is meant to
turn what it does. What each changes, and what the check then no longer proves, the first that it names
(written by `tools/planted_bugs.py` from what the gate printed). A word after a colon names a clause. "Values show it": the
check found values that the facts allow and at which the clause is false; "the sides differ": it worked out both sides of an equation.
Where neither stands, the check says only that the clause is no longer proved, by its own search or by the answer that was written for
it; that the clause is false of the planted code is then read off the change, and not shown.
"""
REFUSED = re.compile(r"^rt: must-fail (\w+)/(\w+)\.edit: refused, as it must be: (.*)$", re.M)


def quoted(text):
    return "`" + text.replace("|", "\\|") + "`"


def pairs(said):
    return list(zip(*(re.findall(rf"^{word}: *(.*)$", said, re.M) for word in ("old", "new"))))


def cells(crate, said):
    """What an edit takes away and what it puts there: its one pair, or of several the lines that differ in the end."""
    changes = pairs(said)
    if len(changes) > 1:
        with open(os.path.join(ROOT, "crates", crate, re.search(r"^file: *(.*)$", said, re.M).group(1))) as source:
            old = new = source.read()
        for was, becomes in changes:
            new = new.replace(was, becomes)
        lines = zip(old.split("\n"), new.split("\n"))
        changes = [(was, becomes) for was, becomes in lines if was != becomes]
    return [" then ".join(quoted(side.strip()) for side in column) for column in zip(*changes)]


def function_at(crate, path, number):
    """The name of the function in which a line of a source stands, with its type's if it has one."""
    with open(os.path.join(ROOT, "crates", crate, path)) as source:
        lines = source.read().split("\n")
    while lines[number - 1].lstrip().startswith(("#[", "//", "impl")):
        number += 1
    above = lines[number - 1::-1]
    inside = (re.match(r"(\s*)(?:pub(?:\(\w+\))? )?(?:const )?fn (\w+)", line) for line in above)
    indent, name = next(found.groups() for found in inside if found)
    types = (re.match(r"impl(?:<.*?>)? (?:[\w:]+(?:<.*>)? for )?(\w+)", line) for line in above)
    return f"{next(found.group(1) for found in types if found)}::{name}" if indent else name


def goal_said(goal):
    """What a goal is about, by its name."""
    clause = re.search(r"-clause-(\w+)$", goal)
    if goal.startswith("returns"):
        return " ensures" + (f": `{clause.group(1)}`" if clause else "")
    if goal.startswith("invariant_of"):
        return ": the fact in a type that it makes"
    if goal.startswith("loop-"):
        return ": the invariant of its loop"
    if goal.startswith("overflow"):
        return ": that a number fits"
    if goal.endswith("-requires") or "-requires-" in goal:
        return f": what `{goal.split('-requires')[0].split('-')[0]}` requires"
    return f": `{goal}`"


def showed(crate, refusal):
    """What a refusal shows, in short."""
    at = re.match(r"note: (src/[\w/]+\.rt):(\d+):\d+: .*?\(`([^`]+)`\)(.*)", refusal)
    in_proof = re.match(r"\./proofs/([\w/+]+)/\w+\.antt:\d+:\d+: error: `([^`]+)`: (.*)", refusal)
    if at:
        name, goal, more = function_at(crate, at.group(1), int(at.group(2))), at.group(3), at.group(4)
    elif in_proof:
        places, goal, more = in_proof.group(1).split("/"), in_proof.group(2), in_proof.group(3)
        name = "::".join(part.lstrip("+") for part in places if part[0].isupper() or part == places[-1])
    else:
        return refusal.replace("|", "\\|")
    values = " (values show it)" if "allow values" in more else " (the sides differ)" if "differ" in more else ""
    return f"`{name}`{goal_said(goal)}{values}"


def said_before(text):
    """What the page says that each bug showed."""
    found, crate = {}, None
    for line in text.split("\n"):
        head = re.match(r"\| (\w+) \| was \| becomes \| no longer proved \|", line)
        row = re.match(r"\| (\w+) \| .* \| ([^|]*) \|$", line)
        if head:
            crate = head.group(1)
        elif row and crate:
            found[crate, row.group(1)] = row.group(2)
    return found


def crates():
    with open(os.path.join(ROOT, "crates.txt")) as lines:
        return [line.split(":")[0] for line in lines if line.strip() and not line.startswith("#")]


def main():
    with open(PAGE) as page:
        text = page.read()
    shown = said_before(text)
    for log in sys.argv[1:]:
        with open(log) as lines:
            shown.update({(crate, bug): showed(crate, refusal) for crate, bug, refusal in REFUSED.findall(lines.read())})
    text = text[: text.index("## Planted bugs")] + HEAD
    for crate in crates():
        edits = sorted(glob.glob(os.path.join(ROOT, "crates", crate, "must-fail", "*.edit")))
        if edits:
            text += f"\n| {crate} | was | becomes | no longer proved |\n|---|---|---|---|\n"
        for edit in edits:
            with open(edit) as lines:
                said = lines.read()
            name = os.path.basename(edit)[:-5]
            text += f"| {name} | {' | '.join(cells(crate, said))} | {shown.get((crate, name), '')} |\n"
    kinds = [said.rpartition("(")[2] for said in shown.values()]
    values, sides = kinds.count("values show it)"), kinds.count("the sides differ)")
    text += f"\nOf these {len(shown)} bugs values show {values}, the sides differ in {sides}, and of {len(shown) - values - sides} the check says only that.\n"
    with open(PAGE, "w") as page:
        page.write(text)


if __name__ == "__main__":
    main()
