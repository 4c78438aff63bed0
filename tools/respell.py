#!/usr/bin/env python3
"""Brings the repository's own definitions and lemmas to one spelling: words in snake case, types in camel case.

usage: python3 tools/respell.py            at the top of the repository, once the toolchain's own script has run

A name is the repository's own where specs/ or proofs/ writes it with a hyphen and no file imports it from the library. It turns in
specs/, proofs/, the clauses of src/, must-fail edits, and in what README.md and docs/ quote. Text in quotes and prose stay.
Labels that the prover makes (`loop-i-preserved`, after `goal.`) are not names of the repository and stay as they are.
"""

import os
import re
import sys

NAME = re.compile(r"(?<![\w◌'\"`-])[A-Za-z][A-Za-z0-9_']*(?:-[A-Za-z0-9_']+)+(?![\w◌-])")
USE = re.compile(r"(?m)^\s*(?:ghost )?(?:pub )?use ([\w.'-]+)\.\{([^}]*)\}")
DECLARED = re.compile(r"\s*(?:abbrev |unfoldable |pub |private |opaque |record |data )*(" + NAME.pattern + r")(?:\s+\([^)]*\)|\s+\{[^}]*\})*\s*:")
QUOTED = re.compile(r'"(?:[^"\\\n]|\\.)*"')


def crates():
    return sorted(c for c in os.listdir("crates") if os.path.isdir(os.path.join("crates", c)))


def files():
    for folder, dirs, names in os.walk("crates"):
        dirs[:] = sorted(d for d in dirs if d not in ("out", "data"))
        for name in sorted(names):
            if name.endswith((".rt", ".antt", ".edit")):
                yield os.path.join(folder, name)


def of_a_function(path):
    """Whether the file answers a function's goals, so that the prover's labels stand in it."""
    parts = path.split(os.sep)
    return parts[2] == "proofs" and len(parts) > 4


def split(line, mark):
    at = line.find(mark)
    return (line, "") if at < 0 else (line[:at], line[at:])


def names():
    own, library = set(), set()
    ours = re.compile(r"Rattle\.(?:" + "|".join(crates()) + r")\.")
    for path in files():
        if not path.endswith((".antt", ".rt")):
            continue
        with open(path, encoding="utf-8") as f:
            text = f.read()
        for use in USE.finditer(text):
            if not ours.match(use[1]):
                library |= {n.strip().split(" as ")[0] for n in use[2].split(",")}
        if not path.endswith(".antt"):
            continue
        for line in text.splitlines():
            code = QUOTED.sub("", split(line, "--")[0])
            if of_a_function(path):
                declared = DECLARED.match(code)
                if declared and not re.search(r": (?:goal|given)\.", code):
                    own.add(declared[1])
            else:
                own |= set(NAME.findall(code))
    return own - library


def respelled(name):
    if name[0].isupper():
        return "".join(part[0].upper() + part[1:] for part in name.split("-"))
    return name.replace("-", "_")


def turn(text, table):
    return NAME.sub(lambda m: table.get(m[0], m[0]), text)


def outside_quotes(text, table):
    out, at = [], 0
    for quoted in QUOTED.finditer(text):
        out += [turn(text[at : quoted.start()], table), quoted[0]]
        at = quoted.end()
    return "".join(out + [turn(text[at:], table)])


def spans(text, table):
    return re.sub(r"`[^`\n]+`", lambda m: "`" + turn(m[0][1:-1], table) + "`", text)


def turned(path, text, table):
    if path.endswith(".md"):
        return spans(text, table)
    if path.endswith(".edit"):
        return turn(text, table)
    mark = "--" if path.endswith(".antt") else "//"
    lines = []
    for line in text.split("\n"):
        code, comment = split(line, mark)
        lines.append(outside_quotes(code, table) + spans(comment, table))
    return "\n".join(lines)


def main():
    table = {name: respelled(name) for name in names()}
    words = set()
    for path in files():
        if path.endswith(".antt") and not of_a_function(path):
            with open(path, encoding="utf-8") as f:
                words |= set(re.findall(r"[A-Za-z_][A-Za-z0-9_']*", "\n".join(split(l, "--")[0] for l in f)))
    for name, new in sorted(table.items()):
        if new in words:
            print(f"look: {name} becomes {new}, which is written already")
    pages = ["README.md"] + [os.path.join("docs", p) for p in sorted(os.listdir("docs")) if p.endswith(".md") and not p.startswith("PORT")]
    changed = 0
    for path in list(files()) + pages:
        with open(path, encoding="utf-8") as f:
            old = f.read()
        new = turned(path, old, table)
        if new != old:
            changed += 1
            with open(path, "w", encoding="utf-8") as f:
                f.write(new)
    print(f"{len(table)} names, {changed} files")


if __name__ == "__main__":
    sys.exit(main())
