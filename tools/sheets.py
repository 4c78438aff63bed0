"""Random sheets, lawful and damaged, for make_cases.py, compare.py and the oracle's self test.

Everything is drawn from the random.Random that the caller hands in, so that a seed gives the same sheets again."""

import re

# Lawful names that come close to other words of a sheet.
ODD_NAMES = ["marks", "loads", "rules", "relays", "on", "off", "open", "standing", "total", "refused", "iff", "nots",
             "load0", "sums", "counts", "i", "no", "loa", "su", "coun", "x_", "x__", "x0", "x00", "x_0", "zzzzzzzzzzzzzzzz",
             "abcdefghijklmno0", "a_______________", "q234567890123456"]
# Words that stand somewhere in a sheet, or nearly.
WORDS = ["if", "not", "load", "sum", "count", "!", "<=", ">=", "=", "!=", "<", ">", "==", "0", "1", "-1", "-0", "00", "01",
         "+1", "-", "--1", "2", "7", "16", "31", "32", "64", "65", "128", "129", "10000", "10001", "-10000", "-10001",
         "1000000", "1000001", "-1000000", "-1000001", "99999999999999999999", "18446744073709551616", "4294967296",
         "a", "b", "zz", "A", "a-b", "_a", "0a", "a.", "abcdefghijklmnopq", "1a", "0x1", "1e3", "1.0", "!!", "Not", "IF",
         "marks", "loads", "rules", "relays"]
COMPARISONS = ["<=", ">=", "=", "!="]


def names(rng, number):
    style = rng.random()
    if style < 0.6:
        pool = [chr(97 + i) for i in range(26)] + [f"m{i}" for i in range(64)]
        return pool[:number]
    if style < 0.8:
        pool = ODD_NAMES + [f"p{i}" for i in range(64)]
        return rng.sample(pool, number)
    found = []
    while len(found) < number:
        name = rng.choice("abcxyz") + "".join(rng.choice("abz019_") for _ in range(rng.choice([0, 1, 2, 3, 7, 14, 15])))
        if name not in found:
            found.append(name)
    return found


def join(bodies):
    """The text of a sheet from its four bodies, with their contents."""
    keys = ["marks", "loads", "rules", "relays"]
    lines = [f"{key} {len(body)}" for key, body in zip(keys, bodies)] + [line for body in bodies for line in body]
    return "".join(line + "\n" for line in lines).encode("ascii")


def condition(rng, marks):
    return rng.choice(["not ", ""]) + rng.choice(marks)


def weight(rng):
    return rng.choice([rng.randint(-3, 3), rng.randint(-3, 3), rng.randint(-20, 20), rng.choice([-10000, 10000, 9999, 0])]
                      if rng.random() < 0.2 else [rng.randint(-3, 3)])


def load_line(rng, marks, most):
    number = rng.randint(0, min(most, rng.choice([1, 2, 3, 4, 16])))
    comparison = rng.choice(COMPARISONS)
    if rng.random() < 0.5:
        limit = rng.randint(-1, max(1, number))
        return " ".join(["count", comparison, str(limit)] + [condition(rng, marks) for _ in range(number)])
    entries = [(weight(rng), condition(rng, marks)) for _ in range(number)]
    # A limit that some choice of the entries meets, or nearly.
    limit = sum(w for w, _ in entries if rng.random() < 0.5) + rng.choice([0, 0, 0, 1, -1])
    if rng.random() < 0.03:
        limit = rng.choice([-1000000, 1000000, -160000, 160000])
    return " ".join(["sum", comparison, str(limit)] + [f"{w} {c}" for w, c in entries])


def rule_line(rng, marks, loads):
    head = rng.choice(marks)
    number = rng.choice([0, 1, 1, 1, 1, 1, 1, 2, 2, 2, 2, 3, 3, 4] + ([16] if rng.random() < 0.1 else []))
    items = []
    for _ in range(number):
        if loads and rng.random() < 0.4:
            items.append(f"load {rng.randrange(loads)}")
        else:
            items.append(condition(rng, marks))
    return " ".join([head] + (["if"] + items if items else []))


def relay_line(rng, mark, marks):
    number = rng.choice([0, 1, 1, 1, 1, 1, 2, 2, 2, 3, 5] + ([64] if rng.random() < 0.03 else []))
    return " ".join([mark, "!"] + [rng.choice(marks) for _ in range(number)])


def valid(rng, atoms=None, entries=16, rules=True):
    """A lawful sheet. Few atoms unless their number is given; without rules where so asked."""
    if atoms is None:
        atoms = rng.choice([1, 2, 2, 3, 3, 3, 4, 4, 4, 5, 5, 6, 7, 8, rng.randint(9, 12), rng.randint(1, 64)])
    marks = names(rng, atoms)
    loads = rng.choice([0, 1, 1, 2, 3, 4, rng.randint(0, 32)]) if rng.random() < 0.8 else 0
    rule_lines, relay_lines = [], []

    # Often some pairs of atoms that exclude each other, by rules or relays: they leave things open, to many standings.
    free = rng.sample(marks, atoms)
    while len(free) > 1 and rng.random() < 0.6:
        one, other = free.pop(), free.pop()
        if rules and rng.random() < 0.7:
            rule_lines += [f"{one} if not {other}", f"{other} if not {one}"]
        else:
            relay_lines += [f"{one} ! {other}", f"{other} ! {one}"]

    if rules and rng.random() < 0.9:
        heads = free if free and rng.random() < 0.7 else marks
        for _ in range(min(128 - len(rule_lines), rng.randint(0, 2 * len(heads) + 1))):
            line = rule_line(rng, marks, loads)
            if heads is free:
                line = " ".join([rng.choice(free)] + line.split(" ")[1:])
            rule_lines.append(line)
    if rng.random() < 0.4 or not rules:
        relay_lines += [relay_line(rng, mark, marks) for mark in rng.sample(free, rng.randint(0, len(free)))]
    rng.shuffle(rule_lines)
    rng.shuffle(relay_lines)
    return join([marks, [load_line(rng, marks, entries) for _ in range(loads)], rule_lines, relay_lines])


# ---------------------------------------------------------------- damage


def damage_byte(rng, data):
    """A byte changed, dropped, put in or doubled."""
    at = rng.randrange(len(data))
    byte = bytes([rng.choice([rng.randrange(256), rng.choice(b" \n\t\r\x7f\x00!~-+0"), rng.randrange(32, 127)])])
    return rng.choice([data[:at] + byte + data[at + 1:],
                       data[:at] + data[at + 1:],
                       data[:at] + byte + data[at:],
                       data[:at] + bytes([data[at] ^ 1 << rng.randrange(8)]) + data[at + 1:]])


def damage_words(rng, data):
    """A word changed, dropped, put in, doubled or swapped with another, mostly below the contents."""
    lines = [line.split(" ") for line in data.decode("latin-1").split("\n")]
    top = 4 if len(lines) > 6 and rng.random() < 0.9 else 0
    at = rng.randrange(top, len(lines))
    line = lines[at]
    other = rng.choice([line, lines[rng.randrange(top, len(lines))]])
    i, j = rng.randrange(len(line)), rng.randrange(len(other))
    word = rng.choice([rng.choice(WORDS), other[j], rng.choice(WORDS)])
    what = rng.randrange(6)
    if what == 0:
        line[i] = word
    elif what == 1:
        del line[i]
    elif what == 2:
        line.insert(i, word)
    elif what == 3:
        line.append(word)
    elif what == 4:
        line.insert(i, line[i])
    else:
        line[i], other[j] = other[j], line[i]
    return "\n".join(" ".join(line) for line in lines).encode("latin-1")


def damage_lines(rng, data):
    """A line dropped, doubled or swapped with another; sometimes the contents are made to fit again."""
    lines = data.split(b"\n")[:-1] or [b""]
    i, j = rng.randrange(len(lines)), rng.randrange(len(lines))
    what = rng.randrange(3)
    if what == 0:
        del lines[i]
    elif what == 1:
        lines.insert(j, lines[i])
    else:
        lines[i], lines[j] = lines[j], lines[i]
    change = {0: -1, 1: 1, 2: 0}[what]
    if change and len(lines) > 4 and rng.random() < 0.6:
        k = rng.randrange(4)
        lines[k] = re.sub(rb"\d+", lambda m: b"%d" % max(0, int(m[0][:6]) + change), lines[k])
    return b"".join(line + b"\n" for line in lines)


def damage_number(rng, data):
    """A number changed."""
    found = list(re.finditer(rb"-?\b\d+\b", data))
    if not found:
        return data
    m = rng.choice(found)
    near = b"%d" % (int(m[0][:9].replace(b"-", b"") or b"0") + rng.choice([-1, 1]))
    new = rng.choice([near, b"-" + m[0], b"0" + m[0], b"+" + m[0], m[0] + b"0", m[0] + b"000000", b"-0",
                      rng.choice([w for w in WORDS if re.search("[0-9]", w)]).encode()])
    return data[:m.start()] + new + data[m.end():]


def damage_relay(rng, data):
    """The first word of a relay line put in place of another's."""
    lines = data.split(b"\n")
    relays = [i for i, line in enumerate(lines) if line.split(b" ")[1:2] == [b"!"]]
    if len(relays) > 1:
        i, j = rng.sample(relays, 2)
        lines[i] = b" ".join(lines[j].split(b" ")[:1] + lines[i].split(b" ")[1:])
    return b"\n".join(lines)


def damage_contents(rng, data):
    """Two contents numbers changed against each other, so that the number of lines still fits."""
    lines = data.split(b"\n")
    if len(lines) < 5:
        return data
    i, j = rng.sample(range(4), 2)
    for k, change in [(i, 1), (j, -1)]:
        lines[k] = re.sub(rb"\d+", lambda m: b"%d" % max(0, int(m[0][:6]) + change), lines[k])
    return b"\n".join(lines)


def damage_size(rng, data):
    """Cut short, or grown to about the greatest length."""
    if rng.random() < 0.7:
        return data[:rng.randrange(len(data) + 1)]
    grown = data + rng.choice([b"\n", b" ", b"a", b"a ! b\n"]) * 16384
    return grown[:16384 + rng.choice([-1, 0, 1, 2])]


def damaged(rng, data):
    """The given sheet with one to three damages. It may still be lawful."""
    for _ in range(rng.choice([1, 1, 1, 2, 3])):
        if data:
            data = rng.choice([damage_byte, damage_words, damage_words, damage_words, damage_words, damage_lines,
                               damage_number, damage_number, damage_relay, damage_contents, damage_size])(rng, data)
    return data
