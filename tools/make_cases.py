#!/usr/bin/env python3
"""Writes the corpus: sheets of every kind, and what the oracle answers to each.

    make_cases.py [FOLDER] [--mode reading|relays|settle|whole|all] [--split]

    FOLDER/cases.bin          for each case its length in bytes (decimal), a newline, then exactly that many bytes
    FOLDER/cases.txt          for each case its number and what it is about
    FOLDER/expected-MODE.txt  for each case a line `case K` (from 1), then the answer; mode all writes all four
    FOLDER/NNNN.sheet         with --split: each case as a file of its own

FOLDER is data/ beside tools/ if not given. The same cases come out every time. The program `cases` runs on cases.bin, and
its stored output is expected-reading.txt: the refusal of each sheet, or `accepted`.

A case that is to be refused says so here, by hand: the number, and the spot by the sign « in its text (which is taken
out). The oracle has to agree, or nothing is written. So reading is tested against this list and not only against itself.
"""

import os
import random
import sys

HERE = os.path.dirname(os.path.abspath(__file__))
sys.path[:0] = [HERE, os.path.join(HERE, "..", "oracle")]
sys.dont_write_bytecode = True
import oracle                                                   # noqa: E402
import sheets                                                   # noqa: E402

SPOT = "«"
CASES = []                                                      # (what it is about, bytes)


def add(about, data, expected=None):
    """A case. Expected: None if anything goes, "" if the sheet is lawful, else the refusal."""
    if expected is not None:
        try:
            oracle.read_sheet(data)
            got = ""
        except oracle.Refused as refusal:
            got = str(refusal)
        assert got == expected, f"{about}: the oracle says {got!r}, by hand it is {expected!r}\n{data[:2000]!r}"
    CASES.append((about, data))


def lawful(about, data):
    add(about, data if isinstance(data, bytes) else text_of(data), "")


def refused_at(about, number, line, column, data):
    layer = "text" if number <= 4 else "sheet"
    add(about, data if isinstance(data, bytes) else text_of(data), f"refused {number} {layer} {line} {column}")


def refused(about, number, text):
    """The refusal stands where the sign is."""
    text = text if isinstance(text, str) else "".join(line + "\n" for line in text)
    before = text[:text.index(SPOT)]
    line, column = before.count("\n") + 1, len(before) - (before.rfind("\n") + 1) + 1
    refused_at(about, number, line, column, text.replace(SPOT, "").encode("latin-1"))


def text_of(lines):
    return "".join(line + "\n" for line in lines).encode("latin-1")


# The sheet that most refusals start from; BASE[k] is line k + 1.
BASE = ["marks 3", "loads 2", "rules 3", "relays 2",
        "a", "bb", "c_3",
        "sum <= 5 1 a -2 not bb", "count >= 1 a not bb",
        "a if not bb", "bb if c_3 load 0 not a", "c_3",
        "bb ! a c_3", "c_3 !"]


def with_line(number, line):
    """BASE with another line of that number."""
    return BASE[:number - 1] + [line] + BASE[number:]


# ---------------------------------------------------------------- examples


def add_examples():
    folder = os.path.join(HERE, "..", "oracle", "examples")
    for file in sorted(os.listdir(folder)):
        if file.endswith(".sheet"):
            add("example " + file[:-len(".sheet")], open(os.path.join(folder, file), "rb").read())


# ---------------------------------------------------------------- the text: 1 to 4


def fill_exactly(length):
    """A lawful sheet of exactly that many bytes: rules to fill, then names of which nothing else speaks made longer."""
    names = ["uuuu", "vvvv"] + [f"n{i:02}" for i in range(62)]
    rules = ["uuuu if" + " not vvvv" * 13] * 128
    missing = length - len(sheets.join([names, [], rules, []]))
    for i in range(2, 64):
        longer = min(missing, 16 - len(names[i]))
        names[i] += "y" * longer
        missing -= longer
    data = sheets.join([names, [], rules, []])
    assert len(data) == length
    return data


def add_text():
    base = text_of(BASE)
    full = fill_exactly(16384)
    lawful("a text of exactly 16384 bytes", full)
    lawful("a text of 16383 bytes", fill_exactly(16383))
    refused_at("a text of 16385 bytes, otherwise lawful", 1, 0, 0, fill_exactly(16385))
    refused_at("16384 bytes and one line feed more", 1, 0, 0, full + b"\n")
    refused_at("16385 bytes and no line feed at the end", 1, 0, 0, full + b"a")
    refused_at("16385 bytes, the first not lawful", 1, 0, 0, b"\x00" * 16385)
    refused_at("16384 bytes without a line feed", 2, 0, 0, b"a" * 16384)
    refused_at("16384 line feeds", 4, 1, 1, b"\n" * 16384)
    refused_at("16384 bytes, one long word", 5, 1, 1, b"a" * 16383 + b"\n")
    refused_at("16384 bytes, a very long number", 5, 1, 7, b"marks " + b"1" * 16377 + b"\n")
    refused_at("16384 bytes, the bad one just before the last", 3, 1, 16383, b"a" * 16382 + b"\x7f\n")
    refused_at("20000 bytes", 1, 0, 0, b"marks 1\n" * 2500)

    refused_at("nothing at all", 2, 0, 0, b"")
    refused_at("no line feed at the end", 2, 0, 0, base[:-1])
    refused_at("a carriage return at the end", 2, 0, 0, base + b"\r")
    refused_at("a space after the last line feed", 2, 0, 0, base + b" ")
    refused_at("one byte", 2, 0, 0, b"a")
    refused_at("a bad byte at the end, and no line feed", 2, 0, 0, b"marks 1\n\xff")
    for cut in (1, 7, 8, 31, 32, 40, 80, len(base) - 2):
        data = base[:cut]
        if data[-1:] == b"\n":
            add(f"cut after {cut} bytes", data)
        else:
            refused_at(f"cut after {cut} bytes", 2, 0, 0, data)

    for byte in (0, 1, 9, 11, 12, 13, 27, 31, 127, 128, 200, 255):
        sign = chr(byte)
        refused(f"byte {byte} as the first", 3, SPOT + sign + base.decode())
        refused(f"byte {byte} at the end of line 1", 3, with_line(1, "marks 3" + SPOT + sign))
        refused(f"byte {byte} in a rule", 3, with_line(11, f"bb if{SPOT}{sign}c_3 load 0 not a"))
        refused(f"byte {byte} just before the last line feed", 3, with_line(14, f"c_3 !{SPOT}{sign}"))
    refused("two bad bytes: the first counts", 3, with_line(6, f"b{SPOT}\tb\x7f"))
    refused("two bad bytes on two lines: the upper counts", 3,
            with_line(5, f"aaaa{SPOT}\x80")[:12] + ["\x01", "c_3 !"])
    refused("every line ends with a carriage return", 3,
            ["marks 3" + SPOT + "\r"] + [line + "\r" for line in BASE[1:]])

    refused_at("only a line feed", 4, 1, 1, b"\n")
    refused_at("two line feeds", 4, 1, 1, b"\n\n")
    refused_at("a space and a line feed", 4, 1, 1, b" \n")
    refused_at("two spaces and a line feed", 4, 1, 1, b"  \n")
    for number in range(1, len(BASE) + 1):
        line = BASE[number - 1]
        refused(f"an empty line before line {number}", 4, BASE[:number - 1] + [SPOT] + BASE[number - 1:])
        refused(f"a space first on line {number}", 4, with_line(number, f"{SPOT} {line}"))
        refused(f"a space last on line {number}", 4, with_line(number, f"{line}{SPOT} "))
        if " " in line:
            refused(f"a doubled space on line {number}", 4, with_line(number, line.replace(" ", f" {SPOT} ", 1)))
    refused("an empty line at the end", 4, BASE + [SPOT])
    refused("two empty lines at the end", 4, BASE + [SPOT, ""])
    refused("two spaces at the end of a line", 4, with_line(7, f"c_3 {SPOT} "))
    refused("three spaces between words", 4, with_line(8, f"sum {SPOT}  <= 5"))
    refused("a trailing space above a leading one", 4, with_line(5, f"a{SPOT} ")[:5] + [" bb"] + BASE[6:])
    refused("a doubled space left of a trailing one", 4, with_line(9, f"count {SPOT} >= 1 "))
    refused("an empty line above a doubled space", 4, BASE[:3] + [SPOT] + BASE[3:10] + ["a  if a"] + BASE[11:])


# ---------------------------------------------------------------- the contents and the number of lines: 5 and 6


def add_contents():
    most = {"marks": 64, "loads": 32, "rules": 128, "relays": 64}
    for number, (key, high) in enumerate(most.items(), 1):
        value = BASE[number - 1].split()[1]
        for wrong in [key[:-1], key + "s", key.upper(), value, "!", "a", "marks" if key != "marks" else "loads"]:
            refused(f"contents {number}: the word {wrong}", 5, with_line(number, f"{SPOT}{wrong} {value}"))
        for wrong in [str(high + 1), "-1", "-0", "00", "0" + value, "+" + value, "x", value + "x", value + ".0", "-", "256",
                      "65536", "4294967299", "18446744073709551619", "9" * 40, key]:
            refused(f"contents {number}: the number {wrong}", 5, with_line(number, f"{key} {SPOT}{wrong}"))
        refused(f"contents {number}: no number", 5, with_line(number, f"{key}{SPOT}"))
        refused(f"contents {number}: a word too many", 5, with_line(number, f"{key} {value} {SPOT}{value}"))
        refused(f"contents {number}: wrong number and a word too many", 5, with_line(number, f"{key} {SPOT}x y"))
        refused(f"contents {number}: both words wrong", 5, with_line(number, f"{SPOT}x y z"))
        refused(f"contents {number}: without a space", 5, with_line(number, f"{SPOT}{key}{value}"))
        refused_at(f"the text ends before contents {number + 1}", 5 if number < 4 else 6, number + (number < 4), 0,
                   BASE[:number])
    refused("no atoms", 5, [f"marks {SPOT}0", "loads 0", "rules 0", "relays 0"])
    refused("contents out of order", 5, ["marks 1", f"{SPOT}rules 0", "loads 0", "relays 0", "a"])
    refused("contents line 1 left out", 5, [SPOT + BASE[1]] + BASE[2:])
    refused("contents line 4 left out", 5, BASE[:3] + [SPOT + BASE[4]] + BASE[5:])
    refused("two contents lines wrong: the upper counts", 5, ["marks 3", f"loads {SPOT}x", "rulez 3"] + BASE[3:])
    refused("the second contents line wrong and the third missing", 5, ["marks 3", f"loads{SPOT}"])
    refused("a wrong contents line counts before a wrong number of lines", 5, BASE[:3] + [f"relays {SPOT}65"] + ["x"] * 40)

    refused_at("a line too many", 6, 15, 0, BASE + ["a ! a"])
    refused_at("a line too few", 6, 13, 0, BASE[:-1])
    refused_at("only the contents", 6, 4, 0, BASE[:4])
    refused_at("many lines too many", 6, 114, 0, BASE + ["a"] * 100)
    refused_at("many lines announced", 6, 14, 0, ["marks 64", "loads 32", "rules 128", "relays 64"] + BASE[4:])
    for number in range(1, 5):
        key, value = BASE[number - 1].split()
        refused_at(f"{key}: one more than there is", 6, 14, 0, with_line(number, f"{key} {int(value) + 1}"))
        refused_at(f"{key}: one less than there is", 6, 14, 0, with_line(number, f"{key} {int(value) - 1}"))
    refused_at("the number of lines counts before a bad name", 6, 15, 0, with_line(5, "A") + ["zz"])
    # The number of lines fits, but not the kinds.
    refused("a load too few, a rule too many", 9, ["marks 3", "loads 3", "rules 2", "relays 2"] + BASE[4:9]
            + [SPOT + BASE[9]] + BASE[10:])
    refused("a name too few, a load too many", 9, ["marks 4", "loads 1", "rules 3", "relays 2"] + BASE[4:7]
            + ["x1", SPOT + "bad <= 1"] + BASE[9:])
    refused("a load line where a name must be", 7, ["marks 4", "loads 1", "rules 3", "relays 2"] + BASE[4:7]
            + [SPOT + BASE[7]] + BASE[8:])
    refused("a name where a load line must be", 9, ["marks 2", "loads 3", "rules 3", "relays 2"] + BASE[4:6]
            + [SPOT + BASE[6]] + BASE[7:])
    refused("a relay line where a rule must be", 9, ["marks 3", "loads 2", "rules 4", "relays 1"] + BASE[4:12]
            + [f"bb {SPOT}! a c_3"] + BASE[13:])
    refused("a rule where a relay line must be", 9, ["marks 3", "loads 2", "rules 2", "relays 3"] + BASE[4:11]
            + [f"c_3{SPOT}"] + BASE[12:])
    refused("a rule with items where a relay line must be", 9, ["marks 3", "loads 2", "rules 1", "relays 4"] + BASE[4:10]
            + [f"bb {SPOT}if c_3 load 0 not a"] + BASE[11:])


# ---------------------------------------------------------------- names: 7, and 9 for a word too many


def add_names():
    wrong = ["A", "aB", "1a", "_a", "9", "-1", "a-b", "a.", "a!", "!", "~", "if", "not", "load", "sum", "count", "<=", "a,b",
             "abcdefghijklmnopq", "a" * 17, "a" * 300, "0", "{a}", "`a", "a`", "a/", "a:", "a@", "@a", "[", "a^"]
    for word in wrong:
        refused(f"name {word[:20]}", 7, with_line(6, SPOT + word))
    for number in (5, 7):
        for word in ("A", "if", "abcdefghijklmnopq"):
            refused(f"name {word} on line {number}", 7, with_line(number, SPOT + word))
    refused("a name twice, at once", 7, with_line(6, SPOT + "a"))
    refused("a name twice, further down", 7, with_line(7, SPOT + "a"))
    refused("a name twice, of 16 bytes", 7, BASE[:4] + ["q" * 16, "bb", SPOT + "q" * 16] + BASE[7:])
    refused("two words on the first name line", 9, with_line(5, f"a {SPOT}bb"))
    refused("two words on the last name line", 9, with_line(7, f"c_3 {SPOT}c_3"))
    refused("three words on a name line", 9, with_line(6, f"bb {SPOT}not A"))
    refused("an unlawful name and a word too many", 7, with_line(6, f"{SPOT}B b"))
    refused("a repeated name and a word too many", 7, with_line(6, f"{SPOT}a b"))
    refused("two bad name lines: the upper counts", 7, BASE[:4] + ["a", SPOT + "B", "C"] + BASE[7:])
    refused("a bad name counts before a bad load", 7, with_line(7, SPOT + "b!")[:7] + ["summ"] + BASE[8:])
    good = ["a", "z", "a0", "a_", "abcdefghijklmnop", "z" * 16, "a_______________", "i", "f", "iff", "no", "nott", "loads",
            "marks", "rules", "relays", "su", "sums", "counts", "on", "off", "open", "standing", "total", "refused", "x9",
            "not_", "if_", "load0"]
    lawful("names that are lawful", sheets.join([good, [], [f"{name} if not {name}" for name in good[:3]],
                                                 [f"{name} !" for name in good[3:]]]))
    for name in good:
        lawful(f"name {name}", ["marks 1", "loads 1", "rules 1", "relays 1", name, f"sum = 1 1 {name}",
                                f"{name} if load 0", f"{name} ! {name}"])


# ---------------------------------------------------------------- loads, rules and relay lines: 8 to 11

# What stands in each place of a line; the refusal for a wrong word there; and wrong words.
SLOTS = {
    "K": (9, ["sums", "a", "5", "<=", "load", "Sum", "counts"]),                    # sum or count
    "C": (9, ["<", ">", "==", "5", "a", "!", "=<", "<=5", "not"]),                  # the comparison
    "L": (10, ["a", "not", "05", "-0", "+1", "1000001", "-1000001", "5.0", "-", "00", "9" * 20, "--1", "<=", "1000000a",
               "4294967301", "01000000"]),                                         # the limit
    "W": (10, ["a", "zz", "not", "01", "-0", "+1", "10001", "-10001", "1e3", "-", "18446744073709551617", "-01", "1-",
               "4294967297"]),                                                     # a weight
    "N": (8, ["zz", "5", "-1", "if", "load", "sum", "A", "!", "aa", "b", "bbb"]),   # `not` or a name
    "A": (8, ["not", "zz", "7", "load", "if", "!"]),                                # a name after `not`
    "H": (8, ["zz", "if", "not", "load", "5", "!", "A", "sum"]),                    # the first name of a line
    "I": (9, ["a", "iff", "not", "load", "!", "5", "IF", "zz"]),                    # if
    "T": (8, ["zz", "if", "5", "!", "sum", "Load", "-1", "c_"]),                    # an item
    "D": (10, ["2", "a", "-1", "-0", "01", "+0", "not", "load", "4294967296", "32", "00", "-"]),   # the number of a load
    "B": (9, ["a", "if", "!!", "not", "5", "=", "!="]),                             # !
    "R": (8, ["zz", "not", "!", "5", "if", "load", "Bb"]),                          # an attacker
}
# Lines of BASE, word by word with what stands there; a full stop where the line may end.
TEMPLATES = [
    (8, "sum:K <=:C 5:L. 1:W a:N. -2:W not:N bb:A."),
    (9, "count:K >=:C 1:L. a:N. not:N bb:A."),
    (10, "a:H. if:I not:T bb:A."),
    (11, "bb:H. if:I c_3:T. load:T 0:D. not:T a:A."),
    (12, "c_3:H."),
    (13, "bb:H !:B. a:R. c_3:R."),
    (14, "c_3:H !:B."),
]


def add_bodies():
    for number, template in TEMPLATES:
        words, slots, ends = [], [], []
        for part in template.split(" "):
            word, slot = part.rsplit(":", 1)
            words.append(word)
            slots.append(slot[0])
            ends.append(slot.endswith("."))
        assert " ".join(words) == BASE[number - 1]
        for i, slot in enumerate(slots):
            refusal, wrong_words = SLOTS[slot]
            for j, wrong in enumerate(wrong_words):
                refused(f"line {number}, word {i + 1}: {wrong}", refusal,
                        with_line(number, " ".join(words[:i] + [SPOT + wrong] + words[i + 1:])))
                if j < 2:
                    refused(f"line {number}, before word {i + 1}: {wrong}", refusal,
                            with_line(number, " ".join(words[:i] + [SPOT + wrong] + words[i:])))
            prefix = " ".join(words[:i + 1])
            if ends[i]:
                lawful(f"line {number} ends after word {i + 1}", with_line(number, prefix))
            else:
                refused(f"line {number} ends after word {i + 1}", 9, with_line(number, prefix + SPOT))

    # Words too many where nothing or something else may follow.
    refused("after a fact: a name", 9, with_line(12, f"c_3 {SPOT}a"))
    refused("after a fact: not", 9, with_line(12, f"c_3 {SPOT}not a"))
    refused("after a fact: if and no more", 9, with_line(12, f"c_3 if{SPOT}"))
    refused("if twice", 8, with_line(10, f"a if {SPOT}if not bb"))
    refused("not twice", 8, with_line(10, f"a if not {SPOT}not bb"))
    refused("not before load", 8, with_line(11, f"bb if not {SPOT}load 0"))
    refused("load twice", 10, with_line(11, f"bb if load {SPOT}load 0"))
    refused("a weight in a count", 8, with_line(9, f"count >= 1 {SPOT}1 a"))
    refused("a weight in a count, after an entry", 8, with_line(9, f"count >= 1 a {SPOT}2 bb"))
    refused("no weight in a sum", 10, with_line(8, f"sum <= 5 {SPOT}a"))
    refused("no weight in a sum, before not", 10, with_line(8, f"sum <= 5 {SPOT}not a"))
    refused("two weights", 8, with_line(8, f"sum <= 5 1 {SPOT}2 a"))
    refused("not before a weight", 10, with_line(8, f"sum <= 5 {SPOT}not 1 a"))
    refused("a load without limit", 9, with_line(8, f"sum <={SPOT}"))
    refused("a load of one word", 9, with_line(9, f"count{SPOT}"))
    refused("a relay line of one word", 9, with_line(14, f"c_3{SPOT}"))
    refused("a relay line with ! twice", 8, with_line(14, f"c_3 ! {SPOT}!"))
    refused("a relay line with not", 8, with_line(13, f"bb ! {SPOT}not a"))

    # 11, against its neighbours.
    refused("a second relay line", 11, with_line(14, f"{SPOT}bb !"))
    refused("a second relay line, the same", 11, with_line(14, f"{SPOT}bb ! a c_3"))
    refused("a second relay line of one word", 11, with_line(14, f"{SPOT}bb"))
    refused("a second relay line with a bad second word", 11, with_line(14, f"{SPOT}bb if"))
    refused("a second relay line with a bad attacker", 11, with_line(14, f"{SPOT}bb ! zz"))
    refused("a third relay line", 11, ["marks 2", "loads 0", "rules 0", "relays 3", "a", "b", "b !", "a ! b", f"{SPOT}b ! a"])
    refused("a third relay line for the first atom", 11,
            ["marks 2", "loads 0", "rules 0", "relays 3", "a", "b", "a !", "b ! b", f"{SPOT}a ! a"])
    lawful("a head twice and a relay line as well", ["marks 1", "loads 0", "rules 2", "relays 1", "a", "a if not a",
                                                     "a if not a", "a ! a"])

    # Two faults: the topmost line, and in it the leftmost word.
    refused("two faults in a line: 9 then 10", 9, with_line(8, f"sum {SPOT}< 05 1 a"))
    refused("two faults in a line: 10 then 8", 10, with_line(8, f"sum <= {SPOT}05 1 zz"))
    refused("two faults in a line: 8 then 10", 8, with_line(8, f"sum <= 5 1 {SPOT}zz 01 a"))
    refused("two faults in a line: 8 then a missing word", 8, with_line(8, f"sum <= 5 1 {SPOT}zz 1"))
    refused("two faults in a line: 8 then 9", 8, with_line(10, f"{SPOT}zz is bb"))
    refused("two faults in a line: 9 then 8", 9, with_line(10, f"a {SPOT}is zz"))
    refused("two faults in a rule: 10 then 8", 10, with_line(11, f"bb if load {SPOT}9 zz"))
    refused("two faults in a rule: 8 then 10", 8, with_line(11, f"bb if {SPOT}zz load 9"))
    for upper, lower in [(8, 9), (8, 14), (9, 10), (10, 11), (11, 12), (12, 13), (13, 14), (5, 8), (7, 14)]:
        number = 7 if upper < 8 else 9 if upper < 10 else 8
        lines = with_line(upper, SPOT + "ZZ")
        lines[lower - 1] = "YY"
        refused(f"faults on lines {upper} and {lower}", number, lines)


# ---------------------------------------------------------------- the greatest numbers of things


def add_extremes():
    many = [f"m{i}" for i in range(64)]
    wide = [f"w{i:02}" + "_" * 13 for i in range(64)]
    short = [chr(97 + i) for i in range(26)] + ["a" + chr(97 + i) for i in range(26)] + [f"b{i}" for i in range(10)] + ["c0", "c1"]

    lawful("64 atoms and nothing else", sheets.join([many, [], [], []]))
    lawful("64 facts", sheets.join([wide, [], wide, []]))
    lawful("64 relays that nothing blocks", sheets.join([wide, [], [], [f"{m} !" for m in wide]]))
    lawful("64 relays, each blocked by the next", sheets.join(
        [many, [], [], [f"{many[i]} ! {many[i + 1]}" for i in range(63)] + ["m63 !"]]))
    lawful("63 relays in a ring", sheets.join([many[:63], [], [], [f"{many[i]} ! {many[(i + 1) % 63]}" for i in range(63)]]))
    lawful("64 relays in a ring", sheets.join([many, [], [], [f"{many[i]} ! {many[(i + 1) % 64]}" for i in range(64)]]))
    lawful("64 relays, each blocked by all 64", sheets.join([short, [], [], [f"{m} ! " + " ".join(short) for m in short]]))
    lawful("64 relays in reverse order, each blocked by those before it", sheets.join(
        [short, [], [], [" ".join([short[i], "!"] + short[:i]) for i in reversed(range(64))]]))
    lawful("64 rules, each on the one before", sheets.join(
        [many, [], [f"m{i} if m{i - 1}" for i in range(63, 0, -1)] + ["m0"], []]))
    lawful("64 rules in a ring: nothing holds them", sheets.join([many, [], [f"m{i} if m{(i + 1) % 64}" for i in range(64)], []]))
    lawful("64 rules, each against the one before", sheets.join(
        [many, [], [f"m{i} if not m{i - 1}" for i in range(1, 64)] + ["m0"], []]))
    lawful("128 rules", sheets.join([many, [], [f"m{i % 64} if m{(i + 1) % 64}" for i in range(127)] + ["m63 if not m0"], []]))
    lawful("128 facts of one atom", sheets.join([["a"], [], ["a"] * 128, []]))
    lawful("everything at its most", sheets.join([
        short, ["sum >= 10000 10000 a"] * 31 + ["count != 0 not b"],
        [f"{short[i % 64]} if load {i % 32}" for i in range(64)] + ["a"] * 64, [f"{m} ! a" for m in short]]))
    refused("64 atoms, the last name bad", 7, sheets.join([many[:63] + ["M63"], [], [], []]).decode().replace("M63", SPOT + "M63"))
    refused("64 atoms, the last the same as the first", 7,
            sheets.join([many[:63] + ["m0"], [], [], []]).decode()[:-3] + SPOT + "m0\n")
    refused("65 atoms", 5, sheets.join([many + ["x"], [], [], []]).decode().replace("65", SPOT + "65", 1))
    refused("33 loads", 5, sheets.join([["a"], ["sum = 0"] * 33, [], []]).decode().replace("33", SPOT + "33", 1))
    refused("129 rules", 5, sheets.join([["a"], [], ["a"] * 129, []]).decode().replace("129", SPOT + "129", 1))
    refused("65 relays", 5, sheets.join([["a"], [], [], ["a !"] * 65]).decode().replace("65", SPOT + "65", 1))
    refused("the last of 128 rules", 8, sheets.join([["a"], [], ["a"] * 127 + [], []]).decode().replace("127", "128")
            + f"a if not {SPOT}b\n")
    refused("the last of 64 relays", 11, sheets.join([many, [], [], [f"{m} !" for m in many[:63]]]).decode()
            .replace("relays 63", "relays 64") + f"{SPOT}m0 !\n")

    for number in (0, 1, 31):
        lawful(f"load {number} of 32", sheets.join([["a"], [f"sum = {i}" for i in range(32)], [f"a if load {number}"], []]))
    for wrong in ("32", "33", "-1", "031"):
        refused(f"load {wrong} of 32", 10, sheets.join([["a"], ["sum = 0"] * 32, ["a if load 0"], []]).decode()
                .replace("load 0", f"load {SPOT}{wrong}"))
    refused("load 0 of none", 10, ["marks 1", "loads 0", "rules 1", "relays 0", "a", f"a if load {SPOT}0"])
    refused("load 1 of one", 10, ["marks 1", "loads 1", "rules 1", "relays 0", "a", "sum = 0", f"a if load {SPOT}1"])

    # Entries.
    head = ["marks 2", "loads 1", "rules 1", "relays 0", "a", "b"]
    rule = ["b if load 0"]
    lawful("16 entries of a sum", head + ["sum >= 160000" + " 10000 not a" * 16] + rule)
    lawful("16 entries of a sum, one short of the limit", head + ["sum >= 160001" + " 10000 not a" * 16] + rule)
    lawful("16 entries of a sum, all negative", head + ["sum <= -160000" + " -10000 not a" * 16] + rule)
    lawful("16 entries of a sum, over the negative limit", head + ["sum <= -160001" + " -10000 not a" * 16] + rule)
    lawful("16 entries of a count", head + ["count = 16" + " not a" * 16] + rule)
    lawful("16 entries of a count, not 15", head + ["count = 15" + " not a" * 16] + rule)
    for word in ("1", "a", "zz", "not", "!", "10001", "if"):
        refused(f"a sum's 17th entry: {word}", 9, head + ["sum >= 1" + " 1 a" * 16 + f" {SPOT}{word}"] + rule)
        refused(f"a count's 17th entry: {word}", 9, head + ["count >= 1" + " a" * 16 + f" {SPOT}{word}"] + rule)
    refused("a sum's 17th entry, whole", 9, head + ["sum >= 1" + " 1 not a" * 16 + f" {SPOT}1 not a"] + rule)
    refused("a count's 17th entry, whole", 9, head + ["count >= 1" + " not a" * 16 + f" {SPOT}not a"] + rule)
    refused("a sum's 16th entry: no name", 9, head + ["sum >= 1" + " 1 a" * 15 + f" 1{SPOT}"] + rule)
    refused("a sum's 16th entry: a bad name", 8, head + ["sum >= 1" + " 1 a" * 15 + f" 1 {SPOT}zz 1 a"] + rule)
    refused("a sum's 16th entry: a bad weight", 10, head + ["sum >= 1" + " 1 a" * 15 + f" {SPOT}01 a"] + rule)
    refused("a count's 16th entry: no name", 9, head + ["count >= 1" + " a" * 15 + f" not{SPOT}"] + rule)
    refused("a count's 16th entry: a bad name", 8, head + ["count >= 1" + " a" * 15 + f" {SPOT}zz"] + rule)
    for limit in ("1000000", "-1000000", "0", "999999", "-999999", "1", "-1"):
        for comparison in ("<=", ">=", "=", "!="):
            lawful(f"{comparison} {limit}", head + [f"sum {comparison} {limit} 1 not a"] + rule)
    for weight in ("10000", "-10000", "0", "9999", "-9999", "1", "-1"):
        lawful(f"weight {weight}", head + [f"sum >= 1 {weight} not a {weight} b"] + rule)
        lawful(f"limit {weight}", head + [f"sum = {weight} {weight} not a"] + rule)
    for wrong in ("1000001", "-1000001", "1000002", "10000000", "-10000000", "99999999", "-99999999", "100000000", "9" * 400):
        refused(f"limit {wrong[:24]} is out of range", 10, head + [f"count >= {SPOT}{wrong} a"] + rule)
    for wrong in ("10001", "-10001", "10002", "99999", "-99999", "100000", "1000000", "-1000000", "9" * 400, "-" + "9" * 400):
        refused(f"weight {wrong[:24]} is out of range", 10, head + [f"sum >= 0 1 a {SPOT}{wrong} a"] + rule)

    # Items.
    head = ["marks 2", "loads 1", "rules 1", "relays 1", "a", "b", "sum >= 0"]
    relay = ["a !"]
    lawful("16 items, names", head + ["b if" + " a" * 16] + relay)
    lawful("16 items, negated", head + ["b if" + " not b" * 16] + relay)
    lawful("16 items, loads", head + ["b if" + " load 0" * 16] + relay)
    lawful("16 items, mixed", head + ["b if" + " a not b load 0 a" * 4] + relay)
    for word in ("a", "zz", "not", "load", "5", "if", "!"):
        refused(f"the 17th item: {word}", 9, head + ["b if" + " a" * 16 + f" {SPOT}{word}"] + relay)
    refused("the 17th item, negated", 9, head + ["b if" + " not a" * 16 + f" {SPOT}not a"] + relay)
    refused("the 17th item, a load", 9, head + ["b if" + " load 0" * 16 + f" {SPOT}load 0"] + relay)
    refused("the 16th item: no name", 9, head + ["b if" + " a" * 15 + f" not{SPOT}"] + relay)
    refused("the 16th item: no number", 9, head + ["b if" + " a" * 15 + f" load{SPOT}"] + relay)
    refused("the 16th item: a bad number", 10, head + ["b if" + " a" * 15 + f" load {SPOT}1 a"] + relay)
    refused("the 16th item: a bad name", 8, head + ["b if" + " a" * 15 + f" {SPOT}zz a"] + relay)

    # Attackers.
    head = ["marks 2", "loads 0", "rules 0", "relays 2", "a", "b", "a !"]
    lawful("64 attackers", head + ["b !" + " b" * 64])
    lawful("64 attackers, the last is on", head + ["b !" + " b" * 63 + " a"])
    for word in ("a", "zz", "not", "!", "5"):
        refused(f"the 65th attacker: {word}", 9, head + ["b !" + " b" * 64 + f" {SPOT}{word}"])
    refused("the 64th attacker is bad", 8, head + ["b !" + " b" * 63 + f" {SPOT}c b"])
    refused("66 attackers", 9, head + ["b !" + " b" * 64 + f" {SPOT}b b"])


# ---------------------------------------------------------------- what lawful sheets mean


def add_meanings():
    # Each comparison at each limit around low and high, with atoms that stay open, and with settled ones.
    for comparison in ("<=", ">=", "=", "!="):
        for limit in range(-3, 4):
            lawful(f"open load {comparison} {limit}", sheets.join([
                ["p", "np", "q", "nq", "r"], [f"sum {comparison} {limit} 2 p -2 not q"],
                ["p if not np", "np if not p", "q if not nq", "nq if not q", "r if load 0"], []]))
            lawful(f"settled load {comparison} {limit}", sheets.join([
                ["p", "q", "r"], [f"sum {comparison} {limit} 2 p 3 q -1 not q 7 not p"], ["p", "r if load 0"], []]))
        for limit in range(-1, 4):
            lawful(f"a count on its own head {comparison} {limit}", sheets.join([
                ["p", "q", "r"], [f"count {comparison} {limit} p not q p"],
                ["p if load 0", "q if not r", "r if not q"], []]))
        for limit in (-1, 0, 1):
            lawful(f"no entries {comparison} {limit}", sheets.join([
                ["p", "q"], [f"sum {comparison} {limit}", f"count {comparison} {limit}"], ["p if load 0", "q if load 1"], []]))
            lawful(f"an atom for and against {comparison} {limit}", sheets.join([
                ["p", "np", "r"], [f"sum {comparison} {limit} 1 p -1 p"], ["r if load 0"], ["p ! np", "np ! p"]]))
            lawful(f"weight zero {comparison} {limit}", sheets.join([
                ["p", "r"], [f"sum {comparison} {limit} 0 p 0 not p"], ["p if not p", "r if load 0"], []]))
    # Many standings: just half of the atoms, for each atom a count of the others.
    names = [f"h{i}" for i in range(8)]
    lawful("70 standings", sheets.join([
        names, ["count <= 3 " + " ".join(other for other in names if other != name) for name in names],
        [f"{name} if load {i}" for i, name in enumerate(names)], []]))
    # Sixteen and seventeen open, by relays, by rules, beside settled ones.
    names = [f"p{i}" for i in range(16)]
    pairs = list(zip(names[::2], names[1::2]))
    lawful("8 pairs, 256 standings", sheets.join([names, [], [], [f"{a} ! {b}" for a, b in pairs] + [f"{b} ! {a}" for a, b in pairs]]))
    lawful("8 pairs and settled atoms among them", sheets.join([
        ["on1"] + names[:8] + ["off1", "on2"] + names[8:] + ["off2"], [], ["on1", "off2 if off2"],
        ["on2 ! off1"] + [f"{a} ! {b}" for a, b in pairs] + [f"{b} ! {a}" for a, b in pairs]]))
    lawful("17 open by relays", sheets.join([names + ["x"], [], [], ["x ! x"] + [f"{a} ! {b}" for a, b in pairs]
                                             + [f"{b} ! {a}" for a, b in pairs]]))
    lawful("64 open", sheets.join([[f"s{i}" for i in range(64)], [], [], [f"s{i} ! s{i}" for i in range(64)]]))
    lawful("one atom, off", ["marks 1", "loads 0", "rules 0", "relays 0", "a"])
    lawful("one atom, on by a rule", ["marks 1", "loads 0", "rules 1", "relays 0", "a", "a"])
    lawful("one atom, on by a relay line", ["marks 1", "loads 0", "rules 0", "relays 1", "a", "a !"])
    lawful("one atom, on by a rule, blocked as a relay", ["marks 1", "loads 0", "rules 1", "relays 1", "a", "a", "a ! a"])
    lawful("an atom for and against itself", ["marks 1", "loads 0", "rules 1", "relays 0", "a", "a if a not a"])
    lawful("a blocker without a line, on by a rule", ["marks 2", "loads 0", "rules 1", "relays 1", "a", "b", "b", "a ! b"])


# ---------------------------------------------------------------- random


def add_random():
    rng = random.Random(20)
    for i in range(120):
        lawful(f"random {i + 1}", sheets.valid(rng, atoms=rng.choice([1, 2, 3, 3, 4, 4, 5, 5, 6, 7, 8, 9])))
    for i in range(40):
        lawful(f"random without rules {i + 1}", sheets.valid(rng, atoms=rng.randint(1, 10), rules=False))
    for i in range(20):
        lawful(f"random, more atoms {i + 1}", sheets.valid(rng, atoms=rng.randint(20, 64)))
    for i in range(160):
        small = sheets.valid(rng, atoms=rng.randint(1, 6), entries=4, rules=rng.random() < 0.75)
        add(f"damaged {i + 1}", sheets.damaged(rng, small))


# ---------------------------------------------------------------- writing


MODES = ("reading", "relays", "settle", "whole")


def answered(data, mode):
    """The oracle's answer; in mode reading only whether the sheet is read."""
    if mode != "reading":
        return oracle.answer(data, mode)
    first = oracle.answer(data, "relays").splitlines(keepends=True)[0]
    return first if first.startswith("refused ") else "accepted\n"


def main(words):
    folder, mode, split = os.path.join(HERE, "..", "data"), "all", False
    words = list(words)
    while words:
        word = words.pop(0)
        if word == "--mode" and words and words[0] in MODES + ("all",):
            mode = words.pop(0)
        elif word == "--split":
            split = True
        elif not word.startswith("-"):
            folder = word
        else:
            sys.exit("usage: make_cases.py [FOLDER] [--mode reading|relays|settle|whole|all] [--split]")

    for part in (add_examples, add_text, add_contents, add_names, add_bodies, add_extremes, add_meanings, add_random):
        part()

    os.makedirs(folder, exist_ok=True)
    with open(os.path.join(folder, "cases.bin"), "wb") as out:
        for _, data in CASES:
            out.write(b"%d\n" % len(data) + data)
    with open(os.path.join(folder, "cases.txt"), "w") as out:
        for number, (about, _) in enumerate(CASES, 1):
            out.write(f"{number} {about}\n")
    if split:
        for number, (_, data) in enumerate(CASES, 1):
            with open(os.path.join(folder, f"{number:04}.sheet"), "wb") as out:
                out.write(data)
    for each in MODES if mode == "all" else (mode,):
        with open(os.path.join(folder, f"expected-{each}.txt"), "w") as out:
            for number, (_, data) in enumerate(CASES, 1):
                out.write(f"case {number}\n" + answered(data, each))
    print(f"{len(CASES)} cases in {os.path.normpath(folder)}")


if __name__ == "__main__":
    main(sys.argv[1:])
