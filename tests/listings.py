#!/usr/bin/env python3
"""Whole programs as a listing (request L4, docs/LISTING.md), both ways, and cases of them.

    tests/listings.py cases                     writes crates/listing_cases/data/*, args and stdout anew
    tests/listings.py show [GROUP]              prints them
    tests/listings.py check                     holds this reading against itself, against what was worked out by hand and against formulas.py
    tests/listings.py compare LIBRARY FROM TO   compares with a shared library, over all cases and over texts and programs of these seeds

It is a reading of the papers of its own, made from them and neither from the Rattle code nor from the oracle. There is no scanner of
characters in it. What a field may hold is a table of everything that can be spelt there, with the number that it stands for; the form of
a line is a regular expression made of the table of kinds; whether a row of signs and names is a formula is seen from each two neighbours
and a sum of its parentheses, and its nodes come of one walk from the right. What 01 refuses is left to acceptance.py, on the bytes.

A case is a text or a program with the room of the buffer lent for the result. A file whose name begins with i has listings to import, one with e
programs to export: of each case the room and the length, 4 bytes each, lowest first, and then its bytes. stdout has a line a case: refusal, place,
length, and Adler-32 of the whole buffer afterwards, every byte of which was A5 before.
"""
import collections
import ctypes
import itertools
import os
import random as chance
import re
import sys
import zlib

import acceptance
import controller
import formulas
from acceptance import PLAIN, Reader, accept, block, chain, const, expr, out, pm, program, word

HERE = os.path.dirname(os.path.abspath(__file__))
CRATE = os.path.join(HERE, "..", "crates", "listing_cases")

GOOD, BAD_LINE, SHORT_BUFFER = 0, 7, 12
MOST_ROOM = 40000  # of a case
MOST_ALARMS = 2**21 - 1  # the largest number of a program
MOST_OPEN = 16  # parentheses, by L1

# ---- docs/LISTING.md, "Fields": all that can be spelt in a place, and the number it stands for in the bytes


def decimals(low, high, carried=0):
    return {b"%d" % v: v + carried for v in range(low, high + 1)}


BIT = {b"0": 0, b"1": 1}
BIT |= {b"I%02d" % k: 2 + k - 1 for k in range(1, 33)}
BIT |= {b"B%03d" % k: 34 + k for k in range(200)}
WORD = {b"A%02d" % k: k - 1 for k in range(1, 9)}
WORD |= {b"W%03d" % k: 8 + k for k in range(200)}
WORD |= decimals(-32768, 32767, 33768)
SIGNED = decimals(-32768, 32767, 32768)
TIME = decimals(0, 32767)
UNIT, SWITCH, RELATION = decimals(0, 2), decimals(0, 1), decimals(0, 5)
FORMULA = "formula"

KINDS = [  # in the order of their numbers: the two letters, and the fields by name
    (b"BL", FORMULA),
    (b"SR", [(b"S", BIT), (b"R", BIT), (b"PRIORITY", SWITCH)]),
    (b"PL", [(b"I", BIT), (b"MODE", SWITCH)]),
    (b"AL", [(b"I", BIT), (b"C", BIT)]),
    (b"DL", [(b"I", BIT), (b"C", BIT), (b"UNIT", UNIT), (b"ON", TIME), (b"OFF", TIME)]),
    (b"OS", [(b"I", BIT), (b"C", BIT), (b"UNIT", UNIT), (b"TIME", TIME)]),
    (b"FL", [(b"I", BIT), (b"UNIT", UNIT), (b"ON", TIME), (b"OFF", TIME)]),
    (b"CN", [(b"I", BIT), (b"C", BIT), (b"PRESET", TIME)]),
    (b"UD", [(b"U", BIT), (b"D", BIT), (b"P", BIT), (b"C", BIT), (b"PRESET", SIGNED)]),
    (b"CP", [(b"I", BIT), (b"RELATION", RELATION), (b"A", WORD), (b"B", WORD)]),
    (b"OG", [(b"I", BIT), (b"A", SIGNED), (b"B", SIGNED), (b"C", SIGNED), (b"X", WORD)]),
    (b"ZC", [(b"I", BIT), (b"MODE", SWITCH), (b"L", WORD), (b"X", WORD), (b"H", WORD)]),
    (b"ST", [(b"I", BIT), (b"X", WORD), (b"H", WORD), (b"L", WORD)]),
]


def form(letters, fields):
    """A block's line with one space between two words and none at its ends: the groups are the number and the values."""
    if fields == FORMULA:
        rest = rb" (.*)"
    else:
        rest = b"".join(rb"(?: %b=([^ ]*))%b" % (name, b"?" if values is BIT else b"") for name, values in fields)
    return re.compile(rb"([^ ]*) " + letters + rest, re.S)


FORMS = [form(*kind) for kind in KINDS]

# ---- request L1: formulas

TOKEN = re.compile(rb"[0-9A-Z]+|![&|]|[^ ]")
SIGNS = {b"&": (1, 3), b"!&": (4, 3), b"^": (3, 2), b"|": (2, 1), b"!|": (5, 1)}  # node, and how tightly it binds
NOT, LEAF = 0, 6
NOT_BINDS, NAME_BINDS = 4, 5
CLASSES = {b"!": "!", b"(": "(", b")": ")"} | {sign: "o" for sign in SIGNS} | {name: "n" for name in BIT}
# two neighbours that no formula has: a part is missing, or the sign between two
ILL = re.compile(r"(?:\A|[!o(])(?:[o)]|\Z)|[n)][n!(]")


def nodes_of(formula):
    """Its nodes, operator first; None if it is no formula. Of any size."""
    tokens = TOKEN.findall(formula)
    row = "".join(CLASSES.get(token, "?") for token in tokens)
    opened = list(itertools.accumulate((c == "(") - (c == ")") for c in row))
    if "?" in row or ILL.search(row) or min(opened) < 0 or max(opened) > MOST_OPEN or opened[-1] != 0:
        return None
    # from the right: parts go out as they come, and an operator when all of its right part and its left part are out
    written, waiting = [], []  # waiting signs, None for a parenthesis
    for token in reversed(tokens):
        if token in BIT:
            written.append(LEAF + BIT[token])
        elif token == b"!":
            written.append(NOT)
        elif token == b")":
            waiting.append(None)
        elif token == b"(":
            while (sign := waiting.pop()) is not None:
                written.append(sign[0])
        else:
            while waiting and waiting[-1] is not None and waiting[-1][1] > SIGNS[token][1]:
                written.append(waiting.pop()[0])
            waiting.append(SIGNS[token])
    written += [sign[0] for sign in reversed(waiting)]
    return written[::-1]


SPELT_BIT = {number: name for name, number in BIT.items()}
SPELT_SIGN = {node: (sign, binds) for sign, (node, binds) in SIGNS.items()}


def formula_of(nodes):
    parts = []  # (text, how tightly it binds)

    def part(least):
        text, binds = parts.pop()
        return text if binds >= least else b"(%b)" % text

    for node in reversed(nodes):
        if node >= LEAF:
            parts.append((SPELT_BIT[node - LEAF], NAME_BINDS))
        elif node == NOT:
            parts.append((b"!" + part(NOT_BINDS), NOT_BINDS))
        else:
            sign, binds = SPELT_SIGN[node]
            left = part(binds)
            parts.append((b"%b %b %b" % (left, sign, part(binds + 1)), binds))
    (text, _), = parts
    return text


# ---- the two ways: (refusal, place, bytes)

def import_(text, room):
    *lines, _ = text.split(b"\n")  # what stands behind the last end is no line
    blocks, place = [], 0
    for line in lines:
        words = [w for w in line.removesuffix(b"\r").split(b" ") if w]
        after = place + len(line) + 1
        if words[:1] == [b"ALARMS"]:
            alarms = [BIT.get(w) for w in words[1:]]
            if None in alarms or len(alarms) > MOST_ALARMS:
                return BAD_LINE, place, b""
            if after < len(text):
                return BAD_LINE, after, b""
            made = program(blocks, alarms)
            return lent(accept(made), made, room)
        made = block_of(b" ".join(words), len(blocks))
        if made is None:
            return BAD_LINE, place, b""
        blocks.append(made)
        place = after
    return BAD_LINE, place, b""  # a line without an end, or none where one must be


def lent(accepted, result, room):
    refusal, place = accepted[:2]
    if refusal != GOOD:
        return refusal, place, b""
    return (GOOD, 0, result) if len(result) <= room else (SHORT_BUFFER, 0, b"")


def block_of(line, number):
    """The bytes of the block of this number that the line is; None if it is none."""
    for kind, (pattern, (_, fields)) in enumerate(zip(FORMS, KINDS)):
        found = pattern.fullmatch(line)
        if not found or BIT.get(found[1]) != out(number):
            continue
        if fields == FORMULA:
            carried = nodes_of(found[2])
        else:
            carried = [values.get(b"0" if given is None else given) for (_, values), given in zip(fields, found.groups()[1:])]
        if carried is not None and None not in carried:
            return block(kind, *carried)
    return None


SPELT = [fields if fields == FORMULA else [(name, {v: k for k, v in values.items()}, values is BIT) for name, values in fields] for _, fields in KINDS]


def export(data, room):
    accepted = accept(data)
    return lent(accepted, listing_of(data) if accepted[0] == GOOD else b"", room)


def listing_of(data):
    r = Reader(data)

    def number():
        return r.number()[0]

    lines = []
    for k in range(number()):
        kind = number()
        words = [b"B%03d" % k, KINDS[kind][0]]
        if SPELT[kind] == FORMULA:
            nodes, wanted = [], 1
            while wanted:
                nodes.append(number())
                wanted += -1 if nodes[-1] >= LEAF else 0 if nodes[-1] == NOT else 1
            words.append(formula_of(nodes))
        else:
            for name, spelt, is_bit in SPELT[kind]:
                carried = number()
                if carried != 0 or not is_bit:
                    words.append(b"%b=%b" % (name, spelt[carried]))
        lines.append(words)
    lines.append([b"ALARMS"] + [SPELT_BIT[number()] for _ in range(number())])
    return b"".join(b" ".join(words) + b"\n" for words in lines)


# ---- cases: each group gives names with a text or program, and the room of the buffer if it matters

def listing(*lines, end="\n"):
    return "".join(line + end for line in lines)


def one(line, alarms="ALARMS"):
    """A listing of one block, of which the line is all but its number."""
    return listing("B000 " + line, alarms)


def numbered(lines, *alarms):
    """A listing of these blocks."""
    return listing(*(f"B{k:03} {line}" for k, line in enumerate(lines)), " ".join(("ALARMS",) + alarms))


EXAMPLE = listing(
    "B000 BL I01 & !(B003 | I02)", "B001 DL I=I01 C=B000 UNIT=0 ON=50 OFF=0", "B002 OG I=I03 A=-7 B=2 C=0 X=A01",
    "B003 CP I=I04 RELATION=2 A=W002 B=-120", "ALARMS B000 I05 0")
EXAMPLE_BYTES = bytes.fromhex("04 00010800022B09 040222003200 0A04F9FF0182800280800200 0905020AF08602 03220600")

BRIEF = listing("B000 BL I01 & !I02", "B001 PL MODE=0", "ALARMS B000 0")

FULL = {  # a line of each kind, all fields there; nothing is astray in a listing of this block alone
    "BL": "BL I01 & !(B000 | I02)", "SR": "SR S=I01 R=I02 PRIORITY=1", "PL": "PL I=I32 MODE=1", "AL": "AL I=B000 C=I02",
    "DL": "DL I=I01 C=1 UNIT=2 ON=50 OFF=32767", "OS": "OS I=I01 C=B000 UNIT=1 TIME=300", "FL": "FL I=I05 UNIT=0 ON=3 OFF=2",
    "CN": "CN I=I01 C=I02 PRESET=5", "UD": "UD U=I01 D=I02 P=I03 C=I04 PRESET=-7", "CP": "CP I=1 RELATION=5 A=A08 B=-120",
    "OG": "OG I=I01 A=-7 B=2 C=0 X=W000", "ZC": "ZC I=B000 MODE=1 L=-32768 X=A03 H=32767", "ST": "ST I=I09 X=A01 H=10 L=4",
}
ALL_KINDS = numbered(list(FULL.values()), "B000", "0", "I32", "B012", "1").replace("W000", "W007")
EVEN = "&".join("(%s)" % "^".join(["(0|1)"] * 4) for _ in range(4))  # 63 nodes, 6 levels
FLAT = "|".join(["1&1&0&1"] * 8)  # 63 nodes, 11 levels, no parentheses
HEAVY = [f"BL {FLAT}"] * 68  # memory 4,964

STATED = [  # worked out by hand from the papers: text, refusal, place or, if good, the bytes
    (EXAMPLE, 0, EXAMPLE_BYTES),
    (listing("B000 CN I=I01 PRESET=2", "ALARMS B000"), 0, bytes.fromhex("01070200020122")),
    (listing("B000 CN I=I01 PRESET=2", "ALARMS B001"), 3, 6),
    (one("OG A=1 B=0 C=0 X=0"), 2, 6),
    (one("FL UNIT=0 ON=0 OFF=0"), 2, 5),
    (one("FL UNIT=0 ON=0 OFF=1"), 0, bytes.fromhex("01060000000100")),
    (listing("ALARMS"), 2, 0),
    (one("AL", "ALARMS" + " I01" * 32), 0, bytes.fromhex("01030000 20") + b"\x02" * 32),
    (one("AL", "ALARMS" + " I01" * 33), 2, 4),
    (one("BL " + "!" * 15 + "I01"), 0, b"\x01\x00" + b"\x00" * 15 + b"\x08\x00"),
    (one("BL " + "!" * 16 + "I01"), 2, 18),
    (one("BL " + EVEN.replace("(0|1)^(0", "(0|1)^(!0", 1)), 2, 65),
    (one("BL I01 & (I02 & I03)"), 0, bytes.fromhex("0100 010801090A 00")),
    (one("BL I01 !& I02 & I03"), 0, bytes.fromhex("0100 010408090A 00")),
    (one("BL B000 & B001"), 3, 4),
    (one("CP RELATION=0 A=W000 B=0"), 3, 4),
    ("", 7, 0),
    (one("PL MODE=0")[:-1], 7, 15),
    (listing("B000 PL MODE=0"), 7, 15),
    (one("PL MODE=0") + "\n", 7, 22),
    (numbered(["PL MODE=0", "FL UNIT=0 ON=0 OFF=0", "PL MODE=2", "PL MODE=3"]), 7, 41),
    (numbered(HEAVY + ["UD PRESET=0", "BL 0|1|0"]), 4, 0),
]


def papers():
    for k, (text, _, _) in enumerate(STATED):
        yield f"stated-{k}", text
    yield "example-mail", EXAMPLE.replace("\n", "\r\n")
    yield "all-kinds", ALL_KINDS
    for name, line in FULL.items():
        yield f"full-{name}", one(line)
        yield f"full-{name}-mail", one(line).replace("\n", "\r\n")
    for line in ("BL B200", "BL I00", "CP I=1 RELATION=0 A=A09 B=0", "OS UNIT=3 TIME=1", "DL UNIT=0 ON=050 OFF=0", "CP I=1 RELATION=0 A=W200 B=0",
                 "CP I=1 RELATION=0 A=A00 B=0", "BL I33", "BL A01", "BL W000"):
        yield f"bad-{line}", one(line)
    yield "bad-number-B200", listing("B200 AL", "ALARMS")


def ends():
    lines = BRIEF.split("\n")[:-1]
    for mixed in itertools.product(["\n", "\r\n"], repeat=len(lines)):
        yield "ends-" + "".join("n" if end == "\n" else "r" for end in mixed), "".join(line + end for line, end in zip(lines, mixed))
    others = {"CR": "\r", "LF-CR": "\n\r", "CR-CR-LF": "\r\r\n", "CR-LF-LF": "\r\n\n", "LF-LF": "\n\n", "CR-space-LF": "\r \n", "space-CR-LF": " \r\n",
              "none": "", "NUL": "\0",
              "VT": "\v", "FF": "\f", "NEL": "\x85", "NUL-LF": "\0\n", "CR-LF-CR-LF": "\r\n\r\n", "space": " ", "spaces-LF": "   \n", "backslash-n": "\\n",
              "RS": "\x1e", "LF-space": "\n "}
    for name, end in others.items():
        yield f"all-{name}", "".join(line + end for line in lines)
        for k in range(len(lines)):
            yield f"line-{k}-{name}", "".join(line + (end if j == k else "\n") for j, line in enumerate(lines))
            yield f"line-{k}-{name}-mail", "".join(line + (end if j == k else "\r\n") for j, line in enumerate(lines))
    for behind in ("\n", "\r\n", " \n", " ", "\r", "\0", "x", "x\n", "ALARMS\n", "ALARMS", "B002 AL\n", "B002 AL\nALARMS\n", "B000 AL\n", "\n\n", "\t\n", "-\n",
                   "#\n", "\x1a", "0\n"):
        yield f"behind-{behind!r}", BRIEF + behind
        yield f"behind-mail-{behind!r}", BRIEF.replace("\n", "\r\n") + behind
        yield f"behind-no-blocks-{behind!r}", "ALARMS\n" + behind
    for blank in ("\n", "\r\n", " \n", "  \r\n", "\t\n", "\r", "\0\n"):
        for k in range(len(lines)):
            yield f"before-{k}-{blank!r}", listing(*lines[:k]) + blank + listing(*lines[k:])
    for text in ("\n", "\r\n", " ", "\r", " \n", "\0", "A", "ALARM\n", "ALARMS", "ALARMS\r", "ALARMS\r\n", "ALARMS \n", " ALARMS\n", "ALARMS\n\n", "\nALARMS\n",
                 "B", "B000", "B000 ", "B000 AL", "B000 AL\r", "B000 AL\n",
                 "B000 AL\r\n", "B000 AL\nA", "B000 AL\nALARMS", "B000 AL\nALARMS ", "B000 AL\nALARMS\r", "B000 AL\nALARMS 0", "B000 AL\n ", "B000 AL\n\r",
                 "B000 AL\n\n", "B000 AL\nB001", "B000 AL\nB001 AL\n", "\n" * 300,
                 "\ufeff".encode().decode("latin-1") + one("AL"), one("AL") + one("AL"), one("AL") * 3):
        yield f"short-{text[:20]!r}", text


def cut():
    """Every beginning: none is a listing."""
    mixed = EXAMPLE.replace("\n", "\r\n", 2)
    for text, name in ((mixed, "example"), (one(FULL["BL"], "ALARMS B000 0"), "BL"), (one(FULL["UD"]), "UD")):
        for n in range(len(text)):
            assert import_(text[:n].encode(), 999)[0] == BAD_LINE
            yield f"{name}-{n}", text[:n]
    lines = ALL_KINDS.split("\n")
    for k in range(len(lines)):
        yield f"all-kinds-{k}-lines", listing(*lines[:k])
        yield f"all-kinds-{k}-lines-and-a-bit", listing(*lines[:k]) + lines[k][:5]


def spaces():
    for name, line in FULL.items():
        text = one(line, "ALARMS B000 I01 0")
        for n in (2, 9):
            yield f"{name}-all-{n}", text.replace(" ", " " * n)
        for n in (1, 5):
            yield f"{name}-ends-{n}", "".join(" " * n + part + " " * n + "\n" for part in text.split("\n")[:-1])
            yield f"{name}-ends-{n}-mail", "".join(" " * n + part + " " * n + "\r\n" for part in text.split("\n")[:-1])
    yield "no-space-BL-parenthesis", one("BL(I01)")
    yield "no-space-BL-not", one("BL!I01")
    yield "no-space-BL-name", one("BLI01")
    yield "no-space-BL-0", one("BL0")
    yield "no-space-alarm", one("AL", "ALARMS0")
    yield "no-space-alarms", one("AL", "ALARMS I01I02")
    yield "many-spaces", one("PL I=I01 MODE=0").replace(" ", " " * 700)
    yield "many-spaces-ends", " " * 1500 + "B000 AL" + " " * 1500 + "\n" + "ALARMS\n"
    yield "many-spaces-bad", " " * 1500 + "B000 AM" + " " * 1500 + "\n" + "ALARMS\n"
    yield "many-spaces-only", " " * 3000 + "\n" + one("AL")
    yield "formula-tight", one("BL I01&!(B000|I02)!&1^0!|I32")
    yield "formula-wide", one("BL   I01  &  !  (  B000  |  I02  )  !&  1  ^  0  !|  I32  ")


def space_anywhere():
    for name, line in FULL.items():
        text = one(line, "ALARMS B000 I01 0")
        for k in range(len(text) + 1):
            yield f"{name}-{k}", text[:k] + " " + text[k:]


def gaps():
    """Something else, or nothing, where a space stands."""
    for name, line in FULL.items():
        text = one(line, "ALARMS B000 I01 0")
        for k in (k for k, c in enumerate(text) if c == " "):
            for other in ("", "\t", "\n", "\r", "\r\n", "_", ",", "\xa0", " \t", "="):
                yield f"{name}-{k}-{other!r}", text[:k] + other + text[k + 1:]


def every_byte():
    """In each place all of ASCII, and by turns a quarter of the other bytes."""
    for number, byte in enumerate(map(chr, range(256))):
        tried = [
            ("word", one(f"PL I=I01 {byte} MODE=0")), ("in-a-value", one(f"PL I={byte} MODE=0")), ("in-a-name", one(f"PL {byte}=1 MODE=0")),
            ("in-a-number", one(f"OS UNIT={byte} TIME=1{byte}")), ("line", listing("B000 AL", byte, "ALARMS")), ("formula", one(f"BL I01{byte}I02")),
            ("alarm", one("AL", f"ALARMS {byte}")), ("behind", one("AL") + byte), ("before", byte + one("AL")), ("end", one(f"AL{byte}")),
        ]
        for k, (where, text) in enumerate(tried):
            if number < 128 or (number + k) % 4 == 0:
                yield f"{where}-{byte!r}", text


def fields_of(name):
    """The fields of a kind's full line: (name, text, whether it is a pin)."""
    kinds = {letters.decode(): fields for letters, fields in KINDS}
    return [(field.decode(), text, values is BIT) for (field, values), text in zip(kinds[name], FULL[name].split()[1:])]


def line_of(name, *parts):
    return one(" ".join((name,) + parts))


OTHER_KINDS = [name for name in FULL if name != "BL"]


def present():
    """Which fields are there, how often and in which order."""
    for name in OTHER_KINDS:
        fields = fields_of(name)
        texts = [text for _, text, _ in fields]
        pins = [k for k, (_, _, pin) in enumerate(fields) if pin]
        for out_of in itertools.product([False, True], repeat=len(pins)):
            left_out = {k for k, without in zip(pins, out_of) if without}
            yield f"{name}-without-{sorted(left_out)}", line_of(name, *(t for k, t in enumerate(texts) if k not in left_out))
            yield f"{name}-zero-{sorted(left_out)}", line_of(name, *(f"{fields[k][0]}=0" if k in left_out else t for k, t in enumerate(texts)))
            yield f"{name}-on-{sorted(left_out)}", line_of(name, *(f"{fields[k][0]}=1" if k in left_out else t for k, t in enumerate(texts)))
        for k, (field, text, pin) in enumerate(fields):
            if not pin:
                yield f"{name}-no-{field}", line_of(name, *texts[:k], *texts[k + 1:])
                yield f"{name}-no-{field}-no-pins", line_of(name, *(t for j, (_, t, p) in enumerate(fields) if not p and j != k))
            yield f"{name}-only-{field}", line_of(name, text)
            yield f"{name}-twice-{field}", line_of(name, *texts[:k + 1], *texts[k:])
            yield f"{name}-again-{field}", line_of(name, *texts, text)
            yield f"{name}-before-{field}", line_of(name, text, *texts)
            if k + 1 < len(texts):
                yield f"{name}-exchanged-{field}", line_of(name, *texts[:k], texts[k + 1], text, *texts[k + 2:])
        yield f"{name}-reversed", line_of(name, *reversed(texts))
        yield f"{name}-alone", line_of(name)
        yield f"{name}-no-pins", line_of(name, *(t for _, t, pin in fields if not pin))
        yield f"{name}-pins-only", line_of(name, *(t for _, t, pin in fields if pin))
        yield f"{name}-lower", one(FULL[name].lower())
        yield f"{name}-glued", line_of(name, "".join(texts))
        yield f"{name}-commas", line_of(name, ", ".join(texts))


def spelt():
    """Each field spelt in another way."""
    for name in OTHER_KINDS:
        fields = fields_of(name)
        texts = [text for _, text, _ in fields]
        for k, (field, text, _) in enumerate(fields):
            value = text.split("=")[1]
            for other in (field, value, f"{field}=", f"={value}", f"{field} ={value}", f"{field}= {value}", f"{field} = {value}", f"{field}=={value}",
                          f"{field}:{value}", f"{field}={value}=", f"{field}={value}={value}",
                          f"{field.lower()}={value}", f"{field}={value.lower()}", f"{field}{field}={value}", f"{field}{value}", f"{field}-{value}",
                          f"({field}={value})", f"{field}=({value})", f"{field}=!{value}", f"{field}=+{value}",
                          f"{field}={value},", f"{field}={value};", f'{field}="{value}"', f"Q={value}", f"{field[:-1]}={value}", f"{field}X={value}",
                          f"X{field}={value}", f"{field}0={value}", f"{field}={field}={value}"):
                yield f"{name}-{field}-{other}", line_of(name, *texts[:k], other, *texts[k + 1:])


def unknown():
    """A word more, that is none of the kind's fields or is one of them in another place."""
    for name in OTHER_KINDS:
        texts = [text for _, text, _ in fields_of(name)]
        for k in range(len(texts) + 1):
            for word_ in ("Q=1", "I=I01", "C=0", "MODE=0", "X=0", "0", "I01", "=", "BL", "ALARMS", "B000", "-", "#"):
                yield f"{name}-{word_}-at-{k}", line_of(name, *texts[:k], word_, *texts[k:])


def first_words():
    """Numbers and kinds of blocks, the fields of one kind in another, and what a formula is not."""
    for one_kind, other in itertools.product(FULL, repeat=2):
        yield f"fields-of-{one_kind}-in-{other}", one(other + FULL[one_kind][2:])
    for letters in ("", "XX", "PI", "bl", "Al", "aL", "B", "A", "ALL", "ALA", "ALARMS", "LA", "AL=", "AL:", "3", "03", "13", "RE", "TX", "0", "B000", "I01",
                    "A\0", "L", "AL AL", "AL BL", "AND", "ON"):
        yield f"kind-{letters!r}", one(letters)
        yield f"kind-{letters!r}-with-pin", one(letters + " I=I01")
    for word_ in ("B000", "B000 ", " B000 ", "B000BL I01", "B000AL", "AL", "0 AL", "000 AL", "B0 AL", "B00 AL", "B0000 AL", "b000 AL", "I01 AL", "W000 AL",
                  "A01 AL", "B000: AL", "B000= AL", "B000=AL", "(B000) AL", "B-00 AL", "B 000 AL", "B000, AL",
                  "B000 B000 AL", "N000 AL", "B001 AL", "B199 AL", "B200 AL", "B00O AL", "!B000 AL", "1 AL", "34 AL", "B+00 AL"):
        yield f"number-{word_!r}", listing(word_, "ALARMS")
    for lines in (["B000 BL"], ["B000 BL "], ["B000 BL    "], ["B000 BL I=I01"], ["B000 BL =I01"], ["B000 BL I01=I02"], ["B000 BL I01 I02"], ["B000 BL I01,"],
                  ["B000 BL (I01) (I02)"], ["B000 BL I01 MODE=0"], ["B000 BL EXPRESSION=I01"],
                  ["B000 BL I01 &", "I02"], ["B000 BL I01 &", " I02"], ["B000 BL 0"], ["B000 BL 1"], ["B000 BL 2"], ["B000 BL -1"], ["B000 BL 00"],
                  ["B000 BL A01"], ["B000 BL W000"], ["B000 BL i01"], ["B000 BL I01 AND I02"], ["B000 BL NOT I01"],
                  ["B000 BL I01 && I02"], ["B000 BL I01 || I02"], ["B000 BL ~I01"], ["B000 BL BL"], ["B000 BL BL I01"]):
        yield f"formula-{lines}", listing(*lines, "ALARMS")


BIT_WORDS = [
    "0", "1", "2", "9", "10", "00", "01", "-0", "-1", "+1", "", "I", "B", "I00", "I01", "I02", "I09", "I10", "I19", "I20", "I29", "I30", "I31", "I32", "I33",
    "I40", "I99", "I1", "I001", "I010", "I320", "I0", "I-1", "i01", "I0O",
    "B000", "B001", "B002", "B003", "B099", "B100", "B199", "B200", "B201", "B210", "B299", "B300", "B999", "B0", "B00", "B0000", "B1990", "B01", "b000",
    "B-01", "B00O", "B 000", "A01", "A1", "W000", "W199", "Q01", "!I01", "!0", "(I01)", "I01&I02",
    "I01,", "off", "OFF", "ON", "on", "X", "I01I02", "I01=", "=I01", "I:01", "I01.", "34", "65535", "I3Z",
]
WORD_WORDS = [
    "A00", "A01", "A02", "A07", "A08", "A09", "A10", "A11", "A18", "A80", "A99", "A1", "A8", "A", "A001", "A008", "A0", "a01", "A-1", "A0O", "W000", "W001",
    "W002", "W003", "W099", "W100", "W199", "W200", "W201", "W299", "W300", "W999", "W0", "W00", "W0000",
    "W1990", "W", "w000", "W-01", "B000", "B199", "I01", "I32", "AA01", "A01A02", "W000W000", "-A01", "-W000", "+A01", "!A01", "(A01)", "A01,", "A01+1", "X", "33768",
]
DIGITS30 = "1" + "0" * 29
FEW_NUMBER_WORDS = ["", "-", "+1", "-0", "00", "01", "-01", "1.", "0x1", "I01", "B000", "A01", "W000", DIGITS30, "-" + DIGITS30, "4294967297", "65536", "32768", "-32769"]
NUMBER_WORDS = [
    "", "-", "+", "--1", "+1", "+0", "-0", "-00", "00", "01", "-01", "007", "0000000000000000000000000000000", "1-", "-1-", "1.", "1.0", "1,0", ".5", "1e3",
    "1E3", "0x1", "0X1", "1_0", "_1", "1h", "0b1", "'1'", "1'", "\u0663".encode().decode("latin-1"),
    "\u2212".encode().decode("latin-1") + "1", "\xb2", "A", "B", "O", "l", "I01", "B000", "A01", "W000", "!1", "(1)", "1:", "1=", "65535", "65536", "65537",
    "98304", "131072", "4294967296", "4294967297", "4294967295", "18446744073709551616", "18446744073709551617",
    "18446744073709551615", "9223372036854775808", "-4294967296", "-4294967297", "-18446744073709551616", "-9223372036854775808",
    "340282366920938463463374607431768211457", DIGITS30, "-" + DIGITS30, "9" * 30, "-" + "9" * 30,
    "0" * 29 + "1", "9" * 300, "-" + "9" * 300, "100000", "-100000", "99999", "-99999", "-32769", "32768", "33768", "2097151", "2097152", "1000", "999", "66535", "66536",
]


def ends_of(low, high):
    """Values at both ends of a range, one beyond, and where a decimal gets longer."""
    steps = {10**n + d for n in range(7) for d in (-1, 0)}
    found = {low, low + 1, high, high - 1, low - 1, high + 1, 0, 1, -1} | steps | {-v for v in steps}
    return [str(v) for v in sorted(found)]


RANGES = {id(TIME): (0, 32767), id(SIGNED): (-32768, 32767), id(WORD): (-32768, 32767), id(UNIT): (0, 2), id(SWITCH): (0, 1), id(RELATION): (0, 5)}
FEW_BITS = ["0", "1", "2", "I00", "I01", "I32", "I33", "B000", "B001", "B199", "B200", "A01"]
FEW_WORDS = ["A00", "A01", "A08", "A09", "W000", "W001", "W199", "W200"]


def with_values(tried):
    """Each field of each kind with what is tried of its sort."""
    met = set()
    for letters, fields in KINDS[1:]:
        name = letters.decode()
        texts = FULL[name].split()[1:]
        for k, (field, values_) in enumerate(fields):
            for value in dict.fromkeys(tried(values_, id(values_) not in met)):
                changed = texts[:k] + [f"{field.decode()}={value}"] + texts[k + 1:]
                yield f"{name}-{field.decode()}-{value[:40]}", line_of(name, *changed)
            met.add(id(values_))


def values():
    """Each field of each kind at its ends and beyond them, the first of each sort with all that may and may not stand there."""
    def tried(values_, first):
        if values_ is BIT:
            return BIT_WORDS if first else FEW_BITS
        if first:
            return ends_of(*RANGES[id(values_)]) + NUMBER_WORDS + FEW_WORDS + (WORD_WORDS if values_ is WORD else [])
        low, high = RANGES[id(values_)]
        return [str(v) for v in (low - 1, low, high, high + 1)] + (FEW_WORDS if values_ is WORD else [])

    yield from with_values(tried)
    for value in BIT_WORDS:
        yield f"alarm-{value}", one("AL", f"ALARMS {value}")
        yield f"formula-{value}", one(f"BL {value}")
    for on, off in itertools.product(("0", "1", "32767", "32768", "-1", "00"), repeat=2):
        yield f"FL-{on}-{off}", one(f"FL I=I01 UNIT=1 ON={on} OFF={off}")
        yield f"DL-{on}-{off}", one(f"DL I=I01 UNIT=1 ON={on} OFF={off}")
    for v in (127, 128, 16383, 16384):  # where a number of the program gets longer
        yield f"CN-{v}", one(f"CN PRESET={v}")
        yield f"UD-{v - 32768}", one(f"UD PRESET={v - 32768}")
        yield f"ST-{v}", one(f"ST X={v} H=-17385 L=-17384")


def more_values():
    """The same, with more in the other fields too."""
    def tried(values_, first):
        if values_ is BIT:
            return FEW_BITS + ["", "I1", "I001", "B00", "B0000", "W000", "!I01", "-0", "00", "i01"]
        return ends_of(*RANGES[id(values_)]) + FEW_NUMBER_WORDS + FEW_WORDS + (WORD_WORDS[::4] if values_ is WORD else [])

    yield from with_values(tried)
    for value in BIT_WORDS:
        yield f"alarm-{value}-last", one("AL", f"ALARMS 0 I01 {value}")
        yield f"alarm-{value}-first", one("AL", f"ALARMS {value} I01 0")
        yield f"formula-{value}-last", one(f"BL I01 & {value}")
        yield f"formula-{value}-first", one(f"BL {value} | I01")


def many(n, line="AL"):
    return [line] * n


def numbering():
    for n in (1, 2, 10, 11, 127, 128, 200):
        yield f"{n}-blocks", numbered(many(n))
        yield f"{n}-blocks-alarm-astray", numbered(many(n), "B000", f"B{n:03}")
        if n == 127:
            continue
        yield f"{n}-blocks-one-missing", listing(*(f"B{k:03} AL" for k in range(n) if k != n // 2), "ALARMS")
        yield f"{n}-blocks-last-pin", numbered(many(n - 1) + [f"AL C=B{n - 1:03}"])
        yield f"{n}-blocks-last-pin-astray", numbered(many(n - 1) + [f"AL C=B{n:03}"])
        yield f"{n}-blocks-alarm", numbered(many(n), f"B{n - 1:03}", f"B{n // 2:03}", "B000")
        yield f"{n}-blocks-no-alarms", listing(*(f"B{k:03} AL" for k in range(n)))
        yield f"{n}-blocks-FL-last", numbered(many(n - 1) + ["FL UNIT=0 ON=0 OFF=0"])
    whole = [f"B{k:03} AL" for k in range(200)]
    for last in ("B200 AL", "B199 AL", "B000 AL", "B201 AL", "B1000 AL", "", "AL"):
        yield f"201-blocks-{last}", listing(*whole, last, "ALARMS")
    yield "201-blocks-mail", listing(*whole, "B200 AL", "ALARMS", end="\r\n")
    yield "201-blocks-no-end", listing(*whole) + "B200 AL"
    yield "300-blocks", numbered(many(300))
    yield "201-blocks-alarms-of-200", listing(*whole, "B200 AL", "ALARMS B200")
    yield "200-blocks-alarm-B200", listing(*whole, "ALARMS B200")
    yield "200-blocks-two-alarms", listing(*whole, "ALARMS", "ALARMS")
    for order_ in ((1,), (1, 2), (1, 0), (0, 0), (0, 2), (0, 1, 1), (0, 1, 3), (0, 1, 0), (2, 1, 0), (0, 2, 1), (0, 1, 2, 2, 3), (0, 10), (0, 1, 2, 4, 3),
                   (0, 100), (0, 199)):
        yield "order-" + "-".join(map(str, order_)), listing(*(f"B{k:03} AL" for k in order_), "ALARMS")
    for spelt in ("B1", "B01", "B0001", "b001", "B00I", "I001", "W001", "001", "1", "B001:", "B0O1", "+001", "B-01", "BB001", "B001B001", "35"):
        yield f"second-{spelt}", listing("B000 AL", f"{spelt} AL", "ALARMS")
    yield "alarms-between", listing("B000 AL", "ALARMS", "B001 AL")
    yield "alarms-first", listing("ALARMS", "B000 AL")
    yield "alarms-numbered", listing("B000 AL", "B001 ALARMS")
    yield "alarms-numbered-as-B", listing("B000 AL", "B000 ALARMS")


def alarms():
    for n in (0, 1, 2, 31, 32, 33, 34, 127, 128, 200):
        for name, bits in (("off", ["0"]), ("mixed", ["B000", "0", "I32", "1", "I01"])):
            given = [bits[k % len(bits)] for k in range(n)]
            yield f"{n}-{name}", numbered(["AL"], *given)
            yield f"{n}-{name}-no-blocks", numbered([], *given)
            yield f"{n}-{name}-then-bad", numbered(["AL"], *given, "I33")
            yield f"{n}-{name}-astray", numbered(["AL"], *given, "B001")
    yield "16384", numbered(["AL"], *["0"] * 16384)
    yield "2000-then-bad", numbered(["AL"], *["0"] * 2000, "2")
    for line in ("alarms", "Alarms", "ALARM", "ALARMSS", "ALARMS:", "ALARMS=", "ALARMS=B000", "ALARMS I=I01", "ALARMS 0=I01", "ALARMS ALARMS", "ALARMS A01",
                 "ALARMS W000", "ALARMS !I01", "ALARMS (I01)", "ALARMS I01,I02", "ALARMS I01, I02", "ALARMS -",
                 "ALARMS 0", "ALARMS 0 0", "ALARMS 00", "ALARMS 1", "ALARMS 2", "ALARMS I01 & I02", "ALARMS B000B000", "ALARM S", "A LARMS", "AL ARMS",
                 "ALARMS B000 B001", "ALARMS NONE", "ALARMS\t", "ALARMS\tI01", "B001 ALARMS", "0", "", "AL", "ALARMS .",
                 "ALARMS I01 ", "  ALARMS   I01   0  ", "ALARMSI01", "ALARMS I1", "ALARMS B0"):
        yield f"line-{line}", one("AL", line)
    yield "the-same-twice", one("AL", "ALARMS B000 B000")
    yield "in-two-lines", listing("B000 AL", "ALARMS B000", "ALARMS I01")
    yield "bad-then-behind", listing("B000 AL", "ALARMS B200", "ALARMS")
    yield "bad-then-no-end", "B000 AL\nALARMS B200"


def formulas_asked():
    """The formulas that request L1 speaks of, each in a line of a BL."""
    for text in formulas.request():
        yield text[:40], one(f"BL {text}")


def more_formulas():
    """The other cases of formulas.py."""
    for group in (formulas.names, formulas.signs, formulas.grouping, formulas.bounds):
        for text in group():
            yield f"{group.__name__}-{text[:40]}", one(f"BL {text}")


def in_blocks(formula, number, more=0):
    """The formula as that of a late block, in a program that has what it names."""
    return numbered(many(number) + [f"BL {formula}"] + many(more))


def bounds():
    for k in (0, 87, 88):  # nodes of one byte and of two
        name = f"B{k:03}"
        for n in (14, 15, 16, 17, 18, 40) if k == 0 else (15, 16, 17):
            yield f"not-{n}-{name}", in_blocks("!" * n + name, 0, k)
        for sign in ("&", "!&", "^", "|", "!|") if k == 0 else ("&",):
            for n in (14, 15, 16, 17) if k == 0 else (15, 16):
                yield f"left-{sign}-{n}-{name}", in_blocks(f" {sign} ".join([name] * (n + 1)), 0, k)
                yield f"right-{sign}-{n}-{name}", in_blocks(f"{name} {sign} (" * (n - 1) + f"{name} {sign} {name}" + ")" * (n - 1), 0, k)
        yield f"even-63-{name}", in_blocks(EVEN.replace("1", name), 0, k)
        yield f"even-63-{name}-astray", one("BL " + EVEN.replace("1", name))
    yield "even-63-B199", in_blocks(EVEN.replace("1", "B199"), 0, 199)
    yield "flat-63", one(f"BL {FLAT}")
    for k, c in enumerate(EVEN):  # a 64th node, wherever it comes from
        if c == "0":
            more = EVEN[:k] + "!" + EVEN[k:]
            yield f"even-64-{k}", one(f"BL {more}")
            yield f"even-64-{k}-long", one("BL " + more.replace("1", "B100"))
            if k % 3 == 0:
                yield f"even-64-{k}-late", in_blocks(more.replace("1", "B088"), 0 if k % 2 else 88, 90 if k % 2 else 0)
    for sign in ("&", "!&", "^", "|", "!|"):
        yield f"even-63-{sign}", one(f"BL {EVEN}{sign}1")
        yield f"even-63-behind-{sign}", one(f"BL 1{sign}({EVEN})")
        yield f"flat-63-{sign}", one(f"BL {FLAT}{sign}!1")
        yield f"even-twice-{sign}", one(f"BL {EVEN}{sign}{EVEN}")
    for n in (1, 2, 9, 10, 11):  # both bounds: many nodes, and deep ones before or behind the 63rd
        yield f"deep-first-{n}", one("BL " + "!" * n + "(" + "!" * 6 + f"1|{EVEN})")
        yield f"deep-last-{n}", one(f"BL {EVEN}^" + "!" * (n + 4) + "1")
        yield f"not-even-{n}", one("BL " + "!" * n + f"({EVEN})")
    for n in (15, 16, 17, 18, 30):  # parentheses
        for inner in ("1", "I01", "!1", "1&1"):
            yield f"open-{n}-{inner}", one("BL " + "(" * n + inner + ")" * n)
            yield f"open-{n}-{inner}-spaces", one("BL " + "( " * n + inner + " )" * n)
            yield f"open-{n}-{inner}-one-less-closed", one("BL " + "(" * n + inner + ")" * (n - 1))
            yield f"open-{n}-{inner}-one-more-closed", one("BL " + "(" * n + inner + ")" * (n + 1))
        yield f"open-{n}-behind", one("BL 1 & " + "(" * n + "0" + ")" * n)
        yield f"open-{n}-not", one("BL " + "!(" * n + "0" + ")" * n)
        yield f"open-{n}-before-too-deep", one("BL " + "(" * n + "0" + ")" * n + "|" + "!" * 16 + "1")
        yield f"open-{n}-behind-too-deep", one("BL " + "!" * 16 + "1|" + "(" * n + "0" + ")" * n)
    yield "pairs-in-a-row", one("BL " + "&".join(["(1)"] * 16))
    yield "pairs-in-a-row-17", one("BL " + "&".join(["(1)"] * 17))
    yield "pairs-in-a-row-300", one("BL " + "&".join(["(1)"] * 300))
    for bad in ("!", ")", "&", " 1", "I33", "B200", "?", "(", "(1"):  # a bad line, and over a bound as well
        yield f"deep-and-{bad}", one("BL " + "!" * 20 + "1" + bad)
        yield f"many-and-{bad}", one(f"BL {EVEN}|{EVEN}" + bad)
    for number in (0, 126, 127, 199):  # a count of one byte and of two, and whole blocks before
        yield f"late-deep-{number}", in_blocks("!" * 16 + "1", number)
        yield f"late-many-{number}", in_blocks(EVEN + "|1", number)


def long():
    n = 1500
    yield "not", one("BL " + "!" * n + "1")
    yield "not-and-no-name", one("BL " + "!" * n)
    yield "open", one("BL " + "(" * n)
    yield "digits", one("CN PRESET=" + "9" * n)
    yield "zeros", one("CN PRESET=" + "0" * n)
    yield "letters", one("B" * n)
    yield "no-end", "B" * n
    yield "spaces", " " * n
    yield "CR", "\r" * n
    yield "LF", "\n" * n
    yield "CR-LF", "\r\n" * n
    yield "spaces-and-end", "B000 AL" + " " * n + "\nALARMS\n"
    yield "names", one("BL " + "1 " * n)
    yield "not-9000", one("BL " + "!" * 9000 + "1")
    for sign in ("&", "!&", "^", "|", "!|"):
        yield f"left-{sign}", one("BL 1" + f"{sign}1" * 500)
        yield f"left-{sign}-then-bad", one("BL 1" + f"{sign}1" * 500 + "!")
        yield f"left-{sign}-not", one("BL !1" + f"{sign}!!1" * 200)
    yield "levels", one("BL " + "|".join(["^".join(["&".join(["1"] * 20)] * 10)] * 10))
    yield "pairs", one("BL " + "^".join(["(1)"] * 500))
    yield "pairs-deep", one("BL " + "^".join(["(" * 16 + "1" + ")" * 16] * 100))
    yield "pairs-deep-one-too-deep", one("BL " + "^".join(["(" * 16 + "1" + ")" * 16] * 100 + ["(" * 17 + "1" + ")" * 17]))


# lines of a block, all but its number, and the refusal that each brings about; a program has them behind an AL
FAULTS = {
    "OG": ("OG I=1 A=5 B=0 C=-1 X=A01", 2), "FL": ("FL I=I01 UNIT=2 ON=0 OFF=0", 2), "deep": ("BL " + "!" * 16 + "I01", 2), "many": (f"BL {FLAT}&1", 2),
    "pin": ("SR S=1 R=B199 PRIORITY=0", 3), "word": ("CP I=1 RELATION=0 A=0 B=W199", 3), "wordless": ("ST X=1 H=W000 L=0", 3), "formula": ("BL I01 & !B199", 3),
    "bad": ("PL I=I01", 7), "bad-kind": ("XX", 7), "bad-value": ("OS UNIT=0 TIME=32768", 7), "none": ("PL MODE=1", 0),
}
ALARM_FAULTS = {
    "good": ("ALARMS B000 0\n", 0), "33": ("ALARMS" + " 0" * 33 + "\n", 2), "astray": ("ALARMS 0 B199 I01\n", 3), "bad": ("ALARMS A01\n", 7),
    "no-end": ("ALARMS", 7), "missing": ("", 7), "behind": ("ALARMS\n\n", 7),
}


def order():
    """Two faults at once, each way round, with a buffer that has room and, by turns, one that has none."""
    rooms_ = itertools.cycle((300, 0, 300))
    for (first, (one_line, one_answer)), (second, (other_line, other_answer)) in itertools.product(FAULTS.items(), repeat=2):
        lines = numbered(["AL", one_line, "AL I=B002", other_line, "AL"])[:-len("ALARMS\n")]
        for name, (tail, answer) in ALARM_FAULTS.items():
            all_ = [r for r in (one_answer, other_answer, answer) if r]
            assert import_((lines + tail).encode(), 300)[0] == (7 if 7 in all_ else 2 if 2 in all_ else 3 if 3 in all_ else 0)
            if name == "good" or first in ("none", second):
                yield f"{first}-{second}-{name}", lines + tail, next(rooms_)
    over = HEAVY + ["UD PRESET=0", "BL 0|1|0"]  # 5000 is in `rooms`
    for room, (name, *bits) in zip(itertools.cycle((0, 5000)), (("alone",), ("astray", "B199"), ("33", *["0"] * 33), ("bad", "I33"))):
        yield f"memory-5001-{name}", numbered(over, *bits), room
    yield "memory-200-blocks-5000", numbered(many(200, "BL 1&1&1&1|0&0&0&1"))  # 15 nodes each
    yield "memory-200-blocks-5001", numbered(many(199, "BL 1&1&1&1|0&0&0&1") + ["BL 1&1&1&1|0&0&0&!1"])
    yield "no-blocks-astray", listing("ALARMS B000")
    yield "no-blocks-33", listing("ALARMS" + " B000" * 33)
    yield "no-blocks-bad", listing("ALARMS B200")
    yield "no-blocks-behind", listing("ALARMS", "B000 AL")
    for room in (0, 1, 4):
        yield f"no-blocks-{room}", "ALARMS\n", room


def references():
    """To blocks that are there and are not, before, behind and itself; to words of each kind."""
    for n in (1, 2, 3):
        for k in range(n + 2):
            for where in range(n):
                for name, line in (("pin", f"AL I=B{k:03}"), ("second", f"AL C=B{k:03}"), ("formula", f"BL B{k:03}"), ("formula-right", f"BL 1 !| (B000 ^ !B{k:03})")):
                    yield f"{name}-{k}-in-{where}-of-{n}", numbered([line if j == where else "AL" for j in range(n)])
                for name, line in (("X", f"OG I=1 A=1 B=-1 C=0 X=W{k:03}"), ("A", f"CP RELATION=1 A=W{k:03} B=0"), ("B", f"CP RELATION=1 A=0 B=W{k:03}")):
                    yield f"{name}-{k}-in-{where}-of-{n}", numbered([line if j == where else "CN PRESET=1" for j in range(n)])
            yield f"alarm-{k}-of-{n}", numbered(many(n), f"B{k:03}")
            yield f"alarm-{k}-of-{n}-late", numbered(many(n), *["0"] * 31, f"B{k:03}")
    for name, line in FULL.items():
        for user in ("CP I=1 RELATION=0 A=0 B=W001", "OG I=1 A=1 B=1 C=1 X=W001", "ZC MODE=0 L=W001 X=0 H=0", "ZC MODE=0 L=0 X=W001 H=0",
                     "ZC MODE=0 L=0 X=0 H=W001", "ST X=W001 H=0 L=0", "ST X=0 H=W001 L=0", "ST X=0 H=0 L=W001"):
            yield f"word-of-{name}-in-{user}", numbered([user, line])
            yield f"word-of-{name}-before-{user}", numbered([line, user.replace("W001", "W000")])
        yield f"word-of-itself-{name}", numbered([line.replace("A01", "W000").replace("A03", "W000").replace("A08", "W000")])
    # several astray: the first in the bytes
    yield "two-pins", one("SR S=B005 R=B006 PRIORITY=0")
    yield "pin-and-word", one("CP I=B005 RELATION=0 A=W005 B=W006")
    yield "words", one("ST X=A01 H=W009 L=W008")
    yield "formula-first", one("BL !(B007 & B006) | B005")
    yield "formula-and-alarm", one("BL 1 & B007", "ALARMS B009")
    yield "alarm-only", one("BL 1 & B000", "ALARMS I01 0 B001 B009")
    yield "word-without-then-pin", numbered(["ST X=W000 H=0 L=0", "AL I=B009"])
    for name, lines in wide():
        yield f"wide-{name}", numbered(lines, *(f"B{k:03}" for k in range(0, 200, 7)))
    bits = [name.decode() for name in BIT]
    for k in range(8):
        some = bits[2 + 29 * k:2 + 29 * (k + 1)]
        yield f"all-bits-{k}", numbered(["BL " + " ".join(f"{name} {'&^|'[j % 3]}" for j, name in enumerate(some[:14])) + " 1"] + many(199), *some)


def wide():
    """Programs of 200 blocks that name every input, block and word between them."""
    counters = [f"CN I=B{2 * k:03} C=B{2 * k + 1:03} PRESET={k * 327}" for k in range(100)]
    zones = [f"ZC I=I{k % 32 + 1:02} MODE={k % 2} L=W{k:03} X=A{k % 8 + 1:02} H={k * 655 - 32768}" for k in range(100)]
    yield "words-before", counters + zones
    yield "words-behind", [re.sub(r"L=W0(\d\d)", r"L=W1\1", line) for line in zones] + counters


def rooms():
    texts = [EXAMPLE, EXAMPLE.replace("\n", "\r\n"), ALL_KINDS, one("AL"), one("PL MODE=0"), one("AL", "ALARMS" + " B000" * 32), numbered(many(200)),
             numbered(HEAVY + ["UD PRESET=0", "SR PRIORITY=0"]), one("BL 1" + " " * 500)]
    texts += [one(line) for line in FULL.values()]
    for k, text in enumerate(texts):
        refusal, _, result = import_(text.encode(), MOST_ROOM)
        assert refusal == GOOD
        n = len(result)
        tried = {n - 1, n} if n > 500 else {0, 1, 2, n // 2, n - 2, n - 1, n, n + 1, n + 2, n + 100, len(text)}
        for room in sorted(tried | ({MOST_ROOM} if k < 3 else set())):
            yield f"{k}-{room}", text, room
    for name, (line, answer) in FAULTS.items():
        if answer:
            for room in (0, 1, 5, 20, 1000):
                yield f"{name}-{room}", one(line), room


def changed():
    """The line of each kind with one byte more, less or another, anywhere."""
    for name, line in FULL.items():
        text = one(line, "ALARMS I05 0")
        for k, c in enumerate(text):
            yield f"{name}-{k}-less", text[:k] + text[k + 1:]
            yield f"{name}-{k}-twice", text[:k] + c + text[k:]
            for other in (" ", "0", chr(ord(c) + 1)):
                yield f"{name}-{k}-{other!r}", text[:k] + other + text[k + 1:]


def trees():
    """All expressions of up to three operators, as nodes; the names in them differ."""
    def shapes(operators):
        if operators == 0:
            yield [LEAF]
            return
        yield from ([NOT] + part for part in shapes(operators - 1))
        for left in range(operators):
            for a, b in itertools.product(list(shapes(left)), list(shapes(operators - 1 - left))):
                yield from ([op] + a + b for op in range(1, 6))
    for n in range(4):
        for shape in shapes(n):
            names = itertools.count(LEAF + 2)
            yield [next(names) if node == LEAF else node for node in shape]


def exported_trees():
    for nodes in trees():
        yield formula_of(nodes).decode(), one("BL " + formula_of(nodes).decode())


def loose(data, r):
    """A listing of the program, not as export has it: spaces, ends, pins that are off, parentheses round names."""
    lines = []
    for line in listing_of(data).decode().split("\n")[:-1]:
        words = line.split(" ")
        if words[1:2] == ["BL"]:
            tokens = [f"({t.decode()})" if t in BIT and r.random() < 0.1 else t.decode() for t in TOKEN.findall(" ".join(words[2:]).encode())]
            words = words[:2] + ["".join(" " * r.choice([0, 0, 1, 2]) + t for t in tokens).strip(" ") + " " * r.choice([0, 1])]
        elif words[0] != "ALARMS":
            given = dict(w.split("=") for w in words[2:])
            fields = dict((letters.decode(), fields) for letters, fields in KINDS)[words[1]]
            words = words[:2]
            for name, values_ in fields:
                value = given.get(name.decode(), "0" if r.random() < 0.5 else None)
                words += [f"{name.decode()}={value}"] if value is not None else []
        text = " " * r.choice([0, 0, 1, 4])
        for word_ in words:
            text += word_ + " " * r.choice([1, 1, 1, 2, 7])
        lines.append((text if r.random() < 0.3 else text.rstrip(" ")) + r.choice(["\n", "\r\n"]))
    return "".join(lines)


def faulty(text, r):
    """The text with one thing changed: a byte, a word or a line."""
    lines = [re.split("( +)", line) for line in text.split("\n")]
    k = r.randrange(len(lines) - 1)
    line = lines[k]
    j = 2 * r.randrange((len(line) + 1) // 2)
    other = r.choice(r.choice(lines))
    what = r.randrange(14)
    if what == 0:
        lines[k], lines[k - 1] = lines[k - 1], lines[k]
    elif what == 1:
        lines.insert(k, line)
    elif what == 2:
        del lines[k]
    elif what == 3:
        line[j] = ""
    elif what == 4:
        line[j] = other
    elif what == 5:
        line[j:j + 1] = [line[j], " ", line[j]]
    elif what == 6:
        before = (j - 2) % (len(line) + 1)
        line[j], line[before] = line[before], line[j]
    elif what == 7:
        line[j] = re.sub(r"\d+", lambda m: str(int(m[0]) + r.choice([-1, 1, 100, 32767])).zfill(len(m[0])), line[j])
    elif what == 8:
        line[j] = r.choice(["", "-"]).join(line[j].partition("=")[::2])
    elif what == 9:
        line[j] = line[j].replace("=", "=-") if "=" in line[j] else line[j] + line[j][-1:]
    elif what == 10:
        line.insert(j, r.choice(["I=0 ", "C=I01 ", "1 ", "!", "(", "X=A01 "]))
    elif what == 11:
        line[j] = re.sub(r"[BW]\d\d\d|I\d\d|A\d\d", lambda m: r.choice([f"B{r.randrange(220):03}", f"W{r.randrange(220):03}", f"I{r.randrange(40):02}",
                                                                        f"A{r.randrange(12):02}"]), line[j])
    whole = "\n".join("".join(part) for part in lines)
    if what >= 12:
        at = r.randrange(len(whole))
        whole = whole[:at] + r.choice(["", " ", "\r", "\n", "!", "&", "|", "^", "(", ")", "=", "0", "1", "9", "-", "\t", "B", "I", "\x80",
                                       chr(r.randrange(256))]) + whole[at + r.choice([0, 1]):]
    return whole


def by_chance():
    for n in range(80):
        r = chance.Random(n)
        data = controller.random_program(r, 1 + n % 6)
        text = loose(data, r)
        assert import_(text.encode("latin-1"), len(data)) == (GOOD, 0, data)
        yield f"loose-{n}", text
    pool = list(FULL.values()) + [line for line, answer in FAULTS.values() if answer != BAD_LINE]
    for n in range(150):  # good lines that 01 may refuse
        r = chance.Random(20000 + n)
        lines = [re.sub(r"([BW])\d\d\d", lambda m: f"{m[1]}{r.randrange(7):03}", r.choice(pool)) for _ in range(r.randint(0, 6))]
        yield f"lines-{n}", numbered(lines, *(r.choice(["0", "I01", "B000", "B001", "B005"]) for _ in range(r.choice([0, 1, 2, 32, 33]))))
    for n in range(220):
        r = chance.Random(10000 + n)
        data = controller.random_program(r, 1 + n % 3)
        text = loose(data, r) if n % 3 == 0 else listing_of(data).decode()
        yield f"faulty-{n}", faulty(text, r)
        if n % 4 == 0:
            yield f"faulty-twice-{n}", faulty(faulty(text, r) + "\n", r)


# ---- programs to export

EXPORT_STATED = [  # worked out by hand from the papers: program, refusal, place or, if good, the text
    (EXAMPLE_BYTES.hex(), 0, EXAMPLE),
    ("01070200020122", 0, "B000 CN I=I01 PRESET=2\nALARMS B000\n"),
    ("", 8, 0), ("00", 2, 0), ("8100", 1, 0), ("0107020002012200", 2, 7), ("01070200020123", 3, 6), ("010702000201", 8, 6),
    ("01030000 020022", 0, "B000 AL\nALARMS 0 B000\n"),
    ("0100 0108 01090A 00", 0, "B000 BL I01 & (I02 & I03)\nALARMS\n"),
    ("0100 01 040809 0A 00", 0, "B000 BL I01 !& I02 & I03\nALARMS\n"),
    ("0100 0008 00", 0, "B000 BL !I01\nALARMS\n"),
    ("0100 000008 00", 0, "B000 BL !!I01\nALARMS\n"),
    ("0100 00 010809 00", 0, "B000 BL !(I01 & I02)\nALARMS\n"),
    ("0100 01 0008 09 00", 0, "B000 BL !I01 & I02\nALARMS\n"),
    ("0100 02 03 010809 0A 0B 00", 0, "B000 BL I01 & I02 ^ I03 | I04\nALARMS\n"),
    ("0100 01 03 020809 0A 0B 00", 0, "B000 BL ((I01 | I02) ^ I03) & I04\nALARMS\n"),
    ("010A 00 00 00 00 00", 8, 7),
    ("010A 00 00 00 00 00 00", 0, "B000 OG A=-32768 B=-32768 C=-32768 X=A01\nALARMS\n"),
    ("010A 00 00 808002 00 00 00", 2, 4),
    ("010A 00 00 818002 00 00 00", 0, "B000 OG A=-32768 B=1 C=-32768 X=A01\nALARMS\n"),
    ("0109 00 05 E807 E78704 00", 0, "B000 CP RELATION=5 A=-32768 B=32767\nALARMS\n"),
]


def x_papers():
    for k, (data, _, _) in enumerate(EXPORT_STATED):
        yield f"stated-{k}", bytes.fromhex(data)
    for k, (_, refusal, data) in enumerate(STATED):
        if refusal == GOOD:
            yield f"stated-{k}", data


def x_acceptance():
    """The programs of acceptance.py, good and refused, but for the longest."""
    for group in (acceptance.examples, acceptance.expressions, acceptance.fields, acceptance.references, acceptance.order):
        for name, data in group():
            if len(data) <= 1000 or group is acceptance.examples:
                yield f"{group.__name__}-{name}", data


def x_numbers():
    """Those of them that have all sorts of numbers in each place."""
    for group in (acceptance.prefixes, acceptance.overlong, acceptance.replaced, acceptance.numbers):
        for name, data in group():
            yield f"{group.__name__}-{name}", data


def x_trees():
    for nodes in trees():
        yield formula_of(nodes).decode(), program([block(0, expr(*nodes))])


def x_formulas():
    """The good formulas of formulas.py, many with parentheses that are not needed."""
    for group in (formulas.request, formulas.grouping, formulas.bounds):
        for text in group():
            refusal, _, nodes = formulas.answer(text.encode("latin-1"))
            if refusal == GOOD:
                yield text[:60], program([block(0, expr(*nodes))] + [block(3, 0, 0)] * max(0, max(nodes) - LEAF - out(0)))
    for op in range(1, 6):
        for d in (14, 15):
            yield f"left-{op}-{d}", program([block(0, expr(*[op] * d, *[7] * (d + 1)))])
            yield f"right-{op}-{d}", program([block(0, expr(*[op, 7] * d, 7))])
            for other in range(1, 6):
                yield f"by-turns-{op}-{other}-{d}", program([block(0, expr(*[op, 7, other, 8] * (d // 2), 7))])
                yield f"not-by-turns-{op}-{other}-{d}", program([block(0, expr(*[op, 7, NOT, other] * (d // 4), 7, *[6] * (d // 4)))])
    yield "nots", program([block(0, expr(*[NOT] * 15, 233 + 6))] + [block(2, 0, 0)] * 199)
    for op, inner in itertools.product(range(1, 6), repeat=2):  # long lines: 63 nodes, all names of four letters
        half = chain(inner, 31)
        yield f"long-{op}-{inner}", program([block(0, expr(*(LEAF + out(0) if n == LEAF else n for n in [op] + half + half)))])


def in_parentheses(operators, leaf, nots=0):
    """Nodes of NAND and NOR, every one but the first in parentheses: the longest formula of so many operators, behind some NOTs."""
    left = operators

    def part(depth, op):
        nonlocal left
        if left == 0 or depth == 16:
            return [leaf]
        left -= 1
        first = part(depth + 1, 5) if op == 4 else [leaf]
        return [op] + first + part(depth + 1, op)

    nodes = [NOT] * nots + part(1 + nots, 4)
    assert left == 0
    return nodes


def x_largest():
    """The longest listing that there is, and the longest program."""
    blocks = [block(0, expr(*in_parentheses(31, LEAF + out(k)))) for k in range(68)] + [block(0, expr(*in_parentheses(12, LEAF + out(68), 1)))]
    data = program(blocks, [out(k) for k in range(32)])
    n = len(export(data, MOST_ROOM)[2])
    assert accept(data)[2] == 5000 and n == 22129
    for room in (n - 1, n):
        yield f"listing-{room}", data, room
    formulas_ = [[node if node < LEAF else LEAF + out(88) for node in chain(1, 61 if k < 24 else 63)] for k in range(66)]
    data = program([block(2, 2, 0)] * 23 + [block(0, expr(*nodes)) for nodes in formulas_], [out(k) for k in range(32)])
    assert accept(data)[2] == 5000 and len(data) == 6367
    yield "program", data


def x_fields():
    """Each kind with each bit off, on, an input and a block; each number at its ends and where it gets longer."""
    tried = {id(BIT): [0, 1, 2, 33, 34], id(WORD): [0, 7, 8, 1000, 1001, const(-1), const(0), const(1), const(9), const(10), const(-9), const(-10), const(99),
                                                    const(-100), const(999), const(1000), const(9999), const(10000), const(-10000), 66534, 66535],
             id(TIME): [0, 1, 9, 10, 99, 100, 127, 128, 999, 1000, 9999, 10000, 16383, 16384, 32766, 32767], id(UNIT): [0, 1, 2], id(SWITCH): [0, 1],
             id(RELATION): range(6),
             id(SIGNED): [0, 1, pm(-10000), pm(-9999), pm(-1000), pm(-100), pm(-10), pm(-9), pm(-1), pm(0), pm(1), pm(9), pm(10), pm(100), pm(9999), pm(10000),
                          65534, 65535]}
    for kind, (letters, fields) in enumerate(KINDS):
        if fields == FORMULA:
            continue
        plain = list(PLAIN[kind])
        for k, (field, values_) in enumerate(fields):
            for v in tried[id(values_)]:
                row = plain[:k] + [v] + plain[k + 1:]
                yield f"{letters.decode()}-{field.decode()}-{v}", program([block(kind, *row), block(7, 2, 0, 1)])
        pins = [k for k, (_, values_) in enumerate(fields) if values_ is BIT]
        for bits in itertools.product([0, 1, 34], repeat=len(pins)):
            row = list(plain)
            for k, bit in zip(pins, bits):
                row[k] = bit
            yield f"{letters.decode()}-pins-{bits}", program([block(kind, *row)])
    for k in range(36):
        yield f"bit-{k}", program([block(3, k, 0)] + [block(2, 0, 0)] * max(0, k - 34), [k])
    for k in range(0, 234, 32):
        yield f"bits-from-{k}", program([block(2, 0, 0)] * 200, range(k, min(k + 32, 234)))
    for k in range(10):
        yield f"word-{k}", program([block(9, 1, 0, k, 7)] + [block(7, 0, 0, 0)] * max(0, k - 8)) if k != 8 else program([block(10, 1, 0, 1, 0, 8)])
    for name, lines in wide():
        yield name, import_(numbered(lines, "B199").encode(), MOST_ROOM)[2]
    for n in (0, 1, 2, 31, 32):
        for bit in (0, 1, 33, 34, 2):
            yield f"alarms-{n}-{bit}", program([block(2, 0, 0)], [bit] * n)
    for n in (1, 2, 10, 100, 127, 128, 199, 200):
        yield f"blocks-{n}", program([block(3, out(n - 1), 0)] * n, [out(n - 1)])
    yield "largest-UD", program([block(8, 233, 232, 231, 230, 0)] * 200, [233] * 32)
    yield "largest-OG", program([block(10, 233, 0, 1, 0, word(199))] * 200, [233] * 32)
    yield "largest-ZC", program([block(11, 233, 1, 1000, word(100), 1001)] * 100 + [block(7, 0, 0, 0)] * 100, [233] * 32)


def x_rooms():
    programs = [EXAMPLE_BYTES, acceptance.GOOD, program([block(3, 0, 0)]), program([block(3, 0, 0)] * 200), program([block(2, 0, 0)], [34] * 32)]
    programs += [program([block(kind, *PLAIN[kind])]) for kind in range(13)]
    programs.append(program([block(0, expr(*chain(1, 63)))] * 68 + [block(8, *PLAIN[8]), block(1, *PLAIN[1])]))
    for k, data in enumerate(programs):
        refusal, _, text = export(data, MOST_ROOM)
        assert refusal == GOOD
        n = len(text)
        tried = {n - 1, n} if len(data) > 500 else {0, 1, 4, len(data), n // 2, n - 7, n - 2, n - 1, n, n + 1, n + 2, n + 100}
        for room in sorted(tried | ({MOST_ROOM} if k < 3 else set())):
            yield f"{k}-{room}", data, room
    refused = ["", "00", "8100", "80", "0102020000" + "00", "0107020002012300", "01070200020123", "0107020002", "01020000", "010200000080", "01020000018000",
               "010A0081800280800280800200", "01060000000000"]
    for k, data in enumerate(refused):
        for room in (0, 1, 20, 1000):
            yield f"refused-{k}-{room}", bytes.fromhex(data), room
    heavy = [block(0, expr(*chain(1, 63)))] * 69
    for room in (0, 1000):
        yield f"memory-{room}", program(heavy), room
    yield "memory-astray", program(heavy, [233]), 0


def x_by_chance():
    for n in range(160):
        yield f"good-{n}", controller.random_program(chance.Random(n), 1 + n % 12)
    for n in (0, 1, 2, 3):
        yield f"good-large-{n}", controller.random_program(chance.Random(n), [200, 199, 100, 60][n])
    for n in range(400):
        r = chance.Random(5000 + n)
        data = bytearray(controller.random_program(r, 1 + n % 4))
        for _ in range(r.choice([1, 1, 2])):
            data[r.randrange(len(data))] = r.choice([0, 1, 34, 127, 128, 255, r.randrange(256)])
        yield f"changed-{n}", bytes(data[:r.randrange(len(data))] if n % 5 == 0 else data)


# ---- the cases as stored

FILES = {
    "imports_lines": [papers, ends, cut, spaces, space_anywhere, gaps],
    "imports_bytes": [every_byte, changed],
    "imports_fields": [present, spelt, unknown, first_words],
    "imports_values": [values, more_values],
    "imports_blocks": [numbering, alarms, references],
    "imports_formulas": [formulas_asked, more_formulas, bounds, long, exported_trees],
    "imports_order": [order, rooms, by_chance],
    "exports_programs": [x_papers, x_acceptance, x_numbers, x_largest, x_rooms, x_by_chance],
    "exports_formulas": [x_trees, x_formulas],
    "exports_fields": [x_fields],
}
# Of the groups that only multiply one case in so many is stored; the number is prime to how often their inner loops run, so that each variation is met.
SHARES = {space_anywhere: 3, gaps: 3, changed: 4, spelt: 3, unknown: 4, more_values: 5, more_formulas: 4, exported_trees: 4, x_numbers: 5}

Case = collections.namedtuple("Case", "group name way data room refusal place result")
MOST_LENGTH, MOST_FILE, MOST_ALL = 40000, 262144, 1200000
ROOM_REFUSED, ROOM_MORE = 120, 7
UNTOUCHED = 0xA5


def cases_of(groups, way, seen):
    """Where a group gives no room: what is refused has some, what is good has exactly enough or, if its length is odd, a little more."""
    found = []
    for group in groups:
        for name, data, *room in group():
            data = data if isinstance(data, bytes) else data.encode("latin-1")
            if not room:
                refusal, _, result = way(data, MOST_ROOM)
                assert refusal != SHORT_BUFFER
                room = [ROOM_REFUSED if refusal else len(result) + ROOM_MORE * (len(data) % 2)]
                if (data, None) in seen:
                    continue
                seen.add((data, None))
            if (data, room[0]) in seen:
                continue
            seen.add((data, room[0]))
            assert len(data) <= MOST_LENGTH and room[0] <= MOST_ROOM, name
            found.append(Case(group, name, way, data, room[0], *way(data, room[0])))
    return found


def all_cases():
    """The cases by files, those too that are not stored."""
    ways, seen = {"i": import_, "e": export}, {"i": set(), "e": set()}
    return {name: cases_of(groups, ways[name[0]], seen[name[0]]) for name, groups in FILES.items()}


def stored(cases):
    return [case for group, members in itertools.groupby(cases, key=lambda case: case.group) for case in list(members)[::SHARES.get(group, 1)]]


def buffer_after(case):
    return case.result + bytes([UNTOUCHED]) * (case.room - len(case.result))


def counted(cases):
    counts = collections.Counter(case.refusal for case in cases)
    return f"{len(cases)} cases: " + ", ".join(f"{counts[n]} refused {n}" if n else f"{counts[n]} good" for n in sorted(counts))


def check_with_oracle(cases):
    """The answers of oracle/ are the same."""
    given = [f"I{case.room} {formulas.escaped(case.data)}\n" if case.way is import_ else f"E{case.room} {case.data.hex()}\n" for case in cases]
    for case, theirs in zip(cases, formulas.lines_of(["listings"], "".join(given)), strict=True):
        result = case.result.hex().upper() if case.way is import_ else formulas.escaped(case.result)
        assert f"{case.refusal} {case.place} {len(case.result)} {result}".strip() == theirs, (case, theirs)


def write_cases():
    formulas.build_oracle()
    os.makedirs(os.path.join(CRATE, "data"), exist_ok=True)
    told, every, total = [], [], 0
    for name, cases in all_cases().items():
        cases = stored(cases)
        check_with_oracle(cases)
        content = b"".join(case.room.to_bytes(4, "little") + len(case.data).to_bytes(4, "little") + case.data for case in cases)
        assert len(content) <= MOST_FILE, (name, len(content))
        total += write(os.path.join("data", name), content)
        told += [f"== {name}"] + [f"{case.refusal} {case.place} {len(case.result)} {zlib.adler32(buffer_after(case))}" for case in cases]
        every += cases
        print(f"{name}: {counted(cases)}; {len(content)} bytes")
    total += write("args", "".join(f"{name}\n" for name in FILES).encode())
    total += write("stdout", ("\n".join(told) + "\n").encode())
    for way, title in ((import_, "imports"), (export, "exports")):
        print(f"{title}: {counted([case for case in every if case.way is way])}")
    assert total <= MOST_ALL, total
    print(f"{total} bytes in all")
    return 0


def write(name, content):
    with open(os.path.join(CRATE, name), "wb") as h:
        return h.write(content)


def escaped(data):
    return "".join(chr(b) if 32 <= b <= 126 and b != 92 else {10: "\\n", 13: "\\r", 9: "\\t"}.get(b, f"\\x{b:02X}") for b in data)


def shown(data, way):
    if way is export:
        return [data.hex(" ") if len(data) <= 100 else f"{data[:60].hex(' ')} .. {data[-20:].hex(' ')} ({len(data)} bytes)"]
    text = escaped(data).replace("\\n", "\\n\n")
    lines = [line if len(line) <= 160 else f"{line[:100]} .. {line[-40:]} ({len(line)} characters)" for line in text.removesuffix("\n").split("\n")]
    return lines if len(lines) <= 16 else lines[:8] + [f"... ({len(lines) - 12} lines)"] + lines[-4:]


def show(wanted=None):
    for file, cases in all_cases().items():
        for group, members in itertools.groupby(cases, key=lambda case: case.group):
            group = group.__name__.removeprefix("x_")
            if wanted not in (None, group):
                continue
            members = list(members)
            print(f"== {file}, {group}: {counted(members)}")
            for case in members:
                answer = f"refused {case.refusal} at {case.place}" if case.refusal else f"good, {len(case.result)} bytes"
                print(f"{file} {group} {escaped(case.name.encode('latin-1'))}, room {case.room}: {answer}")
                for line in shown(case.data, case.way):
                    print(f"    {line}")
                if not case.refusal:
                    for line in shown(case.result, export if case.way is import_ else import_):
                        print(f"  > {line}")
    return 0


# ---- this reading against itself and others

def check():
    check_table()
    for text, refusal, place in STATED:
        expected = (GOOD, 0, place) if refusal == GOOD else (refusal, place, b"")
        assert import_(text.encode(), MOST_ROOM) == expected, (text, import_(text.encode(), MOST_ROOM))
    for data, refusal, place in EXPORT_STATED:
        expected = (GOOD, 0, place.encode()) if refusal == GOOD else (refusal, place, b"")
        assert export(bytes.fromhex(data), MOST_ROOM) == expected, (data, export(bytes.fromhex(data), MOST_ROOM))
    print(f"{len(STATED) + len(EXPORT_STATED)} worked out by hand")
    print(f"{check_fewest()} expressions with the fewest parentheses")
    print(f"{check_formulas()} formulas read as formulas.py reads them")
    print(f"{check_round()} programs and listings go round")
    check_large()
    print("the large ones are read")
    return 0


def check_table():
    types = {"bit": BIT, "word": WORD, "signed": SIGNED, "divisor": SIGNED, "time": TIME, "off": TIME, "unit": UNIT, 1: SWITCH, 5: RELATION}
    for (letters, fields), (name, expected, _) in zip(KINDS, acceptance.KINDS, strict=True):
        assert letters.decode() == name
        assert expected == ["expression"] and fields == FORMULA or [values_ for _, values_ in fields] == [types[t] for t in expected]
    assert (len(BIT), len(WORD), len(SIGNED), len(TIME)) == (234, 8 + 200 + 65536, 65536, 32768)


def check_fewest():
    """Over all expressions of up to three operators: of all ways to put parentheses round operators and what belongs to them,
    those of export are the fewest that are read as the expression."""
    count = 0
    for nodes in trees():
        stack = []
        for node in reversed(nodes):  # all ways, as lists of texts
            if node >= LEAF:
                ways = [SPELT_BIT[node - LEAF]]
            else:
                parts = [stack.pop() for _ in range(1 if node == NOT else 2)]
                plain = [b"!" + p for p in parts[0]] if node == NOT else [b"%b %b %b" % (a, SPELT_SIGN[node][0], b) for a, b in itertools.product(*parts)]
                ways = plain + [b"(%b)" % p for p in plain]
            stack.append(ways)
        same = [way for way in ways if nodes_of(way) == nodes]
        least = min(way.count(b"(") for way in same)
        assert [way for way in same if way.count(b"(") == least] == [formula_of(nodes)], nodes
        count += 1
    return count


def check_formulas():
    count = 0
    for group in formulas.GROUPS:
        if group in (formulas.random, formulas.long):
            continue
        for text in group():
            text = text.encode("latin-1")
            place, found = formulas.FORMULAS.derivation(text)
            assert nodes_of(text) == (None if found is None else formulas.nodes_of(found)), text
            count += 1
    for n in range(6):
        for letters in itertools.product([b" ", b"!", b"&", b"|", b"(", b")", b"1", b"I01"], repeat=n):
            text = b"".join(letters)
            place, found = formulas.FORMULAS.derivation(text)
            assert nodes_of(text) == (None if found is None else formulas.nodes_of(found)), text
            count += 1
    return count


def check_round():
    count, longest = 0, 0
    for case in itertools.chain(*all_cases().values()):
        if case.way is import_:
            assert case.refusal in (0, 2, 3, 4, 7, 12)
            if case.refusal == GOOD:
                refusal, place, text = export(case.result, 10**6)
                assert (refusal, place) == (0, 0) and import_(text, 10**6) == (GOOD, 0, case.result), case.name
                count += 1
        elif case.refusal == GOOD:
            assert import_(case.result, len(case.data)) == (GOOD, 0, case.data), case.name
            longest = max(longest, max(map(len, case.result.split(b"\n"))))
            count += 1
        elif case.refusal != SHORT_BUFFER:
            assert (case.refusal, case.place) == accept(case.data)[:2]
    assert longest <= 998
    return count


def check_large():
    million = 10**6
    assert import_(b"B000 BL " + b"!" * million + b"1\nALARMS\n", 9) == (2, 18, b"")
    assert import_(b"B000 BL " + b"!" * million + b"\nALARMS\n", 9) == (7, 0, b"")
    for sign in SIGNS:
        assert import_(b"B000 BL 1" + (b" " + sign + b" 1") * million + b"\nALARMS\n", 9) == (2, 18, b"")
    assert import_(b"B000 BL " + b"(" * million + b"1" + b")" * million + b"\nALARMS\n", 9) == (7, 0, b"")
    assert import_(b" " * million + b"B000 PL" + b" " * million + b"MODE=1" + b" " * million + b"\r\nALARMS\n", 9) == (GOOD, 0, bytes.fromhex("0102000100"))
    assert import_(b"B000 CN PRESET=" + b"9" * million + b"\nALARMS\n", 9) == (7, 0, b"")
    assert import_(b"\n" * million, 9) == (7, 0, b"")
    assert import_(b"B000 AL\nALARMS" + b" 0" * MOST_ALARMS + b"\n", 9) == (2, 4, b"")
    assert import_(b"B000 AL\nALARMS" + b" 0" * (MOST_ALARMS + 1) + b"\n", 9) == (7, 8, b"")
    assert import_(b"ALARMS" + b" 0" * MOST_ALARMS + b"\n", 9) == (2, 0, b"")
    assert import_(b"ALARMS" + b" 0" * (MOST_ALARMS + 1) + b"\n", 9) == (7, 0, b"")


# ---- another reading

class Answer(ctypes.Structure):
    _fields_ = [("refusal", ctypes.c_uint), ("place", ctypes.c_size_t), ("length", ctypes.c_size_t)]


class Library:
    MOST = 1 << 22  # of what a maker makes
    GUARD = 64  # bytes behind the lent ones, that stay as they are

    def __init__(self, path):
        library = ctypes.CDLL(os.path.abspath(path))
        self.ways = {import_: library.oracle_import_listing, export: library.oracle_export_program}
        for way in self.ways.values():
            way.restype = Answer
            way.argtypes = [ctypes.c_char_p, ctypes.c_size_t, ctypes.c_char_p, ctypes.c_size_t]
        self.listing, self.program = library.oracle_listing, library.oracle_program
        for maker in (self.listing, self.program):
            maker.restype = ctypes.c_size_t
            maker.argtypes = [ctypes.c_uint64, ctypes.c_char_p, ctypes.c_size_t]
        self.room = ctypes.create_string_buffer(self.MOST)

    def made(self, maker, seed):
        length = maker(seed, self.room, self.MOST)
        assert length <= self.MOST
        return ctypes.string_at(self.room, length)

    def answer(self, way, data, room):
        """Refusal, place, length and the buffer with some bytes behind it."""
        lent_ = ctypes.create_string_buffer(bytes([UNTOUCHED]) * (room + self.GUARD), room + self.GUARD)
        a = self.ways[way](data, len(data), lent_, room)
        return a.refusal, a.place, a.length, lent_.raw


def compare(path, first, last):
    library = Library(path)
    counts, differ = {import_: collections.Counter(), export: collections.Counter()}, 0

    def tried(name, way, data, room):
        nonlocal differ
        refusal, place, result = way(data, room)
        counts[way][refusal] += 1
        expected = (refusal, place, len(result), result + bytes([UNTOUCHED]) * (room + Library.GUARD - len(result)))
        got = library.answer(way, data, room)
        if got != expected:
            differ += 1
            if differ <= 40:
                print(f"{escaped(name.encode('latin-1'))}, {way.__name__.strip('_')}, room {room}: here refused {refusal} at {place}, {len(result)} bytes; "
                      f"there refused {got[0]} at {got[1]}, {got[2]} bytes" + (", in the buffer something else" if got[:3] == expected[:3] else ""))
                for line in shown(data, way):
                    print(f"    {line}")
        return result

    def with_rooms(name, way, data):
        """With more room than needed and, if it is good, with exactly enough and one byte less."""
        result = tried(name, way, data, 1 << 16)
        if result:
            tried(name, way, data, len(result))
            tried(name, way, data, len(result) - 1)
        else:
            tried(name, way, data, 0)
        return result

    for case in itertools.chain(*all_cases().values()):
        tried(f"case {case.group.__name__} {case.name}", case.way, case.data, case.room)
    for seed in range(first, last + 1):
        data = with_rooms(f"listing of seed {seed}", import_, library.made(library.listing, seed))
        if data:
            with_rooms(f"program of the listing of seed {seed}", export, data)
        text = with_rooms(f"program of seed {seed}", export, library.made(library.program, seed))
        if text:
            r = chance.Random(seed)
            with_rooms(f"listing of the program of seed {seed}", import_, text)
            for k in range(3):
                with_rooms(f"changed {k} listing of the program of seed {seed}", import_, faulty(text.decode(), r).encode("latin-1"))
    for way, name in ((import_, "imported"), (export, "exported")):
        print(f"{name}: " + ", ".join(f"{counts[way][n]} refused {n}" if n else f"{counts[way][n]} good" for n in sorted(counts[way])))
    print(f"{sum(sum(c.values()) for c in counts.values())} compared, {differ} differ")
    return 1 if differ else 0


def main(args):
    if args == ["cases"]:
        return write_cases()
    if args[:1] == ["show"] and len(args) <= 2:
        return show(*args[1:])
    if args == ["check"]:
        return check()
    if args[:1] == ["compare"] and len(args) == 4:
        return compare(args[1], int(args[2]), int(args[3]))
    print(__doc__, file=sys.stderr)
    return 2


if __name__ == "__main__":
    sys.exit(main(sys.argv[1:]))
