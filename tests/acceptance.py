"""Acceptance as document 01 and request L2 say it, and programs to try it on. controller.py, beside it, writes the cases.

It is a reading of its own of both, made from the papers and not from the Rattle code, and knows nothing of how
that is written. A group of cases gives names with programs.
"""

# ---- document 01, "Program bytes" and "Numbers of refusal"

B, W, S, T, U = "bit", "word", "signed", "time", "unit"
KINDS = [  # name, fields, memory
    ("BL", ["expression"], 10), ("SR", [B, B, 1], 14), ("PL", [B, 1], 10), ("AL", [B, B], 13),
    ("DL", [B, B, U, T, T], 19), ("OS", [B, B, U, T], 17), ("FL", [B, U, T, "off"], 19), ("CN", [B, B, T], 16),
    ("UD", [B, B, B, B, S], 22), ("CP", [B, 5, W, W], 17), ("OG", [B, S, "divisor", S, W], 22),
    ("ZC", [B, 1, W, W, W], 20), ("ST", [B, W, W, W], 19),
]
WITH_WORD = {"CN", "UD", "OG"}


class Refused(Exception):
    pass


class Reader:
    def __init__(self, data):
        self.data, self.at = data, 0

    def number(self):
        """The number here and its place."""
        place, value = self.at, 0
        for group in range(3):
            if self.at == len(self.data):
                raise Refused(8, place)  # cut by the end of the data
            byte = self.data[self.at]
            self.at += 1
            value += (byte & 127) << (7 * group)
            if byte < 128:
                if byte == 0 and group > 0:
                    raise Refused(1, place)  # not shortest
                return value, place
        raise Refused(1, place)  # over three groups

    def one(self, good):
        value, place = self.number()
        if not good(value):
            raise Refused(2, place)
        return value, place


def accept(data):
    """(refusal, place, memory, steps)"""
    try:
        return (0, 0) + read(Reader(data))
    except Refused as r:
        return r.args + (0, 0)


def read(r):
    bits, words, kinds = [], [], []  # references as (block, place)
    memory = steps = 0

    def bit():
        v, place = r.one(lambda v: v <= 233)
        if v >= 34:
            bits.append((v - 34, place))

    def node(depth, left):
        v, place = r.number()
        if depth > 16 or left[0] == 0 or v > 239:
            raise Refused(2, place)
        left[0] -= 1
        if v >= 6:
            if v - 6 >= 34:
                bits.append((v - 6 - 34, place))
        else:
            for _ in range(1 if v == 0 else 2):
                node(depth + 1, left)

    count, _ = r.one(lambda v: 1 <= v <= 200)
    for _ in range(count):
        kind, _ = r.one(lambda v: v <= 12)
        name, fields, size = KINDS[kind]
        kinds.append(name)
        memory += size
        before = None
        if fields == ["expression"]:
            left = [63]
            node(1, left)
            memory += 63 - left[0]
            steps += 63 - left[0]
            continue
        steps += 1
        for f in fields:
            if f == B:
                bit()
            elif f == W:
                v, place = r.one(lambda v: v <= 207 or 1000 <= v <= 66535)
                if 8 <= v <= 207:
                    words.append((v - 8, place))
            elif f == S:
                r.one(lambda v: v <= 65535)
            elif f == "divisor":
                r.one(lambda v: v <= 65535 and v - 32768 != 0)
            elif f == T:
                before, _ = r.one(lambda v: v <= 32767)
            elif f == "off":
                r.one(lambda v: v <= 32767 and (before, v) != (0, 0))
            elif f == U:
                r.one(lambda v: v <= 2)
            else:
                r.one(lambda v: v <= f)
    alarms, _ = r.one(lambda v: v <= 32)
    for _ in range(alarms):
        bit()
    if r.at < len(r.data):
        raise Refused(2, r.at)
    astray = [place for block, place in bits if block >= count]
    astray += [place for block, place in words if block >= count or kinds[block] not in WITH_WORD]
    if astray:
        raise Refused(3, min(astray))
    if memory > 5000:
        raise Refused(4, 0)
    return memory, steps


# ---- writing programs

def num(v):
    out = []
    while v > 127:
        out.append(128 + v % 128)
        v //= 128
    return bytes(out + [v])


def block(kind, *fields):
    return num(kind) + b"".join(f if isinstance(f, bytes) else num(f) for f in fields)


def program(blocks, alarms=()):
    return num(len(blocks)) + b"".join(blocks) + num(len(alarms)) + b"".join(num(a) for a in alarms)


def out(k):
    return 34 + k


def word(k):
    return 8 + k


def const(v):
    return v + 33768


def pm(v):
    return v + 32768


def expr(*nodes):
    return b"".join(num(n) for n in nodes)


def chain(op, nodes):
    """A tree of that many nodes, an odd number, as flat as it can be."""
    if nodes == 1:
        return [6]
    half = (nodes - 1) // 2
    left = half if half % 2 else half - 1
    return [op] + chain(op, left) + chain(op, nodes - 1 - left)


# good fields for a block of each kind, with nothing astray in a program of one block
PLAIN = [
    [expr(7)], [2, 3, 1], [2, 0], [2, 3], [2, 0, 1, 50, 20], [2, 0, 2, 30], [2, 0, 3, 2], [2, 0, 5],
    [2, 3, 4, 5, pm(-7)], [1, 2, 0, const(9)], [1, pm(-7), pm(2), pm(0), const(1)], [2, 1, const(-5), 3, const(5)],
    [2, 0, const(10), const(4)],
]

# every kind, references of every sort, forward and back, numbers of one, two and three bytes
GOOD = program([
    block(0, expr(1, 6 + out(1), 3, 0, 6 + 2, 6 + 33)),
    block(1, out(0), 33, 1),
    block(2, out(3), 1),
    block(3, 2, out(12)),
    block(4, out(2), 0, 2, 32767, 50),
    block(5, 3, 1, 1, 200),
    block(6, 1, 0, 0, 1),
    block(7, out(6), out(5), 300),
    block(8, 2, 3, 4, 5, pm(32767)),
    block(9, 1, 5, word(7), word(10)),
    block(10, 1, pm(-32768), pm(-1), pm(0), word(8)),
    block(11, 1, 1, const(-32768), 7, const(32767)),
    block(12, 1, word(10), 0, const(0)),
], [out(9), out(11), 0, 33, out(12)])


def examples():
    p1 = bytes.fromhex("01070200020122")
    yield "P1", p1
    yield "P2", b""
    yield "P3", b"\x00"
    yield "P4", b"\x81\x00"
    yield "P5", p1 + b"\x00"
    yield "P6", p1[:-1] + b"\x23"
    yield "P7", p1[:-1]
    yield "count-201", b"\xC9\x01"
    full = [block(0, expr(*chain(1, 63)))] * 68
    yield "memory-5000", program(full + [block(8, *PLAIN[8]), block(1, *PLAIN[1])])
    yield "memory-5001", program(full + [block(8, *PLAIN[8]), block(0, expr(*chain(2, 5)))])
    yield "all-kinds", GOOD


def cut_at(n):
    """Where the number starts that is cut in the first n bytes of GOOD: all of its bytes there have the high bit on."""
    return cut_at(n - 1) if n > 0 and GOOD[n - 1] >= 128 else n


def prefixes():
    for n in range(len(GOOD)):
        assert accept(GOOD[:n]) == (8, cut_at(n), 0, 0)
        yield f"first-{n}", GOOD[:n]


def overlong():
    """The prefixes again, the cut number made badly formed: by its last byte it is over three groups, or not shortest."""
    for n in range(len(GOOD)):
        there = n - cut_at(n)
        tails = [("over", b"\x80" * (3 - there)), ("over-full", b"\xFF" * (3 - there)),
                 ("longer", b"\x81" * (2 - there) + b"\x00")]
        if there < 2:
            tails.append(("long", (b"" if there else b"\x80") + b"\x00"))
        for name, tail in tails:
            assert accept(GOOD[:n] + tail) == (1, cut_at(n), 0, 0)
            yield f"first-{n}-{name}", GOOD[:n] + tail


def replaced():
    for i, b in enumerate(GOOD):
        for v in sorted({0, 1, 13, 127, 128, 200, 255, b ^ 1, (b + 1) % 256} - {b}):
            yield f"byte-{i}-{v:02X}", GOOD[:i] + bytes([v]) + GOOD[i + 1:]


def numbers():
    forms = [("long-0", "8000"), ("long-1", "8100"), ("long-127", "FF00"), ("longer-0", "808000"), ("longer-1", "818000"),
             ("longer-16383", "FFFF00"), ("over", "808080"), ("over-and-more", "80808001"), ("over-full", "FFFFFF"),
             ("cut-0", ""), ("cut-1", "80"), ("cut-1-of-1", "81"), ("cut-2", "8080"), ("cut-1-full", "FF"),
             ("cut-2-full", "FFFF"),
             ("two-groups", "8001"), ("two-groups-full", "FF7F"), ("three-groups", "808001"), ("largest", "FFFF7F")]
    heads = [("count", b""), ("kind", b"\x01"), ("pin", b"\x01\x07"), ("preset", b"\x01\x07\x02\x00"),
             ("node", b"\x01\x00\x01"), ("alarms", b"\x01\x07\x02\x00\x02"), ("alarm", b"\x01\x07\x02\x00\x02\x01"),
             ("mode", b"\x01\x02\x02"), ("relation", b"\x01\x09\x01"), ("word", b"\x01\x09\x01\x00"),
             ("unit", b"\x01\x05\x02\x00"), ("time", b"\x01\x05\x02\x00\x00"), ("off", b"\x01\x06\x02\x00\x00"),
             ("setting", b"\x01\x08\x02\x03\x04\x05"), ("divisor", b"\x01\x0A\x01\x00")]
    answers = {"cut": 8, "long": 1, "longer": 1, "over": 1}  # by the first word of a form's name
    for where, head in heads:
        for name, form in forms:
            data = head + bytes.fromhex(form)
            answer = answers.get(name.split("-")[0])
            assert answer is None or accept(data) == (answer, len(head), 0, 0)
            yield f"{where}-{name}", data
    for where, head in heads:
        yield f"{where}-long-1-then-rest", head + bytes.fromhex("8100") + b"\x00" * 8


def expressions():
    def bl(nodes):
        return program([block(0, expr(*nodes))])
    for op in range(1, 6):
        yield f"operator-{op}", bl([op, 6, 7])
    yield "not", bl([0, 7])
    yield "node-239", bl([239])
    yield "node-240", bl([240])
    yield "leaf-input-31", bl([6 + 33])
    yield "leaf-self", bl([6 + out(0)])
    yield "leaf-beyond", bl([1, 7, 6 + out(1)])
    for n in (61, 63, 65):
        yield f"nodes-{n}", bl(chain(2, n))
    yield "nodes-64", bl(chain(2, 63)[:-1] + [0, 6])
    yield "nodes-64-first-too-many-is-240", bl(chain(2, 63)[:-1] + [0, 240])
    for d in (15, 16, 17, 18):
        yield f"depth-{d}", bl([0] * (d - 1) + [6])
        yield f"depth-{d}-left", bl([1] * (d - 1) + [6] * d)
        yield f"depth-{d}-right", bl([1, 6] * (d - 1) + [6])
    yield "depth-17-is-cut", program([block(0, expr(*[0] * 16))])[:-1]
    yield "depth-17-is-bad", b"\x01\x00" + b"\x00" * 16 + b"\x80\x00"
    yield "depth-17-is-240", bl([0] * 16 + [240])
    # one node too deep or too many that is no number: cut, or badly formed
    for name, head in (("depth-17", [0] * 16), ("nodes-64", chain(2, 63)[:-1] + [0])):
        for form, tail in (("is-cut-in-1", "80"), ("is-cut-in-2", "8080"), ("is-cut-in-2-full", "FFFF"),
                           ("is-over", "808080"), ("is-over-full", "FFFFFF"), ("is-long", "8100"), ("is-longer", "818000")):
            data = b"\x01\x00" + expr(*head) + bytes.fromhex(tail)
            assert accept(data) == (8 if "cut" in form else 1, 2 + len(head), 0, 0)
            yield f"{name}-{form}", data
    yield "nodes-64-is-cut", b"\x01\x00" + expr(*chain(2, 63)[:-1], 0)
    yield "second-part-missing", bl([1, 6])[:-1]


def fields():
    largest = {B: 233, S: 65535, "divisor": 65535, T: 32767, "off": 32767, U: 2, W: 66535}
    for kind, (name, types, _) in enumerate(KINDS):
        yield f"{name}-alone", program([block(kind, *PLAIN[kind])])
        for i, f in enumerate(types):
            if f == "expression":
                continue
            top = largest.get(f, f)
            for v in (0, top, top + 1):
                row = list(PLAIN[kind])
                row[i] = v
                yield f"{name}-{i}-{v}", program([block(kind, *row)])
    yield "kind-13", program([block(13)])
    for on, off in ((0, 0), (0, 1), (1, 0)):
        yield f"FL-on-{on}-off-{off}", program([block(6, 2, 0, on, off)])
    yield "DL-on-0-off-0", program([block(4, 2, 0, 0, 0, 0)])
    for b in (32767, 32768, 32769):
        yield f"OG-B-{b}", program([block(10, 1, 5, b, 5, 0)])
    for n in (1, 2, 199, 200, 201):
        yield f"blocks-{n}", program([block(2, 0, 0)] * n)
    for n in (0, 1, 31, 32, 33):
        yield f"alarms-{n}", program([block(2, 0, 0)], [34] * n)
    for extra in ("00", "80", "FF00", "01070200"):
        yield f"extra-{extra}", GOOD + bytes.fromhex(extra)


def references():
    for v in (0, 1, 2, 33, 34, 35, 36, 37, 232, 233, 234, 235, 65535, 2097151):
        yield f"pin-{v}", program([block(2, v, 0), block(7, 2, 0, 1), block(1, 0, 0, 0)])
        yield f"alarm-{v}", program([block(2, 0, 0), block(7, 2, 0, 1), block(1, 0, 0, 0)], [2, v])
        yield f"node-pin-{v}", program([block(0, expr(1, 7, 6 + v)), block(7, 2, 0, 1), block(1, 0, 0, 0)])
    for v in (0, 7, 8, 9, 10, 11, 206, 207, 208, 209, 500, 998, 999, 1000, 1001, 33768, 66534, 66535, 66536, 2097151):
        yield f"word-{v}", program([block(9, 1, 0, v, 0), block(7, 2, 0, 1), block(1, 0, 0, 0)])
    for kind, (name, _, _) in enumerate(KINDS):
        yield f"word-of-{name}", program([block(9, 1, 0, 0, word(1)), block(kind, *PLAIN[kind])])
        yield f"word-of-{name}-before", program([block(kind, *PLAIN[kind]), block(12, 1, word(0), 0, 0)])
    yield "word-of-itself-ST", program([block(12, 1, word(0), 0, 0)])
    yield "word-of-itself-OG", program([block(10, 1, 0, 1, 2, word(0))])
    yield "forward-pin", program([block(2, out(2), 0), block(2, 0, 0), block(7, 2, 0, 1)])
    yield "forward-word", program([block(9, 1, 0, word(2), word(1)), block(8, *PLAIN[8]), block(7, 2, 0, 1)])
    yield "forward-word-without", program([block(9, 1, 0, word(2), word(1)), block(1, 0, 0, 0), block(7, 2, 0, 1)])


def order():
    far = block(2, out(9), 0)
    yield "3-then-1", program([far, block(2, 0, 0)])[:-1] + b"\x80\x00"
    yield "3-then-8", program([far, block(2, 0, 0)])[:-1] + b"\x80"
    yield "3-then-2", program([far, block(2, 0, 2)])
    yield "3-then-extra", program([far]) + b"\x00"
    yield "3-then-bad-kind", program([far, block(13)])
    yield "3-then-cut", program([far, block(2, 0, 0)], [0])[:-1]
    yield "2-then-1", program([block(2, 0, 2)])[:-1] + b"\x80\x00"
    yield "2-then-8", program([block(2, 0, 2)])[:-1] + b"\x80"
    yield "1-then-2", b"\x01\x02\x80\x00\x02\x00"
    yield "1-then-cut", b"\x01\x02\x80\x00\x00"
    yield "1-then-8", b"\x01\x02\x80\x00\x00\x80"
    # a 2 that is the last number there is, and one with a cut number after it
    for name, tail in (("cut", b""), ("8", b"\x80")):
        yield f"2-count-then-{name}", num(201) + tail
        yield f"2-kind-then-{name}", num(1) + num(13) + tail
        yield f"2-pin-then-{name}", num(1) + block(2, 234) + tail
        yield f"2-word-then-{name}", num(1) + block(9, 1, 0, 999) + tail
        yield f"2-divisor-then-{name}", num(1) + block(10, 1, 0, pm(0)) + tail
        yield f"2-off-then-{name}", num(1) + block(6, 1, 0, 0, 0) + tail
        yield f"2-node-then-{name}", num(1) + block(0, expr(1, 240)) + tail
        yield f"2-alarms-then-{name}", num(1) + block(2, 0, 0) + num(33) + tail
    # 3 waits for the whole program: references of all sorts are astray, and the data end anywhere after the first
    stray = program([block(0, expr(1, 6 + out(9), 6 + out(3))), block(1, out(9), 0, 0), block(9, 1, 0, word(1), word(9))],
                    [2, out(9)])
    assert accept(stray) == (3, 3, 0, 0)
    for n in range(4, len(stray)):
        for name, tail, answer in (("cut", b"", 8), ("8", b"\x80", 8), ("1", b"\x80\x00", 1)):
            assert accept(stray[:n] + tail) == (answer, n, 0, 0)
            yield f"3-then-{name}-at-{n}", stray[:n] + tail
    yield "2-then-2", program([block(2, 234, 2)])
    yield "3-then-3", program([block(1, 0, out(5), 0), block(2, out(6), 0)], [out(7)])
    yield "3-word-then-bit", program([block(9, 1, 0, word(0), 0), block(2, out(6), 0)])
    yield "3-bit-then-word", program([block(9, out(6), 0, word(0), 0)])
    yield "3-alarm-last", program([block(7, 2, 0, 1)], [34, 35])
    heavy = [block(0, expr(*chain(1, 63)))] * 69
    yield "4", program(heavy)
    yield "3-before-4", program(heavy, [233])
    yield "2-before-4", program(heavy, [234])
    yield "extra-before-4", program(heavy) + b"\x00"
    yield "cut-before-4", program(heavy)[:-1]
    yield "8-before-4", program(heavy)[:-1] + b"\x80"
    yield "1-before-4", program(heavy)[:-1] + b"\x80\x00"
    yield "heaviest", program([block(0, expr(*chain(1, 63)))] * 200)


GROUPS = [examples, prefixes, overlong, replaced, numbers, expressions, fields, references, order]
