#!/usr/bin/env python3
"""Formulas typed as text (request L1), read by a general method, and cases of them.

    tests/formulas.py read                  texts on standard input, a line each; their answers
    tests/formulas.py compare FIRST LAST    compares the answers with those of oracle/, over the texts of these seeds
    tests/formulas.py short LENGTH          the same over all texts of up to so many bytes out of a dozen
    tests/formulas.py cases                 writes crates/formula_cases/data/*, args and stdout anew

It is a reading of the request of its own, made from the paper and not from the Rattle code. There is no parser of
formulas in it: the grammar is written down as rules, and a method that knows nothing of formulas runs over it, with all
readings at once and one byte at a time. Where a text goes wrong is where no reading is left.

In a line the bytes 33 to 126 but for \\ and @, and the space, stand for themselves; any other is \\hh. A line `@N hh` is a
text of N times the byte hh. An answer is REFUSAL PLACE COUNT and the nodes.
"""
import itertools
import os
import re
import subprocess
import sys

HERE = os.path.dirname(os.path.abspath(__file__))
ORACLE = os.path.join(HERE, "..", "oracle")
CRATE = os.path.join(HERE, "..", "crates", "formula_cases")

# ---- request L1: the grammar

GOOD, OUTSIDE, BAD_TEXT = 0, 2, 7
MOST_NODES, MOST_DEPTH, MOST_OPEN = 63, 16, 16
LEAF = 6  # node of bit reference 0
INPUT, OUTPUT = 2, 34  # bit references of input bit 0 and of block 0
NAMES = {"0": 0, "1": 1}
NAMES |= {f"I{k:02}": INPUT + k - 1 for k in range(1, 33)}
NAMES |= {f"B{k:03}": OUTPUT + k for k in range(200)}
SIGNS = [("not-sign", "!", 0), ("and-sign", "&", 1), ("and-sign", "!&", 4), ("xor-sign", "^", 3), ("or-sign", "|", 2), ("or-sign", "!|", 5)]
GAP = "spaces or nothing"


def grammar():
    """Its rules: what is made, of what, and which of these are written in order; for a sign or name the node itself.

    Bytes stand for themselves; a tuple is a list or part with as many parentheses open around it.
    """
    yield "text", [GAP, ("or-list", 0)], [("or-list", 0)]
    for n in range(MOST_OPEN + 1):
        ors, xors, ands, part = (("or-list", n), ("xor-list", n), ("and-list", n), ("part", n))
        yield ors, [xors], [xors]
        yield ors, [ors, "or-sign", GAP, xors], ["or-sign", ors, xors]
        yield xors, [ands], [ands]
        yield xors, [xors, "xor-sign", GAP, ands], ["xor-sign", xors, ands]
        yield ands, [part], [part]
        yield ands, [ands, "and-sign", GAP, part], ["and-sign", ands, part]
        yield part, ["name", GAP], ["name"]
        yield part, ["not-sign", GAP, part], ["not-sign", part]
        if n < MOST_OPEN:
            inner = ("or-list", n + 1)
            yield part, [b"(", GAP, inner, b")", GAP], [inner]
    yield "spaces", [b" "], []
    yield "spaces", ["spaces", b" "], []
    for sign, spelt, node in SIGNS:
        yield sign, [spelt.encode()], node
    for name, reference in NAMES.items():
        yield "name", [name.encode()], LEAF + reference


def spelt_out(rules):
    """The rules with each byte a symbol of its own, and each gap once there and once not: so none is empty."""
    for left, right, written in rules:
        for gaps in itertools.product((["spaces"], []), repeat=right.count(GAP)):
            gap, symbols = iter(gaps), []
            for symbol in right:
                symbols += next(gap) if symbol == GAP else list(symbol) if isinstance(symbol, bytes) else [symbol]
            yield left, tuple(symbols), written if isinstance(written, int) else [symbols.index(symbol) for symbol in written]


# ---- the method: sets of items (Knuth's, with nothing looked at ahead) and all stacks at once in one graph (Tomita's)

class Ambiguous(Exception):
    pass


class Method:
    """Derivations by any grammar without empty rules: rules are (left, right, anything), whole numbers are bytes.

    An item is a rule with a place in its right side. A state is a set of items, all that can be under way after the same
    symbols. A node of the graph is a state after some byte, with the nodes before it; a way back through the graph is one
    reading of the bytes so far. A reading is dropped only when a byte comes that it has no item for. Every reading that
    is left can be gone on with, since every symbol of the grammar can be made of bytes (this is checked): so the first
    byte for which none is left is the first one that no good text with the same beginning has there.
    """

    def __init__(self, rules, goal):
        self.rules = [("goal", (goal,), None)] + list(rules)
        self.made_by = {}
        for number, (left, right, _) in enumerate(self.rules):
            assert right, "empty rules are not for this method"
            self.made_by.setdefault(left, []).append(number)
        self.check_productive()
        self.states = {frozenset([(0, 0)]): 0}
        self.moves, self.ends = [], []  # for each state: symbol to state; the rules that end in it
        for items in self.all_states():
            moves, ends = {}, []
            for rule, place in self.closed(items):
                left, right, _ = self.rules[rule]
                if place == len(right):
                    ends.append((rule, left, place))
                else:
                    moves.setdefault(right[place], set()).add((rule, place + 1))
            self.moves.append({symbol: self.numbered(frozenset(to)) for symbol, to in moves.items()})
            self.ends.append(ends)
        self.goal = self.moves[0][goal]
        assert self.ends[self.goal][0][0] == 0

    def check_productive(self):
        """Every symbol can be made of bytes, and every symbol used is one."""
        made, before = set(), -1
        while before != len(made):
            before = len(made)
            made |= {left for left, right, _ in self.rules if all(isinstance(s, int) or s in made for s in right)}
        used = {s for _, right, _ in self.rules for s in right if not isinstance(s, int)} | set(self.made_by)
        assert used == made, used - made

    def all_states(self):
        """The states in the order of their numbers, also those that are found on the way."""
        done = 0
        while done < len(self.states):
            for items in list(self.states)[done:]:
                yield items
                done += 1

    def numbered(self, items):
        return self.states.setdefault(items, len(self.states))

    def closed(self, items):
        """The items and those that begin where one of them goes on."""
        items, symbols = list(items), set()
        for rule, place in items:
            right = self.rules[rule][1]
            if place < len(right) and right[place] in self.made_by and right[place] not in symbols:
                symbols.add(right[place])
                items += [(made, 0) for made in self.made_by[right[place]]]
        return items

    def derivation(self, text):
        """How many bytes some good text begins with, and the derivation (rule, parts) if the whole is one."""
        moves = self.moves
        top = {0: (0, [])}  # nodes after the bytes so far, by their states
        for place, byte in enumerate(text):
            found = [(moves[state][byte], node, byte) for state, node in top.items() if byte in moves[state]]
            if not found:
                return place, None
            top = self.completed(found)
        if self.goal not in top:
            return len(text), None
        (_, found), = top[self.goal][1]
        return len(text), found

    def completed(self, found):
        """The nodes of the found (state, node before, byte or derivation), and of all that ends with them.

        As no rule is empty, what lies before was finished with an earlier byte. So each derivation is found just once,
        with its last part; if there is one already from the same node to the same state, the two are of the same
        symbol and bytes.
        """
        moves, ends = self.moves, self.ends
        top = {}
        while found:
            state, before, value = found.pop()
            node = top.get(state)
            if node is None:
                node = top[state] = (state, [])
            elif any(other is before for other, _ in node[1]):
                raise Ambiguous
            node[1].append((before, value))
            for rule, left, length in ends[state]:
                if rule == 0:
                    continue
                ways = [(before, (value,))]
                for _ in range(length - 1):
                    ways = [(earlier, (part,) + parts) for at, parts in ways for earlier, part in at[1]]
                for base, parts in ways:
                    found.append((moves[base[0]][left], base, (rule, parts)))
        return top


def check_method():
    """The method on grammars that need all of it."""
    twos = Method([("s", ("s", "s"), None), ("s", (1,), None)], "s")
    assert twos.derivation([1, 1]) == (2, (1, ((2, (1,)), (2, (1,)))))
    try:
        twos.derivation([1, 1, 1])
        assert False, "two derivations"
    except Ambiguous:
        pass
    odd = Method([("s", (1, "s", 1), None), ("s", (1,), None)], "s")  # which is the middle shows only at the end
    for n in range(12):
        length, found = odd.derivation([1] * n)
        assert length == n and (found is not None) == (n % 2 == 1)
    assert odd.derivation([1, 1, 2, 1]) == (2, None)
    pairs = Method([("s", ("a", "b"), None), ("a", (1,), None), ("a", (1, 1), None), ("b", (1, 2), None), ("b", (2,), None)], "s")
    assert pairs.derivation([1, 2])[1] == (1, ((2, (1,)), (5, (2,))))
    try:
        pairs.derivation([1, 1, 2])
        assert False, "two derivations"
    except Ambiguous:
        pass
    try:
        Method([("s", (1,), None), ("s", (2, "t"), None), ("t", (2, "t"), None)], "s")
        assert False, "t is never made"
    except AssertionError as e:
        assert e.args == ({"t"},)


# ---- the answer

FORMULAS = Method(spelt_out(grammar()), "text")


def nodes_of(derivation):
    """The nodes that the derivation writes, operator first."""
    written, left = [], [derivation]
    while left:
        rule, parts = left.pop()
        what = FORMULAS.rules[rule][2]
        if isinstance(what, int):
            written.append(what)
        else:
            left += [parts[k] for k in reversed(what)]
    return written


def depth_of(nodes):
    deepest, left = 0, [1]  # the depths of the nodes to come
    for node in nodes:
        depth = left.pop()
        deepest = max(deepest, depth)
        left += [depth + 1] * (1 if node == 0 else 2 if node < LEAF else 0)
    assert not left
    return deepest


def answer(text):
    """(refusal, place, nodes)"""
    place, found = FORMULAS.derivation(text)
    if found is None:
        return BAD_TEXT, place, []
    nodes = nodes_of(found)
    if len(nodes) > MOST_NODES or depth_of(nodes) > MOST_DEPTH:
        return OUTSIDE, 0, []
    return GOOD, 0, nodes


# ---- lines

def escaped(text):
    return "".join(chr(b) if 32 <= b <= 126 and b not in b"\\@" else f"\\{b:02X}" for b in text)


def text_of(line):
    repeated = re.fullmatch(r"@(\d+) ([0-9A-F]{2})", line)
    if repeated:
        return bytes([int(repeated[2], 16)]) * int(repeated[1])
    assert re.fullmatch(r"(?:[ -?A-\[\]-~]|\\[0-9A-F]{2})*", line), line
    return re.sub(r"\\(..)", lambda m: chr(int(m[1], 16)), line).encode("latin-1")


def answer_line(line):
    refusal, place, nodes = answer(text_of(line))
    return " ".join(str(n) for n in [refusal, place, len(nodes)] + nodes)


# ---- the oracle

def build_oracle():
    subprocess.run(["make", "-s", "-C", ORACLE], check=True)


def lines_of(words, given=""):
    run = subprocess.run([os.path.join(ORACLE, "build", words[0])] + words[1:], input=given, capture_output=True, text=True, check=True)
    return run.stdout.split("\n")[:-1]


def oracle_lines(lines):
    answers = lines_of(["formulas"], "".join(line + "\n" for line in lines))
    assert len(answers) == len(lines)
    return answers


def seed_lines(first, last):
    lines = lines_of(["texts", str(first), str(last)])
    assert len(lines) == last - first + 1
    return lines


class Comparison:
    def __init__(self):
        build_oracle()
        self.counts, self.differ = {GOOD: 0, OUTSIDE: 0, BAD_TEXT: 0}, 0

    def compare(self, names, lines):
        for name, line, theirs in zip(names, lines, oracle_lines(lines)):
            ours = answer_line(line)
            self.counts[int(ours.split()[0])] += 1
            if ours != theirs:
                self.differ += 1
                print(f"{name}: {line}\n    here   {ours}\n    oracle {theirs}")

    def end(self):
        print(f"{sum(self.counts.values())} texts compared ({self.counts[GOOD]} good, {self.counts[OUTSIDE]} over a bound, "
              f"{self.counts[BAD_TEXT]} bad), {self.differ} differ")
        return 1 if self.differ else 0


def compare(first, last):
    c = Comparison()
    for start in range(first, last + 1, 5000):
        end = min(last, start + 4999)
        c.compare([f"seed {k}" for k in range(start, end + 1)], seed_lines(start, end))
    return c.end()


def compare_short(length):
    c = Comparison()
    for n in range(length + 1):
        texts = ("".join(letters) for letters in itertools.product(" !&|^()013IB", repeat=n))
        while lines := list(itertools.islice(texts, 50000)):
            c.compare(["short"] * len(lines), lines)
    return c.end()


# ---- cases: each group gives texts, or lines that begin with @

TWO_PART = ["&", "!&", "^", "|", "!|"]
EVERY_SIGN = ["!"] + TWO_PART
NESTED = "(" * 16
LISTS = [  # good texts, of each kind of list
    "I01 & !(B003 | I02)", " ! ! ( B199 !& I32 ) ^ 0 !| 1 ", "I01&I02!&I03^I04|I05!|I06", "!!(I10)", "(((((((((((((((( B019 ))))))))))))))))",
    "(0|1)&(B100!|I19)", "  I31  ", "!(1^!(1^!(1^B000)))",
]


def request():
    yield "I01 & !(B003 | I02)"
    yield from ["I01 ! & I02", "I01 & !& I02", "!! (I01)"]
    yield from ["I00", "I33", "I4", "B2", "I011", "01", "I01 I02", "", " ", "   "]
    yield from ["I01", "I32", "B000", "B199", "0", "1"]
    for sign in TWO_PART:
        yield f"I01 {sign} I02"
        yield f"I01 {sign} I02 {sign} I03"
    yield from ["!I01", "!!I01", "! ! I01", "!(I01)", "I01 & !I02", "I01 !& !I02", "I01 & !!I02", "I01 !| !!I02"]
    yield from [" I01", "I01 ", "( I01 )", "(I01)", "I01&I02", "I01  &  I02", "I 01", "I0 1", "B 003", "I01 ! | I02"]
    yield from ["I01 & I02 !& I03", "I01 !& I02 & I03", "I01 | I02 !| I03", "I01 !| I02 | I03"]
    yield from ["I01 & I02 ^ I03 | I04", "I01 | I02 ^ I03 & I04", "!I01 & I02", "!(I01 & I02)"]
    yield from ["i01", "b003", "I01\t& I02", "\tI01", "I01\n", "I01\r\n", "I01\x80", "\xff", "\x00", "I01 \xa0& I02", "\xa0I01"]
    yield from [NESTED + "I01" + ")" * 16, "(" + NESTED + "I01" + ")" * 17, "(I01)" + " & (I01)" * 15, NESTED, "(" + NESTED]
    yield from ["!" * 15 + "0", "!" * 16 + "0", "!" * 16 + "0)", "!" * 16, "I01 &", "I01 !", "(I01", "I01)", "I0", "B1"]


def names():
    yield from (f"I{k:02}" for k in range(41))
    yield from ["I49", "I50", "I90", "I99"]
    yield from (f"B{k:03}" for k in range(211))
    yield from ["B299", "B300", "B900", "B999"]
    yield from (f"{k}" for k in range(13))
    yield from (f"I{k}" for k in range(10))
    yield from (f"B{k}" for k in range(10))
    yield from (f"B{k:02}" for k in range(31))
    for name in ("0", "1", "I01", "I10", "I32", "B000", "B019", "B199"):
        for more in ("0", "1", "9", "I", "B", "I01", "B000", "a", "_", ".", " 0", " I01", "(", " (", "(0)"):
            yield name + more
        for k in range(1, len(name)):
            for other in (" ", "!", "&", ")", "(", "I", "B", "a", "O", "l", "/", ":", "-"):
                yield name[:k] + other + name[k:]
    for letter in "ACDEFGHJKLMNOPQRSTUVWXYZabio_$/:":
        yield letter + "01"
    yield from ["-0", "+1", "0x1", "1.", "00", "11", "I", "B", "BI01", "IB000", "II01", "BB000", "01I", "1I01", "1B000"]


def signs():
    for sign in EVERY_SIGN:
        for form in ("{}", "{}1", "1{}", "1{}1", "1 {}1", "1{} 1", " 1  {}  1 ", "({}1)", "(1{})", "(1{}1)", "{}(1)", "1{}(1)", "(1){}1", "(1){}(1)", "( 1 ) {} ( 1 )",
                     "1{}!1", "1{}! 1", "!1{}1", "1{})", "{})", "({}", "1{}(", "1(){}1", "1{}2", "1{}I", "1{}\t1", "1\t{}1"):
            yield form.format(sign)
    for first in EVERY_SIGN:
        for second in EVERY_SIGN:
            yield f"1{first}{second}1"
            yield f"1 {first} {second} 1"
            yield f"{first}{second}1"
    yield from ["1! &1", "1! |1", "1 ! & 1", "1 !  | 1", "1!", "1! ", "1!!", "1!!&1", "1!1", "1!(1)", "1!)", "(1!)", "(1)!", "(1)! ", "(1)! &1", "1!^1", "1!& &1",
                "1!&!&1", "1!&!1!|!1", "!1!&!1", "! !1 !& ! !1", "!!!!1!&!!!!1"]
    words = ["", " ", "!", "&", "^", "|", "!&", "!|", "(", ")", "0", "I01", "B199", "2", "I", "i", "\t", "\n", "\x00", "\x7f", "\x80", "\xff", "\\", "@", "~", "+", "*", "#"]
    for beginning in ("", " ", "!", "! ", "1", "1 ", "1&", "1& ", "1!", "1!&", "1!& ", "1^", "1|", "1!|", "(", "( ", "(1", "(1 ", "(1)", "(1) ", "(1!", "I", "I0", "B", "B0", "B01"):
        yield from (beginning + word for word in words)


def every_byte():
    for beginning in ("", " ", "I", "I0", "I2", "I3", "I32", "B", "B0", "B1", "B19", "B199", "0", "!", "1!", "1 ", "1&", "1!|", "(", "(1", "(1)", "(1!"):
        yield from (beginning + chr(byte) for byte in range(256))


def grouping():
    for a, b in itertools.product(TWO_PART, repeat=2):
        for form in ("I01{}I02{}I03", "(I01{}I02){}I03", "I01{}(I02{}I03)", "!I01{}I02{}I03", "I01{}!I02{}I03", "!(I01{}I02){}I03"):
            yield form.format(a, b)
    for three in itertools.product(TWO_PART, repeat=3):
        yield "0{}1{}I03{}I04".format(*three)
    for three in list(itertools.product(TWO_PART, repeat=3))[::4]:
        yield "0{}(1{}I03){}I04".format(*three)
        yield "(0{}1){}(I03{}I04)".format(*three)
    for four in list(itertools.product(TWO_PART, repeat=4))[::7]:
        yield "0{}1{}I03{}I04{}I05".format(*four)
    for sign in TWO_PART:
        yield sign.join(["I01", "I02", "I03", "I04", "I05", "I06"])


def bounds():
    # depth, by NOTs, by lists of one kind and of all, by parentheses at either side
    for n in range(14, 19):
        yield "!" * n + "I01"
        yield "! " * n + "(B199)"
        for sign in TWO_PART:
            yield "1" + (sign + "1") * n
        yield "1" + "".join(itertools.islice(itertools.cycle(("&1", "!&1")), n))
        yield "1" + "".join(itertools.islice(itertools.cycle(("|1", "!|1")), n))
    for n in range(14, 18):
        yield "1|(" * n + "0" + ")" * n
        yield "1&(" * n + "!0" + ")" * n
        yield "(" * n + "0" + "|1)" * n
        yield "!(" * n + "0" + ")" * n
    for n in (6, 7, 8):
        yield "!(1&" * n + "0" + ")" * n
        yield "!(1&" * n + "!0" + ")" * n
    yield "1&1&1&1&1&1^1^1^1^1^1|1|1|1|1|1"  # 5 of each: the first name has depth 16
    yield "1&1&1&1&1&1^1^1^1^1^1|1|1|1|1|1|1"
    yield "!1&1&1&1&1&1^1^1^1^1^1|1|1|1|1|1"
    yield "1&1&1&1&1&1^1^1^1^1^1|1|1|1|1|!1"
    # nodes
    four = "1&1&0&I01"
    for n in (7, 8, 9):
        yield "|".join([four] * n)  # 8n - 1
    eight = "|".join([four] * 8)
    yield from [eight + "^1", "!" + eight, eight.replace("I01", "!I01", 1), eight[:-5] + "!1", eight[:-5] + "!!1", eight[:-5] + "!!!1", f"({eight})", f"!({eight})", f" {eight} "]
    pairs = "^".join(["(0|1)"] * 4)
    full = "&".join([f"({pairs})"] * 4)  # 63 nodes
    yield from [full, full.replace("0", "!0", 1), full + "|1", f"!({full})", full.replace("1", "B100"), "  ".join(full)]
    yield "|".join(["!!!!!I01"] * 9)  # 62 nodes
    yield "|".join(["!!!!!I01"] * 8 + ["!!!!!!I01"])
    yield "|".join(["!!!!!I01"] * 8 + ["!!!!!!!I01"])
    # parentheses open at once, and one after the other
    for n in (15, 16, 17, 18):
        yield "(" * n + "1" + ")" * n
        yield "( " * n + "1" + " )" * n
        yield "(" * n
        yield "1^" + "(" * n + "1" + ")" * n + "^1"
        yield "(" * n + "1" + ")" * (n - 1)
        yield "(" * n + "1" + ")" * (n + 1)
        yield "!" + "(" * n + "!1" + ")" * n
    deep = NESTED + "1" + ")" * 16
    yield from ["&".join(["(1)"] * n) for n in (15, 16, 17, 20)]
    yield from ["|".join(["(1)&(1)"] * n) for n in (8, 9, 10, 16)]
    yield from [f"{deep}^{deep}", f"{deep}^{deep}^({deep})", f"({deep})", f"(1)&{deep}", f"((1)|(1))&{deep}", f"(1&{deep})", "(" * 15 + "(1)|(1)|((1))" + ")" * 15]
    # bad, and over a bound as well
    for over in ("!" * 16 + "1", "1" + "&1" * 16, eight + "^1", full + "|1", "1" + "|1" * 70):
        yield over
        yield from (over + more for more in (" ", ")", "!", "! ", "&", "& ", " 1", "!|", "0", "\n", "&I33", "&(1", "&(1)", f"&({deep})"))
        yield from (less + over for less in (")", "&", "(", "2", "\xff"))
        yield over[: len(over) // 2] + "?" + over[len(over) // 2:]


def cut():
    for text in LISTS:
        yield from (text[:k] for k in range(len(text) + 1))


def random():
    """The texts of the first seeds, as lines; the longest are left out."""
    return [line for line in seed_lines(1, 450) if len(text_of(line)) <= MOST_RANDOM][:400]


def long():
    for byte in (0x21, 0x28, 0x20, 0x30, 0x29, 0x31, 0x26, 0x7C, 0x5E, 0x49, 0x42, 0x32, 0x00, 0x0A, 0x7F, 0x80, 0xFF):
        yield f"@1000000 {byte:02X}"
    for n in (1, 2, 15, 16, 17, 999999):
        yield from (f"@{n} {byte:02X}" for byte in (0x21, 0x28, 0x20, 0x31))
    yield from ["!" * 2000 + "1", " " * 2000 + "1", "1" + " " * 2000, "1" + " " * 2000 + "1", "1" + "&1" * 1000, "1" + "!|1" * 1000 + ")", "(1)^" * 500 + "1", "(1)^" * 500]


GROUPS = [request, names, signs, every_byte, grouping, bounds, cut, random, long]
MOST_RANDOM, MOST_LINE, MOST_FILE, MOST_ALL = 600, 20000, 60000, 200000


def as_line(group, case):
    return case if group in (random, long) else escaped(case.encode("latin-1"))


def cases():
    build_oracle()
    os.makedirs(os.path.join(CRATE, "data"), exist_ok=True)
    told, total = [], 0
    for group in GROUPS:
        name = group.__name__
        lines = list(dict.fromkeys(as_line(group, case) for case in group()))
        assert max(len(line) for line in lines) <= MOST_LINE, name
        answers = [answer_line(line) for line in lines]
        for line, ours, theirs in zip(lines, answers, oracle_lines(lines)):
            assert ours == theirs, (name, line, ours, theirs)
        content = "\n".join(lines) + "\n"
        assert len(content) <= MOST_FILE, (name, len(content))
        write(os.path.join("data", name), content)
        told += [f"== {name}"] + answers
        total += len(content)
        kinds = [int(line.split()[0]) for line in answers]
        print(f"{name}: {len(lines)} texts ({kinds.count(GOOD)} good, {kinds.count(OUTSIDE)} over a bound, {kinds.count(BAD_TEXT)} bad), {len(content)} bytes")
    total += write("args", "".join(f"{group.__name__}\n" for group in GROUPS))
    total += write("stdout", "\n".join(told) + "\n")
    assert total < MOST_ALL, total
    print(f"{total} bytes in all")
    return 0


def write(name, content):
    with open(os.path.join(CRATE, name), "w", newline="\n") as h:
        return h.write(content)


def read():
    for line in sys.stdin:
        print(answer_line(line.rstrip("\n")))
    return 0


def main(args):
    check_method()
    modes = {"read": (read, 0), "compare": (compare, 2), "short": (compare_short, 1), "cases": (cases, 0)}
    if not args or args[0] not in modes or len(args) != 1 + modes[args[0]][1]:
        print(__doc__, file=sys.stderr)
        return 2
    return modes[args[0]][0](*(int(n) for n in args[1:]))


if __name__ == "__main__":
    sys.exit(main(sys.argv[1:]))
