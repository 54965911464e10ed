#!/usr/bin/env python3
"""Spells the repository's own definitions and lemmas as today's Rattle spells names: words in snake case, types in camel case.

usage: python3 tools/respell.py            once, at the top, right after /opt/rattle/port/port.py
       python3 tools/respell.py --table    only prints the rows: old, a tab, new

It reads every .antt file of crates/ and gathers what is declared there. A name with a dash or a capital within is turned, in
all .antt files and in the clauses and `ghost use` lines of all .rt files. Where a definition and a lemma fall together, the
lemma gets `_lem`. Functions of src/, fields and labels of src/, exported names and strings are not touched.
The rows are written to tools/respelled.tsv, by which edits and pages are brought over. Where that file is there already, its rows are
taken, so that another checkout of the same crates gets the same names.
"""
import collections
import os
import re
import sys

W = r"[^\s(){}.;,@\"«»\[\]\\]+"
TOP = os.getcwd()


def files():
    for folder, dirs, names in os.walk(os.path.join(TOP, "crates")):
        dirs[:] = sorted(d for d in dirs if d != "out")
        for n in sorted(names):
            if n.endswith((".antt", ".rt")):
                yield os.path.join(folder, n)


def read(p):
    with open(p, encoding="utf-8") as f:
        return f.read()


def code_of(p, t):
    return re.sub(r"(?m)--.*$" if p.endswith(".antt") else r"(?m)//.*$", "", t)


def snake(n):
    return re.sub(r"(?<=[a-z0-9])[A-Z]", lambda m: "_" + m[0].lower(), n).replace("-", "_")


def camel(n):
    return "".join(w[:1].upper() + w[1:] for w in n.split("-"))


# Lemmas that port.py gave the snake form of a definition of the same crate or of one below: they get `_lem`, by the paths that name them.
LEMMAS = {
    "is_digit": ("grammar/proofs/", "layout/proofs/", "spelling/proofs/", "values/proofs/"),
    "digits_of": ("layout/proofs/",),
    "in_field": ("round_trip/proofs/",),
    "turn_on": ("cut_line/proofs/",),
    "too_many": ("order/proofs/",),
    "word_fits": ("program/proofs/",),
}
# Definitions whose snake form is another name's already.
OTHER = {"leftOut": "left_out_as"}
FREE = set(LEMMAS) | {"ended_at", "front_of", "goes_on", "to_end"}

DECL = re.compile(
    r"(?m)^ *(?:(?:abbrev|pub|unfoldable|data|record) +)*(" + W + r")(?: \{[^{}\n]*\}| \([^()\n]*\))* :(?=\s)( *tie\.)?"
)


def rows():
    declared, tokens = set(), {}
    words = collections.Counter()
    for p in files():
        c = code_of(p, read(p))
        tokens[p] = set(re.findall(W, c))
        words.update(tokens[p])
        if p.endswith(".antt"):
            for m in DECL.finditer(c):
                if not m[2] and m[1] not in ("pub", "abbrev") and "◌" not in m[1] and not m[1].startswith("_"):
                    declared.add(m[1])
            declared |= set(re.findall(r"\bas ([a-z]\w*[A-Z]\w*)", c))
            # several names at one type, as the constructors of an enumeration
            for m in re.finditer(r"(?m)^ +((?:[\w'-]+ )+[\w'-]+) :(?=\s)", c):
                declared |= {n for n in m[1].split() if n not in ("pub", "abbrev", "unfoldable", "data", "record")}
    table = {}
    taken = {n for n in declared if snake(n) == n} - FREE
    for n in sorted(declared, key=lambda n: ("-" in n, n)):
        s = OTHER.get(n) or (camel(n) if n[:1].isupper() else snake(n))
        if s == n:
            continue
        if s in taken:
            s += "_lem"
        while s in taken:
            s += "s"
        taken.add(s)
        table[n] = s
    return table, tokens


def turned(text, table, comment):
    def word(m):
        return table.get(m[0], m[0])

    def line(t):
        at = t.find(comment)
        head, tail = (t, "") if at < 0 else (t[:at], t[at:])
        head = re.sub(W, word, head)
        tail = re.sub(r"`[^`]*`", lambda m: re.sub(W[:-2] + r"`]+", word, m[0]), tail)
        tail = re.sub(r"(?<![\w-])[a-z]+[a-z0-9]*[A-Z]\w*(?![\w-])", word, tail)
        return head + tail

    return "\n".join(line(t) for t in text.split("\n"))


def main():
    table, tokens = rows()
    kept = os.path.join(TOP, "tools/respelled.tsv")
    if os.path.exists(kept):
        table = dict(l.rstrip("\n").split("\t") for l in open(kept, encoding="utf-8"))
    if "--table" in sys.argv:
        for o, n in sorted(table.items()):
            print(f"{o}\t{n}")
        return
    clash = []
    for p, ts in tokens.items():
        for o in ts & table.keys():
            if table[o] in ts:
                clash.append((p, o, table[o]))
    for p in files():
        t = new = read(p)
        if p.endswith(".antt"):
            for old, where in LEMMAS.items():
                if any("/crates/" + w in p for w in where):
                    new = re.sub(r"(?<![\w.-])%s(?![\w-])" % old, old + "_lem", new)
        new = turned(new, table, "--" if p.endswith(".antt") else "//")
        if new != t:
            with open(p, "w", encoding="utf-8") as f:
                f.write(new)
    with open(os.path.join(TOP, "tools/respelled.tsv"), "w", encoding="utf-8") as f:
        for o, n in sorted(table.items()):
            f.write(f"{o}\t{n}\n")
    for c in clash:
        print("look: %s: %s and %s" % (os.path.relpath(c[0], TOP), c[1], c[2]))


if __name__ == "__main__":
    main()
