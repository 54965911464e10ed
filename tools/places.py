#!/usr/bin/env python3
"""places: the places of points 1 to 7 of docs/DESIGN-PASS.md in src/, as text finds them.

    tools/places.py [POINT ..] [--count]

Run at the top. A place is FILE:FUNCTION-or-TYPE, and what was found there. --count prints the numbers alone.
Text finds candidates; the page says of each whether it was changed or kept. Nothing is changed here.
"""
import re, sys, glob
from collections import defaultdict

args = [a for a in sys.argv[1:] if not a.startswith("-")] or list("1234567")
found = defaultdict(list)  # point and what: places


def tell(what, place, more=""):
    found[what].append((place, more))


class Fn:
    pass


def functions(path, text):
    """Every function with a body: head, clauses, body."""
    for m in re.finditer(r"^( *)(?:pub )?(?:extern \"C\" )?fn (\w+)", text, re.M):
        indent = m.group(1)
        end = text.find("\n" + indent + "}", m.start())
        whole = text[m.start() : end + len(indent) + 2] if end > 0 else text[m.start() :]
        one = re.match(r".*\n" + indent + r"\{\}", whole) or re.search(r"\n" + indent + r"\{\}", whole)
        if one and (end < 0 or one.end() < whole.find("\n" + indent + "{\n") or "\n" + indent + "{\n" not in whole):
            whole = whole[: one.end()]
        f = Fn()
        f.path, f.name, f.pub = path, m.group(2), "pub" in m.group(0)
        cut = re.search(r"(?m)^" + indent + r"\{", whole)
        inline = re.search(r"\{\n", whole)
        at = cut.start() if cut else (inline.start() if inline else len(whole))
        f.head, f.body = whole[:at], whole[at:]
        clause = re.search(r"(?m)^\s*(requires|ensures)", f.head)
        f.sign = f.head[: clause.start()] if clause else f.head
        f.clauses = f.head[clause.start() :] if clause else ""
        f.place = f"{path.split('crates/')[1].replace('/src', '')}:{f.name}"
        yield f


files = {p: open(p).read() for p in sorted(glob.glob("crates/*/src/**/*.rt", recursive=True))}
fns = [f for p, t in files.items() for f in functions(p, re.sub(r"//.*", "", t))]

# 1: own enums; structs with a flag or a number of refusal beside values; numbers for kinds, types, words, refusals
for p, t in files.items():
    t = re.sub(r"//.*", "", t)
    where = p.split("crates/")[1].replace("/src", "")
    for m in re.finditer(r"^(?:pub )?enum (\w+)(?:<[^>]*>)? \{(.*?)^\}", t, re.M | re.S):
        bare = re.sub(r"\{[^}]*\}|\([^)]*\)", "", m.group(2))
        tell("1 enum", f"{where}:{m.group(1)}", " ".join(re.findall(r"\w+", bare)))
    for m in re.finditer(r"^(?:pub )?struct (\w+)(?:<[^>]*>)? \{(.*?)^\}", t, re.M | re.S):
        flags = re.findall(r"(good|found|refusal|standing|turning|phase|end|small): ", m.group(2))
        if flags:
            tell("1 flag beside values", f"{where}:{m.group(1)}", " ".join(flags))
    n = re.findall(r"^(?:pub )?const (\w+): u8 = \d+;", t, re.M)
    if n:
        tell("1 numbers that name things", where, f"{len(n)} constants")
for f in fns:
    n = re.findall(r"\b(?:(kind|ty|level|its|word|name|no): u8|(relation|mode|unit|priority|op): u32)", f.sign)
    n = [a or b for a, b in n]
    if n and f.body.strip():
        tell("1 numbers as arguments", f.place, " ".join(n))

# 2: functions whose text is the same but for names of types, sizes and constants
def shape(f):
    b = re.sub(r"\b[a-z]\w*::", "", f.body)
    b = re.sub(r"\b\d\w*|b'[^']*'|b?\"[^\"]*\"", "0", b)
    return re.sub(r"\s+", " ", re.sub(r"\b\w+\b", lambda m: m.group(0) if m.group(0) in KEEP else "x", b))


KEEP = set("let mut if else while for in loop match return as break continue true false".split())
groups = defaultdict(list)
for f in fns:
    if f.body.count("\n") >= 3:
        groups[(shape(f), f.sign.count(","))].append(f.place)
for g in groups.values():
    if len(g) > 1:
        tell("2 same but for names and numbers", g[0], " ".join(g[1:]))

# 3: loops
for f in fns:
    for m in re.finditer(r"^( *)while ([^\n]*) \{\n(.*?)^\1\}", f.body, re.M | re.S):
        names = re.findall(r"\b([a-z]\w*)\b", m.group(2))
        hand = [v for v in names if re.search(rf"^\s*{v} [+-]= \w+;", m.group(3), re.M)]
        tell("3 counted by hand" if hand else "3 other while", f.place, m.group(2))
    for m in re.finditer(r"^ *loop \{", f.body, re.M):
        tell("3 loop", f.place)

# 4: by hand: comparisons of fields, copies of a value to change it, casts that From says, records copied field by field
for f in fns:
    if re.match(r"(same|equal)", f.name) or len(re.findall(r"if \w+\.\w+ != \w+\.\w+", f.body)) > 1:
        tell("4 comparison", f.place)
    if re.search(r"let mut (\w+) = (self|p|s|desk|r);", f.body):
        tell("4 copy to change", f.place)
    if len(re.findall(r"^\s*\w+: (\w+)\.\w+(?: as \w+)?,", f.body, re.M)) >= 3:
        tell("4 conversion field by field", f.place)
    n = len(re.findall(r" as (?:u16|u32|u64|i32|i64)\b", f.body))
    if n:
        tell("4 cast by as", f.place, str(n))
    if re.search(r"% 10|/ 10|b'0' \+|\* 10\b", f.body):
        tell("4 decimals", f.place)
    if len(re.findall(r"return (true|false);", f.body)) or re.search(r"\{ false \}|else \{ \w+ \} *$", f.body):
        tell("4 tests spelled out", f.place)

# 5: parameters that travel together, facts that three contracts or more share
for group in (
    "counts times numbers",
    "ticks words pins outputs",
    "ticks words pins",
    "s marks",
    "depth left",
    "bits words",
    "out to",
    "out at",
    "program text",
    "elapsed bits analogs",
):
    ws = group.split()
    hit = [f.place for f in fns if all(re.search(rf"\b{w}: ", f.sign) for w in ws)]
    if len(hit) >= 3:
        tell("5 travel together", group, f"{len(hit)}: " + " ".join(hit))
facts = defaultdict(set)
for f in fns:
    for m in re.finditer(r"requires(?: \w+)? \{(.*?)\}\n", f.clauses + "\n", re.S):
        for fact in re.split(r" × ", m.group(1)):
            facts[re.sub(r"\s+", " ", re.sub(r"^[( ]+|[) ]+$", "", fact))].add(f.place)
for fact, hit in sorted(facts.items(), key=lambda x: -len(x[1])):
    if len(hit) >= 3:
        tell("5 fact in contracts", fact, f"{len(hit)}: " + " ".join(sorted(hit)))

# 6: buffers with a length beside, parallel arrays
for p, t in files.items():
    t = re.sub(r"//.*", "", t)
    where = p.split("crates/")[1].replace("/src", "")
    for m in re.finditer(r"^(?:pub )?struct (\w+)(?:<[^>]*>)? \{(.*?)^\}", t, re.M | re.S):
        if re.search(r": \[", m.group(2)) and re.search(r"(held|count|length|size|kept|used): ", m.group(2)):
            tell("6 buffer with a length", f"{where}:{m.group(1)}")
for f in fns:
    if len(re.findall(r": &(?:mut )?\[[^;\]]+; \w+\]", f.sign)) > 1:
        tell("6 arrays in parallel", f.place)
    m = re.findall(r"let mut \w+ = \[[^;\]]+; [^\]]+\];", f.body)
    if m:
        tell("6 fixed buffer", f.place, str(len(m)))

# 7: which step to run
for f in fns:
    arms = re.findall(r"=> (?:\w+::)?\w+\(", f.body)
    m = re.search(r"match (kind|level|ty|name|op|word)\b", f.body)
    if m and len(arms) > 2:
        tell("7 step by number", f.place, f"{len(arms)} arms")

for what in sorted(found):
    if what[0] in args:
        n = sum(int(m) if what == "4 cast by as" else 1 for _, m in found[what])
        print(f"{what}: {n}" + (f" in {len(found[what])} functions" if what == "4 cast by as" else ""))
        if "--count" not in sys.argv:
            for place, more in found[what]:
                print(f"    {place}" + (f"  ({more})" if more else ""))
