#!/usr/bin/env python3
"""Brings the must-fail edits over: from the text that they were written for, at the commit OLD, to the text of today.

usage: python3 tools/turn_edits.py            at the top: writes crates/*/must-fail/*.edit
       python3 tools/turn_edits.py --dry      writes nothing, and prints each edit whose lines change, old beside new
       .. NAME ..                             of these crates alone

It begins each time with the edits as they were at OLD, so it may be run again when a source has changed. The tokens of a file at OLD are set
beside those of the same file today; where an edit changes a token there, the token that stands for it today is changed, and what the edit brings
in is spelled as today. What it can't do so is in edits_by_hand.txt. It prints `left:` for an edit that does not fit.
"""
import collections
import os
import re
import subprocess
import sys
import tempfile

OLD = "65dd756"
RENAMED = {"logbook": "log_book"}
HERE = os.path.dirname(os.path.realpath(__file__))
TOP = os.path.dirname(HERE)

TOKEN = re.compile(r""""(?:[^"\\\n]|\\.)*"|b'(?:[^'\\]|\\.)+'|//[^\n]*|--[^\n]*|[\w◌′'ℤℕ·-]+|[^\s\w]""")


def git(*words):
    return subprocess.run(["git", "-C", TOP, *words], capture_output=True, text=True, check=True).stdout


def tokens(text):
    return [(m[0], m.start(), m.end()) for m in TOKEN.finditer(text)]


def table():
    rows = {}
    with open(os.path.join(HERE, "respelled.tsv"), encoding="utf-8") as f:
        for line in f:
            o, n = line.rstrip("\n").split("\t")
            rows[o] = n
    return rows


ROWS = table()


def guess(word):
    return ROWS.get(word, word)


def aligned(a, b):
    """The pairs (i, j) of tokens that stand for each other, and where each boundary of a falls in b."""
    with tempfile.TemporaryDirectory() as d:
        for name, ts, turn in ("a", a, guess), ("b", b, lambda w: w):
            with open(f"{d}/{name}", "w", encoding="utf-8") as f:
                f.writelines(turn(t[0]) + "\n" for t in ts)
        out = subprocess.run(["git", "diff", "--no-index", "--no-color", "--minimal", "-U0", f"{d}/a", f"{d}/b"], capture_output=True, text=True).stdout
    pairs, i, j = [], 0, 0

    def same(to):
        nonlocal i, j
        while i < to:
            pairs.append((i, j))
            i, j = i + 1, j + 1

    for m in re.finditer(r"(?m)^@@ -(\d+)(?:,(\d+))? \+(\d+)(?:,(\d+))? @@", out):
        n = int(m[2]) if m[2] is not None else 1
        k = int(m[4]) if m[4] is not None else 1
        start = int(m[1]) - (1 if n else 0)
        same(start)
        if n == k:
            pairs.extend((i + x, j + x) for x in range(n))
        i, j = i + n, j + k
    same(len(a))
    to = dict(pairs)
    return to


class Pairing:
    """A file as it was and as it is, token beside token."""

    def __init__(self, was, now):
        self.was, self.now = was, now
        self.a, self.b = tokens(was), tokens(now)
        self.to = aligned(self.a, self.b)

    def range_of(self, lo, hi):
        """The tokens of today for those from lo to hi; what stands between two that are known is taken with the former."""
        n = len(self.b)
        if lo == hi:
            after = self.to.get(lo, n if lo == len(self.a) else None)
            before = self.to.get(lo - 1, -1 if lo == 0 else None)
            if after is not None and before is not None and after != before + 1:
                return (after, after)
            if after is not None:
                return (after, after)
            if before is not None:
                return (before + 1, before + 1)
            return None
        known = [self.to[i] for i in range(lo, hi) if i in self.to]
        if not known:
            # a token that has gone (a bracket): where it stood
            before = self.to.get(lo - 1)
            return None if before is None else (before + 1, before + 1)
        return (min(known), max(known) + 1)


def learnt(pairings):
    """For each token what it is turned to most."""
    count = collections.defaultdict(collections.Counter)
    for p in pairings:
        for i, j in p.to.items():
            count[p.a[i][0]][p.b[j][0]] += 1
    return count


def tight(text):
    """`(p .out)` and `p .out` are written `p.out`."""
    was = None
    while was != text:
        was = text
        text = re.sub(r"(?<![\w)])\(((?:[\w'◌]+)(?: ?\.[\w']+)+)\)", lambda m: m[1].replace(" .", "."), text)
    text = re.sub(r"(?<=[\w]) (\.[a-z])", r"\1", text)
    return re.sub(r"⌜ | ⌝", "", text)


def read_edit(text):
    head, pairs, path, old = [], [], None, None
    for line in text.split("\n"):
        if line.startswith("file: "):
            path = line[6:].strip()
        elif line.startswith("old: "):
            old = line[5:]
        elif line.startswith("new:"):
            pairs.append((path, old, re.sub(r"\A ", "", line[4:])))
        elif line:
            head.append(line)
    return head, pairs


def hunks(old, new):
    """The tokens of old that new changes: (from, to, the text that comes in)."""
    import difflib
    a, b = tokens(old), tokens(new)
    s = difflib.SequenceMatcher(None, [t[0] for t in a], [t[0] for t in b], autojunk=False)
    for kind, i1, i2, j1, j2 in s.get_opcodes():
        if kind != "equal":
            yield i1, i2, new[b[j1][1]:b[j2 - 1][2]] if j2 > j1 else ""


class Left(Exception):
    pass


def turned_text(text, maps):
    def word(m):
        w = m[0]
        for c in maps:
            if w in c:
                return c[w].most_common(1)[0][0]
        return guess(w)

    return tight(TOKEN.sub(word, text))


def spliced(now, b, lo, hi, text):
    """now with its tokens from lo to hi turned to text."""
    if lo < hi:
        start, end = b[lo][1], b[hi - 1][2]
        if not text:
            # what goes takes the blank before it along
            while start and now[start - 1] == " " and (hi == len(b) or not (now[end:end + 1] in ("", "\n"))) and now[start - 1] == " ":
                start -= 1
                break
            if now[start] == " " and now[end:end + 1] in (")", ";", ",", "]"):
                pass
            elif now[start] == " " and now[end:end + 1] != " " and now[end:end + 1] != "\n":
                start += 1
        return start, end, text
    # only something that comes in: before the token lo
    at = b[lo][1] if lo < len(b) else len(now)
    if lo and (text[:1] in ".,;)]" or now[b[lo - 1][2]:at].startswith("\n") or "\n" in now[b[lo - 1][2]:at]):
        at = b[lo - 1][2]
        return at, at, (text if text[:1] in ".,;)]" else " " + text)
    if now[at - 1:at] in ("(", "[", "{") or at == 0:
        glue = "" if now[at:at + 1] in (")", ".", ",") else " "
    else:
        glue = " "
    return at, at, text + glue


def line_of(text, start, end):
    lo = text.rfind("\n", 0, start) + 1
    hi = text.find("\n", end)
    return lo, len(text) if hi < 0 else hi


def one_pair(was, now, old, new, maps):
    """was and now after the edit's pair, with the pair of today."""
    if was.count(old) != 1:
        raise Left(f"its old text stands {was.count(old)} times in the old file")
    at = was.index(old)
    after = was[:at] + new + was[at + len(old):]
    p = Pairing(was, now)
    # the tokens of the old text; it may begin or end within one
    first = next(i for i, t in enumerate(p.a) if t[2] > at)
    last = max(i for i, t in enumerate(p.a) if t[1] < at + len(old))
    whole = p.range_of(first, last + 1)
    if not whole:
        raise Left("its place is not known today")
    start, end = p.b[whole[0]][1], p.b[whole[1] - 1][2]

    def there(text):
        """Whether the text stands once today, at that place."""
        it = now.find(text)
        return now.count(text) == 1 and it < end and it + len(text) > start

    # 1. the same text, where each of its tokens is what it was
    if there(old) and turned_text(new, maps) == new and turned_text(old, maps) == old:
        return after, now.replace(old, new), old, new
    # 2. the edit's texts as they are spelled today
    o, n = turned_text(old, maps), turned_text(new, maps)
    if there(o):
        return after, now.replace(o, n), o, n
    # 3. token by token
    lead = was[p.a[first][1]:at] if p.a[first][1] < at else ""
    tail = was[at + len(old):p.a[last][2]] if p.a[last][2] > at + len(old) else ""
    o, n = lead + old.strip() + tail, lead + new.strip() + tail
    if [t[0] for t in tokens(o)] != [p.a[i][0] for i in range(first, last + 1)]:
        raise Left("its old text is cut in the midst of a token")
    changes = []
    for i1, i2, text in hunks(o, n):
        r = p.range_of(first + i1, first + i2)
        if r is None:
            raise Left("a changed token's place is not known today")
        changes.append(spliced(now, p.b, *r, turned_text(text, maps)))
    if not changes:
        raise Left("nothing changes")
    changes.sort()
    if "\n" in now[changes[0][0]:changes[-1][1]]:
        raise Left("what it changes is over several lines today")
    # the old text of today, where it is one line and stands once; else the line
    start, end = min(start, changes[0][0]), max(end, changes[-1][1])
    if "\n" in now[start:end]:
        lo, hi = line_of(now, changes[0][0], changes[-1][1])
        start, end = max(start, lo), min(end, hi)
    lo, hi = line_of(now, start, end)
    # (an old text that began with its line's blanks does so today)
    if old.startswith(" ") and now[lo:start].strip() == "":
        start = lo
    if now.count(now[start:end]) != 1 or not now[start:end].strip():
        start, end = lo, hi
    got = now[start:end]
    if now.count(got) != 1:
        raise Left(f"its text stands {now.count(got)} times today: {got.strip()}")
    made, last_end = "", start
    for s, e, text in changes:
        made += now[last_end:s] + text
        last_end = e
    made += now[last_end:end]
    print(f"look: token by token: {got.strip()} -> {made.strip()}")
    return after, now[:start] + made + now[end:], got, made


# Where a name that an edit imports comes from today; what is not here comes from the Prelude.
FROM = {"lt_z": "Rattle.std.specs.Int.Signed", "le_z": "Rattle.std.specs.Int.Signed"}


def imported(now, old, new, maps):
    """The pairs that bring in what the edit's pair of an import brought in."""
    def names(line):
        return re.findall(r"[^\s,{}]+", line[line.index("{"):])

    brought = {}
    for w in names(new):
        if w in names(old):
            continue
        w = turned_text(re.sub(r"(?<![\w])_(\S+?)_(?![\w])", r"◌\1◌", w), maps)
        if any(w in names(line) for line in re.findall(r"(?m)^use .*\{.*\}$", now)):
            continue
        own = re.match(r"use (Rattle·.*)\.\{", new)
        module = own[1].replace("·", ".").replace(".specs.specs.", ".specs.") if own else FROM.get(w, "Rattle.std.specs.Prelude")
        brought.setdefault(module, []).append(w)
    for module, ws in brought.items():
        m = re.search(r"(?m)^use %s\.\{[^,{}\s]+(?=.*\}$)" % re.escape(module), now)
        line = m and m[0]
        if not line or now.count(line) != 1:
            raise Left(f"an import: {ws} of {module}")
        made = line[:line.index("{") + 1] + "".join(f"{w}, " for w in ws) + line[line.index("{") + 1:]
        now = now.replace(line, made)
        yield line, made, now


def reads(path):
    with open(path, encoding="utf-8") as f:
        return f.read()


def by_hand():
    """Pairs for edits by name, from edits_by_hand.txt: a line `== CRATE/NAME.edit`, then the edit's lines."""
    found, name = {}, None
    for line in reads(os.path.join(HERE, "edits_by_hand.txt")).split("\n"):
        if line.startswith("== "):
            name = line[3:].strip()
            found[name] = ""
        elif name:
            found[name] += line + "\n"
    return {n: read_edit(t)[1] for n, t in found.items()}


def main(words):
    dry = "--dry" in words
    names = [w for w in words if not w.startswith("--")]
    listed = [p for p in git("ls-tree", "-r", "--name-only", OLD, "crates").split("\n")]
    edits = [p for p in listed if "/must-fail/" in p and p.endswith(".edit")]
    old_text = {}

    def was_of(path):
        if path not in old_text:
            old_text[path] = git("show", f"{OLD}:{path}")
        return old_text[path]

    def today(crate):
        new = RENAMED.get(crate)
        return new if new and os.path.isdir(f"{TOP}/crates/{new}/src") else crate

    # what each token has become, by file, by crate and over all
    files = sorted(p for p in listed if re.match(r"crates/\w+/(src|specs)/.*\.(rt|antt)$", p) and "/declared/" not in p)
    by_file, over_all = {}, collections.defaultdict(collections.Counter)
    wanted = {e.split("/")[1] for e in edits}
    for p in files:
        crate = p.split("/")[1]
        at = f"{TOP}/crates/{today(crate)}/{p.split('/', 2)[2]}"
        if crate not in wanted or not os.path.exists(at):
            continue
        pairing = Pairing(was_of(p), reads(at))
        by_file[p] = learnt([pairing])
        for o, c in by_file[p].items():
            over_all[o].update(c)
    hands = by_hand()
    known = set()
    for p in files:
        at = f"{TOP}/crates/{today(p.split('/')[1])}/{p.split('/', 2)[2]}"
        if os.path.exists(at):
            known |= {t[0] for t in tokens(reads(at))}

    left = same = changed = hand = 0
    for e in edits:
        crate, name = e.split("/")[1], e.split("/")[3]
        if names and crate not in names and today(crate) not in names:
            continue
        head, pairs = read_edit(was_of(e))
        room = f"{TOP}/crates/{today(crate)}"
        to = f"{room}/must-fail/{name}"
        out, nows, wass, why = [], {}, {}, None
        try:
            if f"{crate}/{name}" in hands:
                hand += 1
                for path, old, new in hands[f"{crate}/{name}"]:
                    nows.setdefault(path, reads(f"{room}/{path}"))
                    if nows[path].count(old) != 1:
                        raise Left(f"by hand: its old text stands {nows[path].count(old)} times: {old}")
                    nows[path] = nows[path].replace(old, new)
                    out.append((path, old, new))
            else:
                for path, old, new in pairs:
                    wass.setdefault(path, was_of(f"crates/{crate}/{path}"))
                    nows.setdefault(path, reads(f"{room}/{path}"))
                    maps = [m for m in (by_file.get(f"crates/{crate}/{path}"), over_all) if m]
                    if old.startswith("use ") and new.startswith("use "):
                        for o, n, nows[path] in imported(nows[path], old, new, maps):
                            if out and out[-1][2].startswith(o):
                                # (one pair for two of the edit's)
                                n += out[-1][2][len(o):]
                                o = out.pop()[1]
                            out.append((path, o, n))
                        wass[path] = wass[path].replace(old, new)
                        continue
                    wass[path], nows[path], o, n = one_pair(wass[path], nows[path], old, new, maps)
                    out.append((path, o, n))
                for path, o, n in out:
                    odd = [t[0] for t in tokens(n) if t[0] not in known and re.match(r"[A-Za-z_]", t[0])]
                    if odd:
                        print(f"look: {crate}/{name}: brings in what stands nowhere today: {' '.join(odd)}")
        except Left as l:
            why = l
        except FileNotFoundError as l:
            why = l
        if why:
            left += 1
            print(f"left: {crate}/{name}: {why}")
            continue
        is_same = out == pairs
        same += is_same
        changed += not is_same
        if not is_same and dry or "--all" in words:
            print(f"== {crate}/{name}   {' '.join(head)[:160]}")
            for (p, o, n), (p2, o2, n2) in zip(pairs + [("", "", "")] * (len(out) - len(pairs)), out + [("", "", "")] * (len(pairs) - len(out))):
                print(f"   - {o}\n     {n}\n   + {o2}\n     {n2}")
        if not dry:
            text, last = "".join(h + "\n" for h in head), None
            for path, o, n in out:
                if path != last:
                    text += f"file: {path}\n"
                last = path
                text += f"old: {o}\nnew: {n}\n" if n else f"old: {o}\nnew:\n"
            if is_same:
                text = was_of(e)
            os.makedirs(os.path.dirname(to), exist_ok=True)
            with open(to, "w", encoding="utf-8") as f:
                f.write(text)
    print(f"{same} edits as they were, {changed} turned, {hand} of them by hand, {left} left")


if __name__ == "__main__":
    main(sys.argv[1:])
