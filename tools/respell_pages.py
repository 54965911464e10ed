#!/usr/bin/env python3
"""Spells the names that the pages quote as tools/respelled.tsv has them: in code spans of the .md files, whole words alone.

usage: python3 tools/respell_pages.py [--left]     --left lists the quoted names that are still spelled as before
"""
import glob
import re
import sys

ROWS = dict(l.rstrip("\n").split("\t") for l in open("tools/respelled.tsv", encoding="utf-8"))
PAGES = ["README.md"] + [p for p in sorted(glob.glob("**/*.md", recursive=True)) if not p.startswith(("docs/PORT", "docs/landings", "README"))]
# what port.py itself turned
SNAKE = lambda w: re.sub(r"(?<=[a-z0-9])[A-Z]", lambda m: "_" + m[0].lower(), w)
WORD = re.compile(r"(?<![\w/-])[A-Za-z][\w'-]*(?![\w-]|\.(?:sh|py|md|c|h)\b)")


def main():
    for p in PAGES:
        t = open(p, encoding="utf-8").read()
        if "--left" in sys.argv:
            for m in re.finditer(r"`([^`\n]+)`", t):
                for w in WORD.findall(m[1]):
                    if re.search(r"[a-z][A-Z]|[a-z]-[a-z]", w) and not w[0].isupper():
                        print(p, w)
            continue
        new = re.sub(r"`([^`\n]+)`", lambda m: "`" + WORD.sub(lambda w: ROWS.get(w[0], SNAKE(w[0])) if re.match(r"[a-z]+[a-z0-9]*[A-Z]", w[0]) else w[0], m[1]) + "`", t)
        if new != t:
            open(p, "w", encoding="utf-8").write(new)


main()
