#!/usr/bin/env python3
"""Runs every example of docs/PROGRAMS.md by the sample console, formulas by the sample that reads them, and compares what is printed:
tests/programs.py [standin]. With `standin` the stand-in of tests/differential takes the library's place. With --write the text takes what was printed.
Run from the project's root; exit 0 if nothing differs."""
import pathlib
import re
import subprocess
import sys
import tempfile

TEXT = pathlib.Path('docs/PROGRAMS.md')
EXAMPLE = re.compile(r'((?:```program\n(.*?)```\n```scans\n(.*?)```\n)|(?:```formulas\n(.*?)```\n))(?:```prints\n(.*?)```\n)?', re.S)


def run(command, words, said):
    return subprocess.run([command[0], *words, *command[1:]], input=said, capture_output=True, text=True).stdout


def printed_by_console(program, scans, words):
    data = bytes(int(b, 16) for line in program.splitlines() for b in line.split('#')[0].split())
    with tempfile.NamedTemporaryFile(suffix='.program') as file:
        file.write(data)
        file.flush()
        return run(['bin/console', file.name], words, scans)


def main(args):
    words = [a for a in args if a == 'standin']
    text, differ, count = TEXT.read_text(), 0, 0
    for m in list(EXAMPLE.finditer(text)):
        given, program, scans, formulas, expected = m.groups()
        now = run(['bin/formula'], words, formulas) if formulas else printed_by_console(program, scans, words)
        count += 1
        if now != expected:
            differ += 1
            if '--write' in args:
                text = text.replace(m[0], f'{given}```prints\n{now}```\n')
            else:
                print(f'{given}prints\n{now}and not\n{expected}')
    if '--write' in args:
        TEXT.write_text(text)
    print(f'{count} examples, {differ} differ')
    return 1 if differ else 0


if __name__ == '__main__':
    sys.exit(main(sys.argv[1:]))
