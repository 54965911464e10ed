#!/usr/bin/env python3
"""Whether docs/CONTRACTS.md names every public function, with two edits at least, every `requires` and every edit, and nothing that is not there;
and whether Determinacy has a row for every public function that answers. Run from the project's root; exit 0 if all is well."""
import pathlib
import re
import sys

CRATES = pathlib.Path('crates')
# what answers nothing, or only reads and writes by the system
NO_ANSWER = {'wire::number_facts', 'image::log_sized', 'image::columns_sized', 'grammar::one_reading', 'writing::read_back', 'typed::as_typed', 'order::in_order', 'cut_line::cut_or_bad', 'timing::on_time', 'windows::any_windows', 'feeding::listed', 'reading::read_behind', 'reading::read_full', 'stream::run', 'determinacy::one_answer'}


def libraries():
    """The crates of crates.txt that have public functions, in their order."""
    for line in pathlib.Path('crates.txt').read_text().splitlines():
        m = re.match(r'([a-z_0-9]+):', line)
        if m and (CRATES / m[1] / 'src/lib.rt').exists():
            yield m[1]


def public_functions(crate):
    """Names of the public functions of a crate, each with whether it has a `requires`: those of its root, and of what that hands on."""
    of = ''
    found = []
    root = (CRATES / crate / 'src/lib.rt').read_text()
    handed_on = [CRATES / crate / f'src/{name}.rt' for name in re.findall(r'^pub use (\w+)::', root, re.M)]
    for line in '\n'.join([root] + [path.read_text() for path in handed_on if path.exists()]).splitlines():
        if m := re.match(r'impl (\w+)', line):
            of = m[1] + '::'
        if line == '}':
            of = ''
        if m := re.match(r'\s*(pub (?:extern "C" )?)?fn (\w+)', line):
            name = m[2] if m[2].startswith('lanwezik_') else f'{crate}::{of}{m[2]}'
            found.append([bool(m[1]), name, False])
        if re.match(r'\s*requires\b', line) and found:
            found[-1][2] = True
    return [(name, asks) for public, name, asks in found if public]


def edits(crate):
    return {p.stem for p in (CRATES / crate / 'must-fail').glob('*.edit')}


def crate_of(function):
    return 'lanwezik' if function.startswith('lanwezik_') else function.split('::')[0]


def main():
    wrong = []
    text = pathlib.Path('docs/CONTRACTS.md').read_text()
    asked_for = text[text.index('## What a `requires` asks'):text.index('## Not covered')]
    determinacy = (CRATES / 'determinacy/specs/Determinacy.antt').read_text()
    known = {crate: edits(crate) for crate in libraries()}
    rows, named = {}, set()
    for line in text.replace(asked_for, '').splitlines():
        cells = line.split(' | ')
        for crate, edit in re.findall(r'`([a-z_0-9]+)/([a-z_0-9]+)`', line):
            if edit not in known.get(crate, ()):
                wrong.append(f'there is no edit {crate}/{edit}')
            named.add((crate, edit))
        functions = re.findall(r'`((?:[a-z_0-9]+::[\w:]+|lanwezik_\w+))(?:\([^`]*\))?`', cells[0]) if line.startswith('| `') else []
        if not functions or len(cells) < 3:
            continue
        own = {(crate_of(functions[0]), word) for word in re.findall(r'`([a-z_0-9]+)`', cells[2])}
        for crate, edit in own:
            if edit not in known[crate]:
                wrong.append(f'{functions[0]}: there is no edit {edit}')
        other = set(re.findall(r'`([a-z_0-9]+)/([a-z_0-9]+)`', cells[2]))
        named |= own
        for function in functions:
            rows[function] = own | other
    every = [f for crate in known for f in public_functions(crate)]
    for function, asks in every:
        if function not in rows:
            wrong.append(f'{function} is not named')
        elif len(rows[function]) < 2:
            wrong.append(f'{function} has fewer than two edits')
        if asks and f'`{function}`' not in asked_for:
            wrong.append(f'the requires of {function} is not explained')
        row = function.replace('::', '_').lower().replace('place_place', 'place').replace('log_book', 'logbook')
        if crate_of(function) != 'promises' and function not in NO_ANSWER and f' {row}.ended' not in determinacy:
            wrong.append(f'{function} has no row {row} in Determinacy')
    for function in set(rows) - {f for f, _ in every}:
        wrong.append(f'there is no public function {function}')
    for function in re.findall(r'^\| (.*?) \|', asked_for, re.M):
        for name in re.findall(r'`([^`]+)`', function):
            if name not in [f for f, asks in every if asks]:
                wrong.append(f'{name} has no requires')
    for crate, names in known.items():
        for edit in sorted(names):
            if (crate, edit) not in named:
                wrong.append(f'edit {crate}/{edit} is not named')
    for line in wrong:
        print(line)
    print(f'{len(every)} public functions, {sum(map(len, known.values()))} edits: {len(wrong)} wrong')
    return 1 if wrong else 0


if __name__ == '__main__':
    sys.exit(main())
