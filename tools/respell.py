#!/usr/bin/env python3
"""Brings the repository's own definitions and lemmas to today's spelling: snake case for words and lemmas, camel case
for types, facts and relations. It was run once, right after the toolchain's port script, and is kept so that the run
can be made again on an older commit. Run it at the top of a checkout; a second run changes nothing.

A name is one that a file of specs/ or proofs/ defines, with a dash in it. Functions of src/, the names that the
toolchain makes for steps and goals, strings, inputs and outputs keep their spelling."""
import re
import sys
from pathlib import Path

# A word that would get the name of a free function in a file that imports it.
OTHERWISE = {
    'share-speed': 'has_shared_speed',
    'open-card': 'opened_by',
}

# Steps of a generated proof, whose fields are made names.
STEPS = {'c', 'w'}

DEFINED = re.compile(
    r'''\s*(?:(?:abbrev|unfoldable)\s+)?(?:pub\s+)?(?:(?:record|data|abbrev)\s+)?(?:pub\s+)?'''
    r'''(?P<name>[^\s(){}\[\].,;:λ@"]+)\s*(?:[({].*[)}]\s*)?:(?P<type>.*)''')
WORD = re.compile(r'''(?P<before>(?P<owner>[\w']*)\.)?(?P<word>[A-Za-z][\w']*(?:-[\w'+]+)+)''')


def proof_files(crate):
    return [p for folder in ('specs', 'proofs') for p in (crate / folder).rglob('*.antt')]


def defined_names(crates):
    names = set()
    for crate in crates:
        for path in proof_files(crate):
            for line in path.read_text().splitlines():
                match = DEFINED.match(line)
                if not match or line.lstrip().startswith('--'):
                    continue
                made = 'goal.' in match['type'] or 'given.' in match['type']
                if '-' in match['name'] and not made:
                    names.add(match['name'])
    return names


def respelled(name):
    if name in OTHERWISE:
        return OTHERWISE[name]
    if name[0].isupper():
        return ''.join(part[:1].upper() + part[1:] for part in name.split('-'))
    return name.replace('-', '_')


def respell_line(line, names):
    def put(match):
        word = match['word']
        if word not in names or match['owner'] in STEPS:
            return match[0]
        return (match['before'] or '') + names[word]
    return WORD.sub(put, line)


def comment_at(line, mark):
    at = line.find(mark)
    return len(line) if at < 0 else at


def respell(path, names, mark):
    old = path.read_text()
    lines = []
    for line in old.split('\n'):
        at = comment_at(line, mark)
        lines.append(respell_line(line[:at], names) + line[at:])
    new = '\n'.join(lines)
    if new != old:
        path.write_text(new)


def main():
    crates = sorted(p for p in Path('crates').iterdir() if p.is_dir())
    defined = defined_names(crates)
    names = {name: respelled(name) for name in defined}
    taken = {}
    for name, new in sorted(names.items()):
        if new in taken:
            sys.exit(f'{name} and {taken[new]} fall together')
        taken[new] = name
    for crate in crates:
        for path in proof_files(crate):
            respell(path, names, '--')
        for path in (crate / 'src').rglob('*.rt'):
            respell(path, names, '//')
    print(f'{len(names)} names')


main()
