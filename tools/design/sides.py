#!/usr/bin/env python3
"""Prints signatures, clauses and definitions that changed, old and new side by side, for docs/DESIGN-PASS.md.

sides.py CONTRACTS.JSON OLD NEW, the first from: python3 port/contracts.py OLD NEW --json
Of functions it prints those that are public in one of the two checkouts.
"""
import json
import re
import sys


def block(old, new):
    return ['```'] + [f'- {x}' for x in old] + [f'+ {x}' for x in new] + ['```', '']


def clauses(which, rows):
    return [f'{which} {name + " " if name else ""}{{ {text} }}' for name, text in rows]


def public(name):
    crate, path, function = name.split(' ')[0], name.split(' ')[1], name.split(' ')[-1].split('::')[-1]
    for folder in sys.argv[2:4]:
        try:
            text = open(f'{folder}/crates/{crate}/{path}').read()
        except FileNotFoundError:
            continue
        if re.search(rf'\bpub (?:extern "C" )?fn {function}\b', text):
            return True
    return False


def main():
    d = json.load(open(sys.argv[1]))
    out = ['### Signatures', '']
    for name, old, new in d['signatures changed']:
        if not public(name):
            continue
        out += [f'`{name}`', ''] + block([old], [new])
    out += ['### Clauses', '']
    for name, old_req, old_ens, new_req, new_ens in d['contracts changed']:
        if not public(name):
            continue
        old = clauses('requires', old_req) + clauses('ensures', old_ens)
        new = clauses('requires', new_req) + clauses('ensures', new_ens)
        both = [x for x in old if x in new]
        out += [f'`{name}`', ''] + block([x for x in old if x not in both], [x for x in new if x not in both])
    out += ['### Definitions', '']
    for row in d['definitions']['changed']:
        out += [f'`{row[0]} {row[1]}`', ''] + block(row[2], row[3])
    out += ['### Edits', '']
    for row in d['edits and outputs']['changed']:
        out += [f'`{row[0]} {row[1]}`', ''] + block([row[2]], [row[3]])
    print('\n'.join(out).rstrip())


main()
