#!/usr/bin/env python3
"""Counts the places of the design pass (docs/DESIGN-PASS.md) in crates/*/src of the tree it is run in.

count.py [FOLDER]: a line for each pattern, with how often it stands; count.py -l NAME: the places of one.
"""
import glob
import os
import re
import sys

SEARCH = r'for \w+ in [^{\n]+\{\n(?:\s+let [^\n]+;\n)*\s+if [^{\n]+\{\n\s+return [^;\n]+;[^\n]*\n\s+\}\n\s+\}'
PATTERNS = [
    ('1 own Option or Result, types', r'^(?:pub )?enum (?:Answer|Input|Ending|Turn|Step|Value|Numeral|Landing)\b'),
    ('1 own Option or Result, uses', r'\b(?:Answer|Input|Ending|Turn|Step|Value|Numeral|Landing)::[A-Z]\w*'),
    ('1 a value with a stand-in after a refusal', r'^(?:pub )?struct (?:Valued|Opened|Kinded) |\bvalue_or\('),
    ('1 an index, or the count where there is none', r'(?:pub fn find|fn first_paid|fn first_staying)\b[^{]*?\) -> usize'),
    ('1 flags as numbers', r'finished: u8|After\(usize, u8'),
    ('1 numbers for kinds of rows', r'(?<!const )\b(?:PROP|NOT|OR|NEXT|ALWAYS|UNTIL)_KIND\b'),
    ('1 numbers for kinds of resources', r'(?<!const )\b(?:SUM|MAX)_KIND\b'),
    ('1 numbers for refusals', r'Refusal::\w+ => \d+'),
    ('2 twins, functions', r'fn (?:value_filling|value_spending|first_rank|store_ranks|first_ranks|rank_at|word_at|narrow_at|set_rank|set_word|set_narrow)\('),
    ('2 twins, types', r'^pub struct Side\b'),
    ('3 loops', r'^ *(?:for|while) '),
    ('3 loops with a counter by hand', r'while [^{\n]*\b(?:j|y|first|n)\b[^{\n]*\{\n(?:[^}]*\n)*?\s+\w+ -= 1;'),
    ('3 loops that only search', SEARCH),
    ('3 loops that go over a slice by index', r'for (\w+) in [^{\n]+\{\n\s+\w+\[[^\]\n]*\b\1\b\] = [^;\n]*;\n\s+\}|for (\w+) in [^{\n]+\{\n\s+if \w+\[[^\]\n]*\b\2\b\] [!=]= \w+\[\2\] \{'),
    ('4 bytes to and from numbers by hand', r'256 \* |% 256\)|/ 256 %|65536 \*|/ 65536|16777216'),
    ('4 min, max and less by hand', r'if (\w+) < (\w+) \{\n\s+return (?:\1|\2|0|\(0 - \1\) as usize);'),
    ('4 widening by a function', r'\bwide\('),
    ('4 tests as rows of if and return', r'\{\n\s+return (?:true|false);\n\s+\}'),
    ('5 clauses that the block is checked', r'requires [^\n]*\b(?:Valid|Sized) '),
    ('5 clauses on a row and its listing', r'requires [^\n]*\b(?:Playable|Sought) '),
    ('5 functions that take the block', r'fn \w+[^{]*?\bblock: &\[u8\]'),
    ('6 a buffer and how far it is written', r'(?:text|out): &mut \[u8\],\s+at: usize'),
    ('7 a switch on a kind by ifs', r'if (?:aim\.)?kind == layout::\w+_KIND \{'),
]


def places(folder, pattern):
    found = []
    for path in sorted(glob.glob(os.path.join(folder, 'crates/*/src/*.rt'))):
        text = open(path).read()
        for m in re.finditer(pattern, text, flags=re.M):
            line = text.count('\n', 0, m.start()) + 1
            found.append((os.path.relpath(path, folder), line, m.group(0).split('\n')[0]))
    return found


def main():
    args = sys.argv[1:]
    if args[:1] == ['-l']:
        folder = args[2] if len(args) > 2 else '.'
        for name, pattern in PATTERNS:
            if name == args[1]:
                for path, line, text in places(folder, pattern):
                    print(f'{path}:{line}: {text}')
        return
    folder = args[0] if args else '.'
    for name, pattern in PATTERNS:
        print(f'{len(places(folder, pattern)):5} {name}')


main()
