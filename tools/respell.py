#!/usr/bin/env python3
"""Brings the names of definitions and lemmas, and the must-fail edits, to the spelling of the kit that docs/PORT.md names.

usage: python3 tools/respell.py        once, at the top of the repository, right behind the kit's own script

A name's parts are joined by dashes; each part that begins with a small letter goes from camel case to snake case. The kit's own
words and everything behind a capital (types, modules, constants) stay. It prints new names that stood in the files before.
"""

import glob
import os
import re
import subprocess
import sys

TOKEN = re.compile(r"(?<![\w'′-])[A-Za-z_][\w'′]*(?:-[\w'′]+)*")
CAMEL = re.compile(r'[a-z][a-z0-9]*[A-Z]')
# Old names of the library inside names of this repository, and names of this repository that the kit's script turned in
# crates/ but not in the must-fail edits.
PARTS = {'getD': 'get_or'}
# Names that would fall together with others: two lemmas keep their dash, and one definition gets another name.
APART = {
    'crates/automaton/proofs/LastWord.antt': ('last_word', 'last-word'),
    'crates/automaton/proofs/WordNumbering.antt': ('last_word', 'last-word'),
    'crates/operations/proofs/LengthLaws.antt': ('list_length', 'list-length'),
    'crates/operations/proofs/Demand1.antt': ('list_length', 'list-length'),
    'crates/words/proofs/AcceptedAlphabet.antt': ('rank_most', 'rank-most'),
}
WHOLE = {'setAt': 'node_set_at'}
# What the kit's script turned in specs/ and src/, for the texts of the edits.
TURNED = (
    (re.compile(r'List·Memᴰ'), 'Memᴰ'),
    (re.compile(r'use lib\.ListN\.\{length'), 'Bool, length'),
    (re.compile(r'(?<=Bool, length), drop\}'), ', drop, ltb}'),
    (re.compile(r'(?<=Bool, length)\}'), ', ltb}'),
    (re.compile(r'Rattle·(\w+)·(specs|proofs)\.\2\.'), r'Rattle.\1.\2.'),
    (re.compile(r'Rattle·'), 'Rattle.'),
    (re.compile(r'(?<=[.(])_([^\w\s]+)_(?= )'), r'◌\1◌'),
    (re.compile(r'\((\w+′?) \.(\w+)\)'), r'\1.\2'),
    (re.compile(r'(?<=\w) \.(?=[a-z])'), '.'),
    (re.compile(r'′'), "'"),
)


def part(p):
    if p in PARTS:
        return PARTS[p]
    if not CAMEL.match(p):
        return p
    p = re.sub(r'(?<=[a-z0-9])([A-Z])', r'_\1', p)
    return re.sub(r'(?<=_)[A-Z]', lambda m: m[0].lower(), p)


def is_kits(w):
    """uint_Lawful, mut_slice_Tells: the kit joins a type's name by a line below."""
    return re.search(r'_[A-Z]', w) is not None


def new_name(w):
    if w in WHOLE:
        return WHOLE[w]
    return w if is_kits(w) else '-'.join(part(p) for p in w.split('-'))


def respell(text):
    return TOKEN.sub(lambda m: new_name(m[0]), text)


def edit(text):
    for old, new in TURNED:
        text = old.sub(new, text)
    return respell(text)


def files(*patterns):
    for p in patterns:
        yield from sorted(f for f in glob.glob(p, recursive=True) if os.path.isfile(f) and '/out/' not in f)


def main():
    before, after = set(), {}
    for f in files('crates/**/*.antt', 'crates/**/*.rt'):
        with open(f, encoding='utf-8') as it:
            for w in TOKEN.findall(it.read()):
                before.add(w)
                if new_name(w) != w:
                    after.setdefault(new_name(w), set()).add(w)
    for n, olds in sorted(after.items()):
        if n in before or len(olds) > 1:
            print(f'look: {n} is now {", ".join(sorted(olds))}' + (' and stood before' if n in before else ''))
    for f in files('crates/**/*.antt', 'crates/**/*.rt', 'crates/*/must-fail/*.edit', 'docs/*.md', 'README.md'):
        with open(f, encoding='utf-8') as it:
            old = it.read()
        text = old
        if f in APART:
            text = re.sub(r'(?<![\w-])' + APART[f][0] + r'(?![\w-])', APART[f][1], text)
        new = edit(text) if f.endswith('.edit') else respell(text)
        if new != old:
            with open(f, 'w', encoding='utf-8') as it:
                it.write(new)
    for crate in sorted(glob.glob('crates/*')):
        subprocess.run(['rt', 'fmt'], cwd=crate, check=True, stdout=subprocess.DEVNULL)
    return 0


if __name__ == '__main__':
    sys.exit(main())
