#!/usr/bin/env python3
"""Prints each pair of a must-fail edit that doesn't fit the sources.

usage: tools/edits_fit.py [CRATE..]     at the top of the repository; no name: every crate

It applies the pairs `old:`, `new:` of each crates/*/must-fail/*.edit one after the other, in memory. A pair fits where its file is there, its old text stands
exactly once in that file as the pairs above it left it, and its new text is another. The exit status is 1 where a pair doesn't fit.
"""
import glob
import os
import sys


def misfits(edit):
    """Yields (line, what is wrong) of each pair that doesn't fit."""
    crate = os.path.dirname(os.path.dirname(edit))
    with open(edit, encoding='utf-8') as f:
        lines = f.read().split('\n')
    name = old = at = None
    made, pairs = {}, 0
    for number, line in enumerate(lines, 1):
        if line.startswith('file: '):
            name = line[len('file: '):].strip()
        elif line.startswith('old: '):
            old, at = line[len('old: '):], number
        elif line.startswith('new:'):
            new = line[len('new:'):].removeprefix(' ')
            pairs += 1
            source = os.path.join(crate, name or '')
            if source not in made and os.path.isfile(source):
                with open(source, encoding='utf-8') as f:
                    made[source] = f.read()
            if not old or source not in made:
                yield number, 'no old: text above it' if not old else f'no file {name}'
            elif made[source].count(old) != 1:
                yield at, f'stands {made[source].count(old)} times in {name}: {old}'
            elif new == old:
                yield at, f'changes nothing in {name}: {old}'
            else:
                made[source] = made[source].replace(old, new)
            old = None
    if old or not pairs:
        yield at or 1, 'no new: text'


def main():
    edits = sorted(e for c in sys.argv[1:] or ['*'] for e in glob.glob(f'crates/{c}/must-fail/*.edit'))
    wrong = [f'{e}:{number}: {said}' for e in edits for number, said in misfits(e)]
    for line in wrong:
        print(line)
    sys.exit(1 if wrong or not edits else 0)


if __name__ == '__main__':
    main()
