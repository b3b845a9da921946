#!/usr/bin/env python3
"""Spells the repository's own definitions and lemmas as today's Rattle does: words in snake case, types in camel case.

usage: tools/respell.py [FOLDER]     at the top of the repository, once, right after port.py

It reads which names specs/ and proofs/ declare, and turns each that has a dash wherever it stands as a whole word: in specs/, proofs/, the clauses of src/,
must-fail edits and the code spans of the documents. Names that the checker makes for the places of a function's code are left alone, and functions of src/ keep
their names. The crate csv becomes rfc4180, since Rattle has a library named csv. It stops where two names would fall together.
"""
import collections
import os
import re
import sys

NAME = r'[^\s(){}.;,@"«»:λ=]+'
DECLARED = re.compile(rf'^\s*(?:(?:pub|unfoldable|abbrev|data|record|deriving)\s+)*({NAME})(?:\s+\{{[^{{}}\n]*\}}|\s+\([^()\n]*\))*\s+:(?:\s|$)')
MADE = re.compile(r':\s*tie\.(Need|invariant|decreases)')
WORD = re.compile(r'[^\s(){}.;,@"«»:`]+')
SPAN = re.compile(r'(`+)[^`]*?\1|^( *)(`{3,})[^\n`]*\n.*?^\2\3 *$', re.S | re.M)
PLAIN = {
    'Demand-2': 'Demand2', 'Demand-3': 'Demand3', 'Refusal-10': 'Refusal10',
    'A-to-B': 'a_to_b', 'fastest-from-C': 'fastest_from_c', 'on-AB': 'on_ab', 'slowest-to-C': 'slowest_to_c',
}
CRATE = [(re.compile(r'\bRattle\.csv\b'), 'Rattle.rfc4180'), (re.compile(r'(?<![\w.])csv::'), 'rfc4180::'), (re.compile(r'\bopen_csv\b'), 'open_rfc4180')]


def files(root, *ends):
    for folder, dirs, names in os.walk(root):
        dirs[:] = sorted(d for d in dirs if d not in ('out', 'target', '.git'))
        for n in sorted(names):
            if n.endswith(ends):
                yield os.path.join(folder, n)


def read(path):
    with open(path, encoding='utf-8') as f:
        return f.read()


def write(path, text):
    if read(path) != text:
        with open(path, 'w', encoding='utf-8') as f:
            f.write(text)


def declared(crates):
    found = set()
    for path in files(crates, '.antt'):
        for line in read(path).split('\n'):
            m = DECLARED.match(line)
            if m and not line.lstrip().startswith('--') and not (path.endswith('Proof.antt') and MADE.search(line)):
                found.add(m[1])
    return found - {'let', 'in', 'use', 'where', '→'}


def table(own):
    turned = {n: PLAIN.get(n, n.replace('-', '_')) for n in own if '-' in n and not n.startswith(('+', 'μ-'))}
    meet = collections.defaultdict(set)
    for n in own:
        meet[turned.get(n, n)].add(n)
    clash = [ns for ns in meet.values() if len(ns) > 1]
    if clash:
        sys.exit(f'respell: names fall together: {clash}')
    return turned


def main():
    root = sys.argv[1] if len(sys.argv) > 1 else '.'
    crates = os.path.join(root, 'crates')
    turned = table(declared(crates))

    def turn(text):
        text = WORD.sub(lambda m: turned.get(m[0], m[0]), text)
        for old, new in CRATE:
            text = old.sub(new, text)
        return text

    for path in list(files(crates, '.antt', '.rt', '.edit')):
        write(path, turn(read(path)))
    for path in [os.path.join(root, 'README.md'), *files(os.path.join(root, 'docs'), '.md')]:
        text = SPAN.sub(lambda m: turn(m[0]), read(path))
        write(path, re.sub(r'(?<![\w./])csv/(?=src|specs|proofs)', 'rfc4180/', text).replace('`crates/csv`', '`crates/rfc4180`'))
    path = os.path.join(root, 'crates.txt')
    write(path, re.sub(r'(?m)(?<![\w.])csv\b', 'rfc4180', read(path)))
    if os.path.isdir(os.path.join(crates, 'csv')):
        os.rename(os.path.join(crates, 'csv'), os.path.join(crates, 'rfc4180'))


if __name__ == '__main__':
    main()
