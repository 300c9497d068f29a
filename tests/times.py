#!/usr/bin/env python3
"""The gate as a table, from what `bash .ci/run` printed: docs/TIMES.md was made of it.

  bash .ci/run | tee gate.log;  python3 tests/times.py < gate.log

One row a crate: the seconds of its proof, how many must-fail edits it has, and what each of them took. Today's kit prints
no seconds (the one of docs/TIMES.md did), and then a `-` stands for them. Take them outside: `time bash .ci/run`, which is
of what earlier runs have not kept, and `time rt must-fail --anew NAME`.
"""
import re
import sys

PROVED = re.compile(r'^rt: (\w+) (?:proved|is kept)(?: \((\d+) s\))?')
EDIT = re.compile(r'^rt: must-fail (\w+)/(\w+)(?:\.edit)?: refused(?:.*?(\d+) s\))?')


def read(lines):
    """Seconds of each crate's proof, and of each of its edits, as words."""
    proofs, edits = {}, {}
    for line in lines:
        m = PROVED.match(line)
        if m:
            proofs[m[1]] = m[2] or '-'
        m = EDIT.match(line)
        if m:
            edits.setdefault(m[1], {})[m[2]] = m[3] or '-'
    return proofs, edits


def total(words):
    """The sum of some seconds, or `-` where one is not known."""
    return '-' if '-' in words else sum(map(int, words))


def main():
    proofs, edits = read(sys.stdin)
    print('| Crate | Proof, s | Edits | Edits, s | Each edit, s |\n|---|---|---|---|---|')
    for crate, seconds in proofs.items():
        mine = edits.get(crate, {})
        each = ', '.join(f'{label} {took}' for label, took in sorted(mine.items()))
        print(f'| {crate} | {seconds} | {len(mine)} | {total(mine.values())} | {each} |')
    spent = [took for mine in edits.values() for took in mine.values()]
    print(f'| all | {total(proofs.values())} | {len(spent)} | {total(spent)} | |')


main()
