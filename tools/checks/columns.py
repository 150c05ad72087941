#!/usr/bin/env python3
"""How many lines are too wide: columns.py [list] [CRATE..]

Clauses of a contract (requires, ensures, invariant) in src/ should fit in 100 columns, and other lines in 150. The imports `ghost use` and `use`
are not counted. Too wide a line is no error: the counts are printed, so that they can only be seen to fall. `list` names the lines, of all crates
or of those that are named. Ends with 0.
"""
import re
import sys
from collections import Counter

import tree

CLAUSE = re.compile(r'\s*(requires|ensures|invariant|decreases)\b')
IMPORT = re.compile(r'\s*(pub )?(ghost )?use\b|\s*(import|open) ')


def wide_lines(only):
    """The lines that are too wide: the part of the crate or `clauses`, the file, the line's number and its width."""
    for name in tree.files('crates'):
        parts = name.split('/')
        if not name.endswith(('.rt', '.antt')) or (only and parts[1] not in only):
            continue
        for number, line in enumerate(tree.read(name).split('\n'), 1):
            if IMPORT.match(line):
                continue
            is_clause = parts[2] == 'src' and CLAUSE.match(line)
            if len(line) > (100 if is_clause else 150):
                yield 'clauses' if is_clause else parts[2], name, number, len(line)


def main(words):
    wanted = set(words) - {'list'}
    found = list(wide_lines(wanted))
    if 'list' in words:
        for _, name, number, width in found:
            print(f'{name}:{number}: {width} columns')
    counts = Counter(kind for kind, *_ in found)
    crates = Counter(name.split('/')[1] for kind, name, *_ in found if kind == 'clauses').most_common(3)
    most = ', '.join(f'{crate} {count}' for crate, count in crates)
    print(f'columns: {counts["clauses"]} clauses are wider than 100 columns' + (f' (most: {most})' if most else '') +
          f'; lines wider than 150: {counts["src"]} in src/, {counts["specs"]} in specs/, {counts["proofs"]} in proofs/')


if __name__ == '__main__':
    main(sys.argv[1:])
