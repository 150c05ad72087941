#!/usr/bin/env python3
"""Whether the must-fail edits can be applied: edits.py, without words.

- Each `old:` text is in its file exactly once, and its `new:` text is another one.
- Each crate has from one to four edits, but for those that CONTRIBUTING.md names in the paragraph "These crates have no edits: ..".
That the prover refuses each is what `rt ci` shows. Ends with 0, or with 1 and a line for each fault.
"""
import re
import sys

import tree

EXEMPT = re.compile(r'^(?:- )?These crates have no edits: (.*?)(?:\n\n|\n- |\Z)', re.MULTILINE | re.DOTALL)


def exempt():
    """The patterns of crates that have no edits: names, or names that end with `*`."""
    found = EXEMPT.search(tree.read('CONTRIBUTING.md'))
    return re.findall(r'`([a-z_0-9]+\*?)`', found.group(1)) if found else []


def needs_none(crate, patterns):
    return any(crate == pattern or (pattern.endswith('*') and crate.startswith(pattern[:-1])) for pattern in patterns)


def faults_of(crate, name):
    """What is wrong with one edit."""
    target, old, text = None, None, ''
    pairs = 0
    for line in tree.read(name).split('\n'):
        key, _, value = line.partition(': ')
        if key == 'file':
            target = f'crates/{crate}/{value.strip()}'
            if not tree.there(target):
                yield f'{name}: there is no {target}'
                return
            text = tree.read(target)
        elif key == 'old':
            old = value
            if target is None:
                yield f'{name}: an `old:` before any `file:`'
            elif text.count(old) != 1:
                yield f'{name}: {target} has its `old:` text {text.count(old)} times: {old.strip()[:80]}'
        elif key == 'new' or line == 'new:':
            pairs += 1
            if old is None or old == value:
                yield f'{name}: a `new:` text changes nothing'
    if not pairs:
        yield f'{name}: no `old:` and `new:`'


def main():
    patterns = exempt()
    wrong, count = [], 0
    if not patterns:
        wrong.append('CONTRIBUTING.md has no paragraph "These crates have no edits: .."')
    for crate in tree.crates():
        edits = [name for name in tree.files(f'crates/{crate}/must-fail') if name.endswith('.edit')]
        count += len(edits)
        if needs_none(crate, patterns):
            if edits:
                wrong.append(f'{crate} has {len(edits)} edits, and CONTRIBUTING.md names it as one without')
        elif not 1 <= len(edits) <= 4:
            wrong.append(f'{crate} has {len(edits)} edits in place of one to four')
        for name in edits:
            wrong += faults_of(crate, name)
    return tree.report('edits', wrong, f'{count} edits can be applied')


if __name__ == '__main__':
    sys.exit(main())
