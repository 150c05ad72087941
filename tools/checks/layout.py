#!/usr/bin/env python3
"""Whether the sources lie where `rt` looks for them, and whether there is one version: layout.py, without words.

- Each .rt and .antt file is in src/, specs/ or proofs/ of a crate.
- Each folder of crates/ is listed, and each listed crate has sources and does not use itself.
- HANDLES is its one line.
- CHANGELOG.md has a section for the version that the file VERSION names, as its newest, and python/pyproject.toml has the same version.
Ends with 0, or with 1 and a line for each fault.
"""
import re
import sys

import tree

PLACE = re.compile(r'crates/(\w+)/(src|specs|proofs)/')


def faults():
    crates = tree.crates()
    if not tree.there('HANDLES') or tree.read('HANDLES') != 'Handles allowed: none.\n':
        yield "HANDLES is not the one line 'Handles allowed: none.'"
    names = tree.files()
    for name in names:
        if name.endswith(('.rt', '.antt')) and not PLACE.match(name):
            yield f'{name} is not in src/, specs/ or proofs/ of a crate'
    folders = {name.split('/')[1] for name in names if name.startswith('crates/') and name.count('/') > 1}
    for crate in sorted(folders - set(crates)):
        yield f'crates/{crate} is not in crates.txt'
    for crate, others in crates.items():
        if not any(name.startswith(f'crates/{crate}/src/') for name in names):
            yield f'crates.txt lists {crate}, which has no src/'
        for other in others:
            if other == crate:
                yield f'{crate} uses itself in crates.txt'
    version = tree.read('VERSION').strip()
    versions = re.findall(r'^## (\d[\d.]*)$', tree.read('CHANGELOG.md'), re.MULTILINE)
    if not re.match(r'\d+\.\d+\.\d+$', version) or versions[:1] != [version]:
        yield f'VERSION is {version}, and the newest version of CHANGELOG.md {versions[:1]}'
    if f'version = "{version}"' not in tree.read('python/pyproject.toml'):
        yield f'python/pyproject.toml has another version than {version}'


if __name__ == '__main__':
    sys.exit(tree.report('layout', list(faults()), f'{len(tree.crates())} crates'))
