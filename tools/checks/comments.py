#!/usr/bin/env python3
"""Whether each source file begins with a comment that says what is in it: comments.py [list]

A file of src/ or specs/ has to; one that is only a list of modules (Lib.antt) need not. Proofs are counted, and `list` names those without.
Ends with 0, or with 1 and a line for each fault.
"""
import re
import sys

import tree


def has_comment(text):
    return text.lstrip().startswith(('//', '--', '{-', '/*'))


def is_list(text):
    """Whether a text is only a list of modules."""
    return all(re.match(r'(pub )?mod \w+;?$', line.strip()) for line in text.split('\n') if line.strip())


def main():
    wrong, proofs, bare = [], 0, []
    for name in tree.files('crates'):
        if not name.endswith(('.rt', '.antt')):
            continue
        text = tree.read(name)
        commented = has_comment(text) or is_list(text)
        if name.split('/')[2] == 'proofs':
            proofs += 1
            bare += [] if commented else [name]
        elif not commented:
            wrong.append(f'{name} has no comment at its head')
    if sys.argv[1:] == ['list']:
        print('\n'.join(bare))
    return tree.report('head comments', wrong, f'each file of src/ and specs/ has one; of {proofs} files of proofs {len(bare)} have none')


if __name__ == '__main__':
    sys.exit(main())
