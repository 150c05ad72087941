#!/usr/bin/env python3
"""Whether each Python file of the repository can be read by Python 3.8: python_syntax.py, without words.

A Python file ends with .py, or begins with a line that names python3. Ends with 0, or with 1 and a line for each fault.
"""
import ast
import sys
import warnings

import tree

OLDEST = (3, 8)


def is_python(name):
    if name.endswith('.py'):
        return True
    if name.startswith(('crates/', 'docs/', 'release/', 'kernels/')) or '.' in name.rsplit('/', 1)[-1]:
        return False
    with open(f'{tree.TOP}/{name}', 'rb') as file:
        return file.readline().startswith(b'#!/usr/bin/env python3')


def fault_of(name):
    """Why a file cannot be read, or nothing."""
    text = tree.read(name)
    try:
        with warnings.catch_warnings():
            warnings.simplefilter('error')
            compile(text, name, 'exec')
            ast.parse(text, name, feature_version=OLDEST)
    except (SyntaxError, ValueError, Warning) as why:
        return f'{name}: {why}'
    return None


def main():
    names = [name for name in tree.files() if is_python(name)]
    wrong = [fault for fault in map(fault_of, names) if fault]
    return tree.report('python syntax', wrong, f'{len(names)} files')


if __name__ == '__main__':
    sys.exit(main())
