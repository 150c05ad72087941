"""Finds the planner and runs it.

Two programs plan: `improve`, which searches for cheaper orders, and `plan` of the program pebble. `improve` is taken if it is there.

The program pebble is the one that PEBBLE_PROGRAM names; else, in a checkout, the one that the wrapper `pebble` runs; else `pebble` in the path.
The program improve is the one that PEBBLE_IMPROVE names, else that of the same places if it answers the word `improve`.
"""
from __future__ import annotations

import functools
import os
import re
import shutil
import subprocess
import tempfile
from pathlib import Path
from typing import Dict, List, Optional, Tuple

from .errors import ProgramError
from .kernels import Kernel
from .texts import Graph, read_graph

DONE, OPEN = 0, 5
MEANINGS = {2: 'the words are not a command', 3: 'the kernel has a fault', 4: 'too few slots', 6: 'a file could not be read',
            7: 'a file could not be written', 8: 'out of memory', 9: 'the input is not a code', 10: 'the values do not fit',
            11: 'the code reads what is empty', 13: 'an argument is not valid UTF-8', 70: 'there is no program to run'}
SMALLEST = 'kernel k { in a; out y; y = -a; }\n'


def checkout() -> Optional[Path]:
    """The top of the repository that holds this package, or None if it is installed elsewhere."""
    for folder in Path(__file__).resolve().parents:
        if (folder / 'pebble').is_file() and (folder / 'crates').is_dir():
            return folder
    return None


@functools.lru_cache(maxsize=None)
def _current(top: Path, name: str) -> str:
    """The program that the wrapper of a checkout runs, looked up once: the wrapper sums all sources at each call."""
    done = subprocess.run([str(top / 'tools' / 'current_program'), name], stdout=subprocess.PIPE, stderr=subprocess.PIPE, encoding='utf-8',
                          errors='replace', check=False)
    if done.returncode:
        raise ProgramError(done.stderr.strip() or 'there is no program of these sources', done.returncode)
    return done.stdout.rstrip('\n')


def _named(variable: str) -> Optional[str]:
    named = os.environ.get(variable)
    if not named:
        return None
    found = shutil.which(named)
    if not found:
        raise ProgramError(f'{variable} names {named}, which cannot be run')
    return os.path.abspath(found)


def find_program() -> str:
    """The file of the program pebble."""
    named, top = _named('PEBBLE_PROGRAM'), checkout()
    if named:
        return named
    if top:
        return _current(top, 'pebble')
    found = shutil.which('pebble')
    if not found:
        raise ProgramError('the planner is not found: set PEBBLE_PROGRAM to its file, or put pebble in the path')
    return found


def find_improver() -> Optional[str]:
    """The file of a program that answers the word `improve`, or None."""
    named = _named('PEBBLE_IMPROVE')
    if named:
        return named
    if os.environ.get('PEBBLE_UNPROVED'):
        return None  # the wrapper would compile for a minute only to say so
    top = checkout()
    try:
        program = find_program() if os.environ.get('PEBBLE_PROGRAM') or not top else _current(top, 'improve')
    except ProgramError:
        return None
    return program if _improves(program) else None


@functools.lru_cache(maxsize=None)
def _improves(program: str) -> bool:
    done = subprocess.run([program, 'improve', '2', os.devnull, '0'], input=SMALLEST, stdout=subprocess.PIPE, stderr=subprocess.DEVNULL,
                          env={**os.environ, 'PEBBLE_QUIET': '1'}, encoding='utf-8', errors='replace', check=False)
    return done.returncode in (DONE, OPEN) and '; effort ' in done.stdout


def ask(words: List[str], text: str, files: Optional[Dict[str, str]] = None, program: Optional[str] = None) -> Tuple[int, str]:
    """The status and the output that the planner answers to words and an input. `files` are put in the folder where it runs."""
    program = program or find_program()
    with tempfile.TemporaryDirectory(prefix='pebbletools-') as folder:
        for name, content in (files or {}).items():
            Path(folder, name).write_text(content, encoding='utf-8')
        done = subprocess.run([program, *words], input=text, stdout=subprocess.PIPE, stderr=subprocess.PIPE, cwd=folder, encoding='utf-8',
                              errors='replace', check=False)
    if done.returncode not in (DONE, OPEN):
        said = done.stdout.strip() or MEANINGS.get(done.returncode, f'status {done.returncode}')
        more = done.stderr.strip()
        raise ProgramError(f'{words[0]}: {said}' + (f'\n{more}' if more else ''), done.returncode)
    return done.returncode, done.stdout


def graph(text: str) -> Graph:
    """The graph that the planner makes of a kernel's text."""
    return read_graph(ask(['graph'], text)[1])


def degree(text: str) -> int:
    """The most distinct values that one operation of a kernel reads."""
    return max((len(set(vertex.operands())) for vertex in graph(text).vertices), default=0)


def run(kernel: Kernel, values: List[int]) -> Dict[str, int]:
    """What the planner's own `run` gives for a kernel whose numbers are the source's."""
    if not kernel.native:
        raise ProgramError(f'{kernel.name} has operations that the kernel language lacks: its text is a graph only, and cannot be run')
    _, text = ask(['run', 'values'], kernel.text(), {'values': ' '.join(map(str, values))})
    return {match[1]: int(match[2]) for match in re.finditer(r'^(\S+) = (-?\d+)$', text, re.M)}
