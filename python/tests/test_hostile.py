"""Hostile C and hostile words: each is an error of one message, with its place, and never a traceback."""
from __future__ import annotations

import contextlib
import io
import os
import random
import re
import tempfile
import unittest
from pathlib import Path
from typing import List, Tuple

from pebbletools.command_c import run as pebble_c
from pebbletools.command_study import run as pebble_study
from tests.harness import LONG

HERE = Path(__file__).parent
HEAD = '#include <stdint.h>\n#include <math.h>\n#include <stdbool.h>\n#include <stddef.h>\n'  # so the text is in line 5
TOKEN = re.compile(r'\w+|\s+|.')
MUTANTS = 2000 if LONG else 30
FRAGMENTS = ['', '0', '-1', 'x', '[', ']', '(', ')', '{', '}', ';', ',', '*', '&', '<<', '?', ':', '1.5', 'double', 'int', 'return', '"', '#', 'const',
             'for', 'if', '99999999999999999999', '~', '\\', '\x00', 'é', 'volatile', 'struct', 'sizeof']


def said_of(words: List[str], command=pebble_c) -> Tuple[int, str, str]:
    out, err = io.StringIO(), io.StringIO()
    with contextlib.redirect_stdout(out), contextlib.redirect_stderr(err):
        try:
            status = command(words)
        except SystemExit as end:  # argparse, for wrong options
            status = int(end.code or 0)
    return status, out.getvalue(), err.getvalue()


class Hostile(unittest.TestCase):
    def setUp(self) -> None:
        holder = tempfile.TemporaryDirectory()
        self.addCleanup(holder.cleanup)
        self.file = os.path.join(holder.name, 'f.c')
        self.folder = holder.name

    def is_message(self, status: int, said: str) -> None:
        self.assertNotIn('a fault of this program', said)
        self.assertNotIn('Traceback', said)
        self.assertIn(status, (1, 2))
        self.assertNotEqual(said.strip(), '')

    def test_texts(self) -> None:
        rows = [line.split('  =>  ') for line in (HERE / 'hostile.txt').read_text(encoding='utf-8').splitlines() if not line.startswith('# ')]
        for text, expected in rows if LONG else rows[::3]:
            with self.subTest(text):
                Path(self.file).write_text(f'{HEAD}{text}\n', encoding='utf-8')
                status, out, said = said_of([self.file, 'f', '--kernel'])
                values = re.fullmatch(r'(\d+) values', expected)
                if values:
                    self.assertEqual((status, said), (0, ''))
                    continue
                self.is_message(status, said)
                self.assertTrue(said.startswith(self.file + ':'), said)
                if expected != 'gcc':
                    self.assertIn(expected, said)
                if re.match(r'\d+:\d+: ', expected):
                    self.assertIn('\n    ', said)
                    self.assertIn('^', said.splitlines()[2])

    def test_carets(self) -> None:
        """A caret is at the token of the source, whatever macros, tabs and comments are before it."""
        Path(self.file).write_text('#define SQ(a) ((a) * (a))\n#define BAD x[x[0]]\nvoid f(const int x[4], int *y)\n{\n'
                                   '\t/* one */ y[0] = SQ(x[1]) + /* two */ x[SQ(x[2])];\n}\n'
                                   'void g(const int x[4], int *y)\n{\n    *y = 3 + BAD;\n}\n', encoding='utf-8')
        _, _, said = said_of([self.file, 'f'])
        self.assertEqual(said, f'{self.file}:5:45: an index of x depends on data or is not a whole number: it has to be a constant\n'
                         '            /* one */ y[0] = SQ(x[1]) + /* two */ x[SQ(x[2])];\n' + ' ' * 55 + '^\n')
        _, _, said = said_of([self.file, 'g'])
        self.assertTrue(said.startswith(f'{self.file}:9:14: an index of x depends on data'), said)
        self.assertIn('    *y = 3 + BAD;\n                 ^\n  after the preprocessor:\n', said)

    def test_mutants(self) -> None:
        """Kernels with a token or two changed: whatever comes, it is a kernel or a message."""
        chance = random.Random(7)
        sources = [file.read_text(encoding='utf-8') for file in sorted((HERE / 'kernels').glob('*.c'))]
        kept = 0
        for number in range(MUTANTS):
            tokens = TOKEN.findall(chance.choice(sources))
            for _ in range(chance.randint(1, 2)):
                at = chance.randrange(len(tokens))
                tokens[at] = chance.choice(FRAGMENTS + [chance.choice(tokens), tokens[at] * 2])
            text = ''.join(tokens)
            with self.subTest(number=number, text=text):
                Path(self.file).write_text(text, encoding='utf-8')
                status, _, said = said_of([self.file, '--kernel', '--size', 'in=8'] if 'iir' in text else [self.file, '--kernel'])
                kept += status == 0
                if status:
                    self.is_message(status, said)
        self.assertGreater(kept, 0)

    def test_deep(self) -> None:
        for text in ('return ' + '(' * 5000 + 'a' + ')' * 5000 + ';', 'return ' + '-' * 1 + ' -'.join([''] * 4000) + 'a;',
                     '{' * 3000 + 'return a;' + '}' * 3000, 'return ' + 'a + ' * 5000 + 'a;'):
            with self.subTest(text[:20]):
                Path(self.file).write_text(f'int f(int a) {{ {text} }}\n', encoding='utf-8')
                status, _, said = said_of([self.file, '--kernel'])
                if status:
                    self.is_message(status, said)

    def test_files(self) -> None:
        Path(self.folder, 'binary.c').write_bytes(bytes(range(256)) * 10)
        Path(self.folder, 'empty.c').write_bytes(b'')
        Path(self.folder, 'bad.py').write_text('def f(:\n', encoding='utf-8')
        Path(self.folder, 'raises.py').write_text('x = [][1]\n', encoding='utf-8')
        Path(self.folder, 'wrong.py').write_text('from pebbletools.trace import kernel\n\n\n@kernel(x=3)\ndef f(x):\n    return x[7]\n', encoding='utf-8')
        Path(self.folder, 'binary.py').write_bytes(bytes(range(256)))
        for name, expected in (('binary.c', ''), ('empty.c', 'it has none that is not static'), ('no.c', 'there is no such file'), ('', 'no such file'),
                               ('bad.py', 'bad.py:1: SyntaxError'), ('raises.py', 'raises.py:1: IndexError'), ('no.py', 'no.py'), ('binary.py', ''),
                               ('wrong.py', 'wrong.py:6: IndexError')):
            with self.subTest(name):
                status, _, said = said_of([os.path.join(self.folder, name)])
                self.is_message(status, said)
                self.assertIn(expected, said)

    def test_words(self) -> None:
        good = str(HERE / 'kernels' / 'bitonic.c')
        code = os.path.join(self.folder, 'x.code')
        Path(code).write_bytes(bytes(range(256)))
        for words in ([good, '-S', '0'], [good, '-S', '-3'], [good, '-S', '65', '--budget', '0'], [good, '-S', 'x'], [good, 'nothing'],
                      [good, '--budget', '-1'], [good, '--budget', '999999999'], [good, '--effort', '999'], [good, '--budget', '0', '--effort', '0'],
                      [good, '--load', '0', '--budget', '0'], [good, '--store', '17', '--budget', '0'], [good, '--size', 'v'], [good, '--size', 'v=0'],
                      [good, '--size', 'v=9999999'], [good, '--size', 'w=3'], [good, '-D', '1'], [good, '-D', 'a\x00b'], [good, '--code', '/nowhere'],
                      [good, '--code', code], [good, '--code', good], [good, '-S', '3', '--budget', '0', '-o', '/nowhere/x.c'], [good, '--name', 'a b'],
                      [good, '--slots-array', '1x', '--budget', '0'], [good, '--keep', 'x'], [good, '--mad', '--bogus'], [], [self.folder]):
            with self.subTest(words):
                status, _, said = said_of(words)
                self.is_message(status, said)
        for words in (['--folder', self.folder, 'no.c'], ['--folder', '/proc/nowhere', good, '--budget', '0'], ['--folder', self.folder, good, '--jobs', 'x y'],
                      [good, '--plot', 'x.pdf'], [good, '--slots', '5:'], [good, '--weights', '1'], [good + ':nothing'], [code], [],
                      ['--folder', self.folder, good, '--budget', '0', '--planner', '/nowhere', '--slots', '3', '--jobs', '1']):
            with self.subTest(words):
                status, _, said = said_of(words, pebble_study)
                self.is_message(status, said)


if __name__ == '__main__':
    unittest.main()
