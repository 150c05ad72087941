"""Random C functions: whatever types and operators meet, the planned function gives the same bits, under the sanitizer too."""
from __future__ import annotations

import os
import random
import tempfile
import unittest
from pathlib import Path
from typing import List

from pebbletools import plans, program
from pebbletools.from_c import kernel_from_file
from pebbletools.to_c import to_c
from tests.harness import LONG, differs

FUNCTIONS = int(os.environ.get('RANDOM_FUNCTIONS', '100' if LONG else '4'))
TYPES = ['int8_t', 'uint8_t', 'int16_t', 'uint16_t', 'int32_t', 'uint32_t', 'int64_t', 'uint64_t', 'float', 'double', '_Bool', 'long long', 'int']


def cut(ctype: str) -> str:
    """A cast that keeps the conversion of a negative floating number to an unsigned one defined."""
    return '' if ctype in ('float', 'double', '_Bool') else '(int64_t)'


class Maker:
    """Makes a function of statements on locals, arrays and a pointer. Whatever could be undefined in C is masked."""

    def __init__(self, seed: int):
        self.random = random.Random(seed)
        pick = self.random.choice
        self.arrays = [(f'p{k}', pick(TYPES), pick([1, 2, 3, 4])) for k in range(self.random.randint(1, 3))]
        self.scalar = pick(TYPES)
        self.locals: List[str] = []

    def leaf(self) -> str:
        kind = self.random.random()
        if kind < 0.15:
            return self.random.choice(['0', '1', '-1', '2', '7u', '100', '0x7fL', '3.5', '0.25f', '-2.0', '255', "'a'", '1ul', '-0.0'])
        if kind < 0.5 and self.locals:
            return self.random.choice(self.locals)
        if kind < 0.6:
            return 'q'
        name, _, size = self.random.choice(self.arrays)
        return f'{name}[{self.random.randrange(size)}]'

    def whole(self, depth: int) -> str:
        """An expression that is a whole number of few bits, so that nothing overflows."""
        return f'((int)({self.expression(depth)} != 0) + {self.random.randint(0, 5)})' if self.random.random() < 0.3 else f'W({self.leaf()})'

    def expression(self, depth: int) -> str:
        if depth == 0:
            return self.leaf()
        kind, pick = self.random.random(), self.random.choice
        a, b = self.expression(depth - 1), self.expression(depth - 1)
        if kind < 0.25:
            return f'({pick(["uint32_t", "uint64_t"])})U({a}) {pick("+-*")} ({pick(["uint32_t", "uint64_t", "uint8_t"])})U({b})'.join('()')
        if kind < 0.35:
            return f'({self.whole(depth - 1)} {pick("+-*")} {self.whole(depth - 1)})'
        if kind < 0.45:
            return f'({a} {pick(["<", ">", "<=", ">=", "==", "!="])} {b})'
        if kind < 0.55:
            return f'(U({a}) {pick("&|^")} U({b}))'
        if kind < 0.62:
            return f'({self.whole(depth - 1)} {pick(["& 63 <<", ">>"])} {self.random.randint(0, 7)})'.replace('& 63 <<', ' % 8 + 7 <<')
        if kind < 0.68:
            return f'({self.whole(depth - 1)} {pick("/%")} {self.random.choice([1, 2, 3, 7, 255])})'
        if kind < 0.76:
            return f'({a} {pick(["<", ">", "<=", ">="])} {b} ? {pick([a, b])} : {pick([a, b])})'
        if kind < 0.82:
            return f'({self.expression(depth - 1)} {pick(["&&", "||"])} {b})'
        if kind < 0.9:
            return f'({pick(["!", "~U", "-(double)", "+", "-"])}({a}))' if self.random.random() < 0.6 else f'(-W({a}))'
        if kind < 0.96:
            return f'({a} ? {b} : {self.expression(depth - 1)})'
        return f'((double){a} {pick("+-*/")} (float){b})' if self.random.random() < 0.5 else f'h(LIMIT({a}), LIMIT({b}))'

    def text(self) -> str:
        pick = self.random.choice
        params = ', '.join([*(f'{ctype} {name}[{size}]' for name, ctype, size in self.arrays), f'{self.scalar} q', 'int64_t *r'])
        lines = ['#include <stdint.h>', '#define W(a) ((int)(int8_t)(int64_t)LIMIT(a))', '#define U(a) ((uint64_t)(int64_t)LIMIT(a))',
                 '/* Conversions of large floating numbers are undefined, so they are cut before. */',
                 '#define LIMIT(a) ((a) < -1000000 ? 0 : (a) > 1000000 ? 1 : (a) != (a) ? 2 : (a))',
                 f'static {pick(["int16_t", "uint32_t", "double"])} h({pick(["int32_t", "float"])} a, {pick(["int64_t", "double"])} b)',
                 '{', '    double c = LIMIT(a);', '    return LIMIT(c + LIMIT(b)) < 0 ? 3 : 4;', '}',
                 f'void f({params})', '{', '    *r &= 15;']
        for k in range(self.random.randint(2, 4)):
            ctype = pick(TYPES)
            lines.append(f'    {ctype} t{k} = ({ctype}){cut(ctype)}LIMIT({self.expression(2)});')
            self.locals.append(f't{k}')
        for name, ctype, size in self.arrays:
            if self.random.random() < 0.7:
                lines.append(f'    for (int i = 0; i < {size}; i += {pick([1, 2])})')
                lines.append(f'        {name}[i] = ({ctype}){cut(ctype)}LIMIT({self.expression(1)});')
        lines.append(f'    *r {pick(["^=", "|=", "+="])} W({self.expression(2)});')
        name, ctype, _ = self.arrays[-1]
        lines.append(f'    {name}[0] = ({ctype}){cut(ctype)}LIMIT({self.expression(2)});')
        return '\n'.join([*lines, '}']) + '\n'


class Random(unittest.TestCase):
    def test_functions(self) -> None:
        planned_ones = 0
        for seed in range(FUNCTIONS):
            with self.subTest(seed=seed), tempfile.TemporaryDirectory() as folder:
                file = Path(folder, 'f.c')
                file.write_text(Maker(seed).text(), encoding='utf-8')
                kernel = kernel_from_file(str(file), 'f', mad=seed % 2 == 0)
                slots = kernel.degree + 1 + seed % 3
                plan = plans.plan(kernel, slots, 0)
                graph = program.graph(kernel.text())
                self.assertTrue(plans.fits(kernel, graph))
                text = to_c(plan, name='f_planned')
                quiet = ['-w', '-ffp-contract=off']
                both = file.read_text(encoding='utf-8') + text
                self.assertEqual(differs(Path(folder), file, kernel, text, ['-O2', *quiet], {'': 300}, 200), '', both)
                self.assertEqual(differs(Path(folder), file, kernel, text, ['-O1', '-fsanitize=undefined', '-fno-sanitize-recover=all', *quiet],
                                         {'': 300}, 200), '', both)
                planned_ones += 1
        self.assertGreater(planned_ones, FUNCTIONS // 2)


if __name__ == '__main__':
    unittest.main()
