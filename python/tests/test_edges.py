"""Small functions at the edges: nothing to compute, constants, copies, one slot, types that meet in a slot, stores that are delayed."""
from __future__ import annotations

import contextlib
import io
import tempfile
import unittest
from pathlib import Path

from pebbletools import plans, program
from pebbletools.command_c import run as main
from pebbletools.from_c import kernel_from_file
from pebbletools.to_c import KEEPS, to_c
from tests.harness import LONG, differs

KERNELS = Path(__file__).parent / 'kernels'
HEAD = '#include <stdint.h>\n#include <math.h>\n'

# a function f, its number of values, and whether the kernel is native
EDGES = [
    ('void f(int64_t y[2], const int64_t x[2]) { y[0] = x[1]; y[1] = x[1]; }', 1, True),
    ('void f(double x[2], float y[2]) { double t = x[0]; x[0] = x[1]; x[1] = t; y[0] = y[1]; }', 3, False),
    ('void f(int64_t y[4]) { y[0] = 5; y[1] = 5; y[2] = -1; y[3] = INT64_MIN; }', 4, True),
    ('void f(int64_t *y, double *z, uint8_t *w) { *y = 5; *z = 5; *w = 5; }', 3, False),
    ('int64_t f(void) { return 7 * 6; }', 1, True),
    ('double f(double x) { return x; }', 1, False),
    ('int f(int64_t x) { return x; }', 2, False),
    ('int64_t f(int64_t a, uint64_t b) { return (a + (int64_t)b) ^ (int64_t)((uint64_t)a + b); }', 5, False),  # two sums of one form
    ('int64_t f(int32_t a, int16_t b, uint8_t c) { return (int64_t)a * b - (int64_t)c; }', 5, True),  # widened on the way
    ('double f(double a, double b) { return (a + 0.0) + (b + -0.0) + a * 1.0; }', 7, False),  # not one of these is nothing
    ('int64_t f(int64_t a) { return (a + 0) * 1 | 0; }', 1, True),
    ('float f(float a, double b) { float t = a * b; return t + (float)b + sqrtf(a * a); }', 7, False),
    ('double f(double a) { return a * sqrt(2.0) + 1.0 / 3.0 + fabs(-1e300 * 1e10); }', 4, False),  # constant text
    ('int f(int a, int b) { return (a < b ? a : b) + (b <= a ? a : b) - (a > b ? b : a); }', 6, False),  # the two smaller ones are one
    ('double f(double a, double b) { return (a < b ? a : b) - (a <= b ? a : b); }', 5, False),  # and here they are not
    ('int64_t f(int64_t a, int64_t b) { return a > b ? a - b : b - a; }', 6, False),
    ('int f(int a, int b) { return (a && b) + (a || b) + !a + (a ? 3 : 4); }', 9, False),
    ('unsigned f(unsigned a, int n) { return (a << (n & 31)) | (a >> (-n & 31)); }', 8, False),
    ('void f(int64_t *s, int32_t *n) { int64_t t = *s * 3; *n = t; *s = t + *n; }', 4, False),  # a narrowed value that others read wide
    ('void f(int8_t x[3]) { for (int i = 0; i < 3; i++) x[i] = x[i] * x[(i + 1) % 3] + x[(i + 2) % 3]; }', 9, False),
    ('void f(uint8_t x[2], float *y) { x[0] = (x[0] * x[1]) >> 3; x[1] = (uint8_t)(x[0] + x[1]) - x[0]; *y = (int)(*y * 0.5); }', 8, False),
    ('_Bool f(int a, double b) { return a + (_Bool)b; }', 3, False),
    ('float f(const float x[2][2]) { float t[2] = {x[0][0]}; t[1] += x[1][1]; const int k[][2] = {{1, 2}, {3}}; '
     'return t[0] * k[1][0] - t[1] * k[1][1]; }', 6, False),
    ('int f(const int *p, int n) { int i = 0, s = 0; do { s += *p << i; } while (++i < 3); return s += n, s ^ (int)sizeof(p[0]); }', 8, False),
]


class Edges(unittest.TestCase):
    def test_edges(self) -> None:
        for text, vertices, native in EDGES:
            for slots in (0, 4) if LONG else (0,):
                with self.subTest(text, slots=slots), tempfile.TemporaryDirectory() as folder:
                    file = Path(folder, 'f.c')
                    file.write_text(HEAD + text + '\n', encoding='utf-8')
                    kernel = kernel_from_file(str(file), 'f')
                    self.assertEqual((kernel.vertices, kernel.native), (vertices, native), kernel.text())
                    graph = program.graph(kernel.text())
                    self.assertTrue(plans.fits(kernel, graph))
                    plan = plans.plan(kernel, kernel.degree + 1 + slots, 50)
                    for keep in KEEPS if LONG else KEEPS[:1]:
                        text_of = to_c(plan, name='f_planned', keep=keep)
                        self.assertEqual(differs(Path(folder), file, kernel, text_of, ['-O2'], {'': 100}), '', text_of)

    def test_a_difference_is_found(self) -> None:
        """The comparison of --test sees a wrong constant, a result that differs and C that cannot be compiled."""
        source = KERNELS / 'mixcolumns.c'
        kernel = kernel_from_file(str(source), 'mixcolumns')
        good = to_c(plans.plan(kernel, 8, 0), name='mixcolumns_planned')
        self.assertIn('* 27;', good)
        for text, expected in ((good.replace('* 27;', '* 26;', 1), ' in run '), (good.replace('STORE(', 'STORE((', 1), 'error'), ('', 'undefined')):
            with tempfile.TemporaryDirectory() as folder:
                self.assertIn(expected, differs(Path(folder), source, kernel, text, ['-O1'], {'': 0}))

    def test_command_line(self) -> None:
        """`c`, `remarks` and `kernel` write their files."""
        source = str(KERNELS / 'bitonic.c')
        with tempfile.TemporaryDirectory() as folder:
            out = str(Path(folder, 'out'))
            plan = ['-S', '5', '--budget', '0']
            with contextlib.redirect_stderr(io.StringIO()) as said:
                self.assertEqual(main([source, *plan, '-o', out, '--name', 'sorted', '--slots-array', 'pad', '--keep', 'volatile']), 0)
            self.assertIn('v: 8 stores', said.getvalue())
            text = Path(out).read_text(encoding='utf-8')
            self.assertIn(' * declare before: int32_t pad[5]; */', text)
            self.assertIn('void sorted(int32_t v[8])', text)
            self.assertEqual(main([source, 'bitonic', *plan, '--remarks', '-o', out, '--load', '2', '--store', '3']), 0)
            self.assertRegex(Path(out).read_text(encoding='utf-8'), r'^bitonic: 5 slots, cost \d+, bound \d+, verdict Open\nv: 8 loads, \d+ again')
            page = str(Path(folder, 'page.html'))
            with contextlib.redirect_stderr(io.StringIO()) as said:
                self.assertEqual(main([source, *plan, '-o', out, '--test', '100', '--range', '0', '--html', page]), 0)
            self.assertIn('bitonic: equal to the original on 100 random inputs, bit for bit', said.getvalue())
            self.assertIn('<title>bitonic: 5 slots, cost 66</title>', Path(page).read_text(encoding='utf-8')[:600])
            self.assertEqual(main([source, '--kernel', '-o', out]), 0)
            self.assertEqual(len(program.graph(Path(out).read_text(encoding='utf-8')).vertices), 56)


if __name__ == '__main__':
    unittest.main()
