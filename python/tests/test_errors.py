"""Each message that a user can provoke, with its place."""
from __future__ import annotations

import contextlib
import io
import os
import tempfile
import unittest
from pathlib import Path
from typing import Any
from unittest import mock

from pebbletools import plans, program
from pebbletools.command_c import run as c
from pebbletools.command_study import run as study
from pebbletools.errors import KernelError, ProgramError, SourceError
from pebbletools.from_c import kernel_from_file
from pebbletools.kernels import Kernel
from pebbletools.to_c import to_c
from pebbletools.trace import kernel, maximum

HEAD = '#include <stdint.h>\n#include <math.h>\n'  # so the function stands in line 3

# a C text, and what its message has to hold
REFUSED = [
    ('void f(const int x[4], int y[4]) { for (int i = 0; i < x[0]; i++) y[i] = i; }', '3:52: a loop depends on data'),
    ('void f(const int x[4], int *y) { if (x[0] > 1) *y = 1; else *y = 2; }', '3:38: a branch depends on data: write the values as ternaries'),
    ('void f(const int x[4], int *y) { *y = x[x[0]]; }', ': an index of x depends on data'),
    ('void f(const int x[4], int *y) { *y = x[4]; }', '3:39: the index 4 of x is outside of 0 to 3'),
    ('void f(const int *x, int *y) { *y = x[1]; }', 'the index 1 of x is outside of 0 to 0; a pointer is one value, unless --size x=N says more'),
    ('void f(const int x[], int *y) { *y = x[1]; }', 'the array x has no size: write it (x[24]), or give it (--size x=24)'),
    ('void f(const int x[4], int *y) { while (x[0]) *y = 1; }', '3:41: a loop depends on data'),
    ('void f(int *y) { int i = 0; while (1) i++; *y = i; }', 'statements are executed: a loop does not end'),
    ('void f(int *y) { int t; *y = t + 1; }', 't is read before it has a value'),
    ('void f(int *y) { *y = g(1); }', 'g is neither written nor declared here'),
    ('int g(int);\nvoid f(int *y) { *y += g(*y); }',
     '4:24: the body of g is not here, and it may have effects: if it only computes, say so (--pure g)'),
    ('int seed;\nvoid f(int *y) { *y += seed; }', 'seed is a global that is not a constant with a value: make it a parameter'),
    ('void f(int *y) { static int n = 0; n++; *y = n; }', 'n is static and changes: make it a parameter'),
    ('void f(int a, int *y) { int *p = y; *p = a; }', 'pointers are taken as parameters alone'),
    ('struct s { int a; };\nvoid f(struct s v, int *y) { *y = v.a; }', 'structs and unions are not taken'),
    ('void f(long double a, int *y) { *y = a; }', 'the type long double is not one that is taken'),
    ('void f(int a, int *y) { switch (a) { case 1: *y = 1; } }', '3:25: switch is not taken'),
    ('void f(int a, int *y) { goto end; end: *y = a; }', '3:25: goto is not taken'),
    ('void f(int a, int b, int *y) { *y = b != 0 ? a / b : 0; }', '/ by a value is computed only if data say so'),
    ('void f(int a, int b, int *y) { int t = 0; *y = a ? (t = b) : 1; }', 't is set only if data say so'),
    ('void f(double a, int *y) { *y = a % 2; }', 'invalid operands to binary %'),
    ('void f(int a, int *y) { *y = a << 32; }', '<< by 32 is undefined for int32_t'),
    ('void f(int a, int *y) { *y = a / (2 - 2); }', '/ by zero'),
    ('void f(const int x[2], int *y) { x[0] = 1; *y = 1; }', 'read-only location'),
    ('int f(int a) { }', 'f ends without a result'),
    ('void f(int a) { a = 1; }', 'f writes no output'),
    ('static int r(int n) { return r(n); }\nvoid f(int *y) { *y = r(1); }', 'calls are more than 32 deep'),
    ('int g(int a, int b) { return a + b; }\nvoid f(int *y) { *y = g(1); }', 'too few arguments to function'),
    ('void f(int a, ...) { }', 'a kernel has no variable number of parameters'),
    ('void f(int a, int *y) { *y = a $ 2; }', "expected ';' before"),
    ('#error no\nvoid f(int *y) { *y = 1; }', '3:2: #error no'),
    ('void f(const int64_t a[9][9], const int64_t b[9][9], int64_t c[9][9]) { for (int i = 0; i < 9; i++) for (int j = 0; j < 9; j++) '
     'c[i][j] = a[i][j] * b[j][i] + 1; }',
     'f has 324 values (162 inputs: a 81, b 81; 162 operations; 0 constants), 68 more than the 256 that a plan can have: plan a tile'),
    ('double g(double, double, double, double);\nvoid f(const double x[4], double *y) { *y = g(x[0], x[1], x[2], x[3]); }',
     'the call of g reads more than three values'),
    (f'void f(int {"n" * 70}, int *y) {{ *y = {"n" * 70} + 1; }}', 'has more than 64 bytes'),
]


class Errors(unittest.TestCase):
    def kernel(self, text: str, **options: Any) -> Kernel:
        with tempfile.TemporaryDirectory() as folder:
            file = Path(folder, 'f.c')
            file.write_text(HEAD + text + '\n', encoding='utf-8')
            return kernel_from_file(str(file), 'f', **options)

    def test_c(self) -> None:
        for text, message in REFUSED:
            with self.subTest(text):
                with self.assertRaises((SourceError, KernelError)) as caught:
                    self.kernel(text, pure=['g'] if 'four' in text or text.startswith('double g') else [])
                self.assertIn(message, str(caught.exception))

    def test_what_is_taken_with_options(self) -> None:
        self.assertEqual(self.kernel('void f(const int *x, int *y) { *y = x[1] + x[2]; }', sizes={'x': 3}).vertices, 3)
        self.assertEqual(self.kernel('int g(int);\nvoid f(int *y) { *y += g(*y); }', pure=['g']).vertices, 3)
        with self.assertRaisesRegex(SourceError, '--size names z, which is not a parameter'):
            self.kernel('void f(int *y) { *y = 1; }', sizes={'z': 3})
        with self.assertRaisesRegex(SourceError, 'there is no function h; there is f'):
            with tempfile.TemporaryDirectory() as folder:
                Path(folder, 'f.c').write_text('void f(int *y) { *y = 1; }', encoding='utf-8')
                kernel_from_file(os.path.join(folder, 'f.c'), 'h')

    def test_too_many_of_the_same_three(self) -> None:
        calls = '\n'.join(f'int g{k}(int, int, int);' for k in range(13))
        body = ' '.join(f'y[{k}] = g{k}(a, b, c);' for k in range(13))
        with self.assertRaisesRegex(SourceError, r'f.c:16:\d+: more than twelve different operations read the same three values'):
            self.kernel(f'{calls}\nvoid f(int a, int b, int c, int y[13]) {{ {body} }}', pure=[f'g{k}' for k in range(13)])
        twelve = self.kernel(f'{calls}\nvoid f(int a, int b, int c, int y[13]) {{ {body.replace("y[12] = g12(a, b, c);", "")} }}',
                             pure=[f'g{k}' for k in range(13)])
        self.assertEqual(len(set(twelve.forms)), 12)

    def test_program(self) -> None:
        made = self.kernel('void f(int64_t a, int64_t b, int64_t *y) { *y = a * b; }')
        with self.assertRaisesRegex(ProgramError, 'f needs 3 slots at least'):
            plans.plan(made, 2)
        with self.assertRaisesRegex(ProgramError, 'usage: pebble plan') as caught:
            plans.plan(made, 65)
        self.assertEqual(caught.exception.status, 2)
        with self.assertRaisesRegex(ProgramError, 'kernel fault K4 at 22') as caught:
            program.graph('kernel a { out y; y = z; }')
        self.assertEqual(caught.exception.status, 3)
        with self.assertRaisesRegex(ProgramError, 'values fault'):
            program.run(made, [1])
        with self.assertRaisesRegex(ProgramError, 'its text is a graph only'):
            program.run(self.kernel('void f(int a, int *y) { *y = a >> 1; }'), [1])
        with mock.patch.dict(os.environ, {'PEBBLE_PROGRAM': '/nowhere/pebble'}):
            with self.assertRaisesRegex(ProgramError, 'PEBBLE_PROGRAM names /nowhere/pebble'):
                program.find_program()

    def test_code_of_another_kernel(self) -> None:
        one = self.kernel('void f(int64_t a, int64_t b, int64_t *y) { *y = a * b; }')
        other = self.kernel('void f(int64_t a, int64_t b, int64_t *y) { *y = a + b; }')
        text = plans.plan(one, 3, 0).text
        with self.assertRaisesRegex(ProgramError, r'instruction 2 of the code \(mul\) belongs to no vertex'):
            plans.read_plan(other, text)

    def test_an_array_of_slots_has_one_type(self) -> None:
        made = self.kernel('void f(int a, double b, double *y) { *y = (a << 1) * b; }')
        with self.assertRaisesRegex(KernelError, 'an array of slots has one type'):
            to_c(plans.plan(made, 3, 0), slots='pad')

    def test_python(self) -> None:
        @kernel(x=4)
        def branch(x: Any) -> Any:
            return x[0] if x[0] > x[1] else x[1]

        @kernel(x=4)
        def index(x: Any) -> Any:
            return [1, 2, 3][x[0]]

        @kernel(x=4)
        def floor(x: Any) -> Any:
            return x[0] // 2

        @kernel(x=4)
        def builtin(x: Any) -> Any:
            return max(x)

        @kernel(x=4)
        def text(x: Any) -> Any:
            return x[0] + 'a'

        @kernel(x=4)
        def twice(x: Any) -> Any:
            return {'x': x[0] + 1}

        for traced, message in ((branch, 'a branch depends on a value'), (index, 'an index or a bound depends on a value'),
                                (floor, 'write /'), (builtin, 'use select'), (text, 'is no number of a kernel'),
                                (twice, 'x is an input and an output')):
            with self.subTest(message):
                with self.assertRaisesRegex(SourceError, f'(test_errors.py:\\d+|twice): .*{message}'):
                    traced.kernel()
        with self.assertRaisesRegex(SourceError, 'only while a kernel is traced'):
            maximum(1, 2)

    def test_command_line(self) -> None:
        said = io.StringIO()
        with tempfile.TemporaryDirectory() as folder, contextlib.redirect_stderr(said):
            file = os.path.join(folder, 'f.c')
            Path(file).write_text('int f(int a) { return a >> 1; }\nint g(int a) { return a; }\n', encoding='utf-8')
            self.assertEqual(c([file, '--kernel']), 1)
            self.assertEqual(c([file, 'f', '--size', 'x']), 1)
            self.assertEqual(study([os.path.join(folder, 'no.c')]), 1)
            self.assertEqual(study([f'{file}:f', '--slots', 'x', '--folder', folder]), 1)
            self.assertEqual(study([f'{file}:f', '--weights', 'x', '--folder', folder]), 1)
            self.assertEqual(study([f'{file}:f', '--slots', '1', '--folder', folder]), 1)
            Path(folder, 'a.py').write_text('', encoding='utf-8')
            self.assertEqual(c([os.path.join(folder, 'a.py')]), 1)
        for message in ('name one of its functions: f, g', 'write --size NAME=NUMBER', 'there is no file', '--slots x: write 4:12',
                        '--weights x: write LOAD:STORE', 'no kernel can be planned with 1 slots', 'it declares no kernel'):
            self.assertIn(message, said.getvalue())


if __name__ == '__main__':
    unittest.main()
