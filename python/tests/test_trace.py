"""Kernels from Python functions."""
from __future__ import annotations

import unittest
from typing import Any

from pebbletools import plans, program
from pebbletools.trace import call, kernel, maximum, select
from pebbletools.to_c import to_c


@kernel(x=24, h=5, output='y')
def fir(x: Any, h: Any) -> Any:
    return [sum(h[k] * x[i + k] for k in range(5)) + (1 << 14) >> 15 for i in range(20)]


@kernel(a=(2, 3), b=(3, 2), output='c')
def product(a: Any, b: Any) -> Any:
    return [[sum(a[i][k] * b[k][j] for k in range(3)) for j in range(2)] for i in range(2)]


@kernel(x=(4, 'double'), n=(), prelude='#include <math.h>')
def mixed(x: Any, n: Any) -> Any:
    return {'norm': call('sqrt', 'double', x[0] * x[0] + x[1] * x[1]), 'top': maximum(maximum(x[0], x[1]), x[2]),
            'which': select(n & 1, n / 2, 3 * n + 1).named('collatz')}


class Trace(unittest.TestCase):
    def test_fir(self) -> None:
        made = fir.kernel(mad=True)
        self.assertEqual((made.vertices, len(made.inputs), made.native), (29 + 20 * 7, 29, False))
        text = to_c(plans.plan(made, 8, 0))
        self.assertIn('void fir(const int64_t x[24], const int64_t h[5], int64_t y[20])', text)
        self.assertRegex(text, r'y\[0\] = v\d+ >> 15, test_trace.py:14')

    def test_product_is_native(self) -> None:
        made = product.kernel()
        self.assertTrue(made.native)
        values = program.run(made, [1, 2, 3, 4, 5, 6, 7, 8, 9, 10, 11, 12])
        self.assertEqual(values, {'c[0][0]': 58, 'c[0][1]': 64, 'c[1][0]': 139, 'c[1][1]': 154})

    def test_types(self) -> None:
        made = mixed.kernel()
        self.assertEqual({param.name: str(param.type) for param in made.params},
                         {'x': 'double', 'n': 'int64_t', 'norm': 'double', 'top': 'double', 'which': 'int64_t'})
        text = to_c(plans.plan(made, 4, 20))
        self.assertIn('#include <math.h>', text)
        self.assertIn('s0_d', text)


if __name__ == '__main__':
    unittest.main()
