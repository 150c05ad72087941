"""From C to planned C: the graph has the expected vertices, and what is compiled gives the same bits as the original."""
from __future__ import annotations

import functools
import platform
import shutil
import subprocess
import tempfile
import unittest
from pathlib import Path
from typing import Sequence

from pebbletools import plans, program
from pebbletools.from_c import kernel_from_file
from pebbletools.kernels import Kernel
from pebbletools.plans import Plan
from pebbletools.to_c import remarks, to_c
from tests.harness import LONG, differs

KERNELS = Path(__file__).parent / 'kernels'
O2, SANITIZED = ['-O2'], ['-O1', '-fsanitize=undefined', '-fno-sanitize-recover=all']
BUDGET = 20

# name: (mad, vertices, inputs, native, ranges of the random inputs: 0 is all of the type)
EXPECTED = {
    'fir': (True, 149, 29, False, {'': 10000}), 'gemm': (True, 112, 48, True, {'': 1000000}), 'conv': (True, 151, 34, False, {'x': 0, 'w': 256}),
    'dct8': (True, 59, 8, False, {'': 100000}), 'crc32': (False, 171, 5, False, {'': 0}), 'mixcolumns': (False, 48, 8, False, {'': 0}),
    'sw': (False, 134, 30, False, {'t': 2, 'q': 2}), 'heat': (True, 133, 37, False, {'': 10}), 'ddot': (True, 63, 24, False, {'': 10}),
    'wrap': (False, 120, 8, False, {'': 0}), 'biquad': (True, 115, 19, False, {'': 2}), 'bitonic': (False, 56, 8, False, {'': 0}),
    'rotate': (False, 16, 4, False, {'': 100}), 'reverse': (False, 39, 8, True, {'': 1000}),
    'names': (False, 25, 11, True, {'': 1000}),
    'iir': (True, 121, 17, False, {'coeff': 8000, '': 0}), 'sobel5': (True, 122, 30, False, {'': 0}), 'inverse4': (False, 166, 16, False, {'': 10}),
    'sha256': (False, 161, 12, False, {'': 0}), 'poly1305': (True, 81, 14, False, {'h': 1 << 25, 'r': 1 << 25, 'm': 0}),
    'goertzel': (True, 70, 17, False, {'': 2}), 'bilinear': (True, 58, 18, False, {'': 0}), 'stencil3d': (True, 76, 34, False, {'': 100}),
    'viterbi': (False, 63, 13, False, {'': 0}), 'ycbcr': (True, 100, 12, False, {'': 0}),
}
SIZES = {'iir': {'in': 8, 'out': 8}, 'bilinear': {'out': 4}}


@functools.lru_cache(maxsize=None)
def kernel_of(name: str) -> Kernel:
    return kernel_from_file(str(KERNELS / f'{name}.c'), name, mad=EXPECTED[name][0], sizes=SIZES.get(name))


@functools.lru_cache(maxsize=None)
def plan_of(name: str, slots: int) -> Plan:
    return plans.plan(kernel_of(name), slots, BUDGET)


def slots_of(name: str) -> tuple:
    return kernel_of(name).degree + 1, kernel_of(name).degree + 6


class CToC(unittest.TestCase):
    maxDiff = None

    def test_sizes(self) -> None:
        found = {name: (EXPECTED[name][0], k.vertices, len(k.inputs), k.native, EXPECTED[name][4]) for name in EXPECTED for k in [kernel_of(name)]}
        self.assertEqual(found, EXPECTED)

    def test_graphs(self) -> None:
        """The planner sees exactly the vertices and predecessors that are wanted, and no two operations have one form."""
        for name in EXPECTED:
            with self.subTest(name):
                kernel = kernel_of(name)
                graph = program.graph(kernel.text())
                self.assertTrue(plans.fits(kernel, graph))
                forms = [form for form in kernel.forms if form.word != 'set']
                self.assertEqual(len(forms), len(set(forms)))

    def compare(self, flags: list, names: Sequence[str] = (), **options: str) -> None:
        """All kernels with two numbers of slots; in the short run these kernels with the first."""
        for name in EXPECTED if LONG or not names else names:
            for slots in slots_of(name)[:2 if LONG else 1]:
                with self.subTest(name, slots=slots, **options), tempfile.TemporaryDirectory() as folder:
                    planned = to_c(plan_of(name, slots), name=f'{name}_planned', **options)
                    self.assertEqual(differs(Path(folder), KERNELS / f'{name}.c', kernel_of(name), planned, flags, EXPECTED[name][4]), '')

    def test_equal(self) -> None:
        self.compare(O2)

    def test_equal_sanitized(self) -> None:
        self.compare(SANITIZED, ['wrap', 'biquad', 'crc32'])

    def test_equal_volatile(self) -> None:
        self.compare(O2, ['fir', 'rotate', 'names'], keep='volatile')

    def test_equal_barrier(self) -> None:
        self.compare(O2, ['biquad', 'ddot', 'reverse'], keep='barrier')

    def test_equal_in_an_array_of_slots(self) -> None:
        for name in ('fir', 'gemm', 'bitonic', 'biquad')[:4 if LONG else 1]:
            with self.subTest(name), tempfile.TemporaryDirectory() as folder:
                slots = slots_of(name)[1]
                kernel = kernel_of(name)
                declared = f'#include <stdint.h>\nstatic {kernel.operations[0].type} pad[{slots}];\n'
                planned = declared + to_c(plan_of(name, slots), slots='pad', name=f'{name}_planned')
                self.assertEqual(differs(Path(folder), KERNELS / f'{name}.c', kernel, planned, O2, EXPECTED[name][4]), '')

    @unittest.skipUnless(platform.machine() == 'x86_64' and shutil.which('objdump'), 'this counts instructions of x86-64')
    def test_volatile_transfers_are_the_instructions(self) -> None:
        """With --keep volatile and barrier, the instructions that touch memory are exactly the plan's transfers."""
        for keep in ('volatile', 'barrier'):
            with tempfile.TemporaryDirectory() as folder:
                plan = plan_of('fir', 9)
                Path(folder, 'f.c').write_text(to_c(plan, keep=keep), encoding='utf-8')
                subprocess.run(['gcc', '-O2', '-c', 'f.c'], cwd=folder, check=True)
                listed = subprocess.run(['objdump', '-d', '--no-show-raw-insn', 'f.o'], cwd=folder, check=True, stdout=subprocess.PIPE,
                                        encoding='utf-8')
                touching = [line for line in listed.stdout.splitlines() if '(%r' in line and 'lea' not in line and 'nop' not in line]
                self.assertEqual(len(touching), plan.report.cost)

    def test_a_code_that_is_given(self) -> None:
        """A code of the same kernel, as `tidy` prints it, is taken in place of a plan."""
        kernel, plan = kernel_of('dct8'), plan_of('dct8', 8)
        bare = '\n'.join(line for line in plan.text.splitlines() if not line.startswith(';')) + '\n'
        given = plans.adopt(kernel, '; play 8\n' + bare)
        self.assertEqual((given.report.cost, given.steps), (plan.report.cost, plan.steps))
        self.assertIn('by a code that was given', to_c(given))
        for text in ('', 'kernel fault K4 at 28\n', 'slots 8\nwords 2\nend', bare.replace('mul ', 'xor '), bare.replace('load 0 0', 'load 0')):
            with self.assertRaises(program.ProgramError):
                plans.adopt(kernel, text)

    def test_own_macros(self) -> None:
        """A user's LOAD and STORE count the transfers of the plan: exactly its cost, and what the header owns up to."""
        for name in EXPECTED if LONG else ('mixcolumns', 'names', 'rotate'):
            with self.subTest(name), tempfile.TemporaryDirectory() as folder:
                plan = plan_of(name, slots_of(name)[0])
                text = to_c(plan, name=f'{name}_planned')
                extra = text.count('\n    STORE(') + text.count('\n    LOAD(') - plan.report.cost
                self.assertEqual(f'beyond the cost: {extra} store' in text if extra else ' of outputs that hold' not in text, True)
                counting = '#define LOAD(s, w) ((s) = (w), moved++)\n#define STORE(w, s) ((w) = (s), moved++)\nint moved;\n' + text
                self.assertEqual(differs(Path(folder), KERNELS / f'{name}.c', kernel_of(name), counting, O2, EXPECTED[name][4], 10), '')

    def test_remarks(self) -> None:
        plan = plan_of('fir', 8)
        said = remarks(plan)
        self.assertRegex(said[0], r'^x: 24 loads, \d+ again')
        self.assertRegex(said[1], r'^h: 5 loads, \d+ again; most h\[\d\], \d+ times$')

    def test_native_numbers(self) -> None:
        """Where the kernel is native, the planner's own run gives its numbers."""
        values = program.run(kernel_of('reverse'), [3, -1, 4, 1, -5, 9, 2, -6])
        old, run, x = [3, -1, 4, 1, -5, 9, 2, -6], 1, []
        for value in old:
            run = run * 3 + value
            x.append(run)
        for i in range(8):
            x[7 - i] ^= old[i] + old[(i + 3) % 8]
        self.assertEqual(list(values.values()), x)


if __name__ == '__main__':
    unittest.main()
