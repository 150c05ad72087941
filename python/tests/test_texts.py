"""The readers of what the planner prints, which the scripts of tools/ share."""
from __future__ import annotations

import subprocess
import sys
import tempfile
import unittest
from pathlib import Path

from pebbletools import program, texts

TOOLS = Path(__file__).resolve().parents[2] / 'tools'
KERNEL = 'kernel k { in a; in b; out y[2]; tmp t; t = a * b; y[0] = t + a; t = t - b; t = -t; y[1] = t * 3; }\n'
CODE = 'slots 3\nwords 3\nin a\nin b\nout y 2\nload 0 0\nload 1 1\nmul 2 s0 #-7\nstore 2 2\nend\n'
WRONG = ['', 'slots 3\n', CODE[:-1], CODE.replace('slots 3', 'slots 65'), CODE.replace('s0', 's3'), CODE.replace('#-7', '#-07'), CODE.replace('mul', 'div'),
         CODE.replace('out y 2', 'out y 3'), CODE.replace('end', 'load 0 0'), CODE.replace('load 0 0', 'load 0'), CODE.replace('#-7', '#9223372036854775808'),
         CODE.replace('in b', 'load 1 1\nin b'), CODE.replace('words 3', 'words 1'), 'kernel fault K4 at 3\n', 'too small needs 3\n']


class Texts(unittest.TestCase):
    def test_codes(self) -> None:
        code = texts.read_code('; a comment\n' + CODE)
        self.assertEqual((code.slots, code.words, code.inputs, code.outputs), (3, 3, ['a', 'b'], [('y', 2)]))
        self.assertEqual([instruction.text() for instruction in code.instructions], CODE.splitlines()[5:-1])
        for text in WRONG:
            with self.subTest(text), self.assertRaises(texts.TextError):
                texts.read_code(text)

    def test_graphs(self) -> None:
        graph = program.graph(KERNEL)
        self.assertEqual((graph.inputs, graph.outputs), (['a', 'b'], [('y[0]', 3), ('y[1]', 6)]))
        self.assertEqual(graph.live(), set(range(7)))
        with self.assertRaises(texts.TextError):
            texts.read_graph('vertices 2\n0 in a\n')

    def test_names_of_orders(self) -> None:
        names = texts.order_names(program.graph(KERNEL))
        self.assertEqual((names['y[0]'], names['y[1]'], names['y[0].1'], names['v2']), (3, 6, 3, 2))
        self.assertEqual([names[f'y[1].{k}'] for k in (1, 2, 3)], [4, 5, 6])
        self.assertNotIn('v0', names)

    @unittest.skipUnless((TOOLS / 'play').is_file(), 'this is no checkout')
    def test_scripts(self) -> None:
        """An order by names is the order by numbers, and a picture names its values."""
        _, printed = program.ask(['graph'], KERNEL)
        made = []
        for order in ('2 3 4 5 6', 'v2 y[0] y[1].1 y[1].2 y[1]'):
            with tempfile.TemporaryDirectory() as folder:
                file = Path(folder, 'order')
                file.write_text(order, encoding='utf-8')
                done = subprocess.run([sys.executable, str(TOOLS / 'play'), 'schedule', '3', str(file)], input=printed, stdout=subprocess.PIPE,
                                      encoding='utf-8', check=True)
            made.append(done.stdout)
        self.assertEqual(made[0], made[1])
        self.assertIn('compute 6', made[0])
        done = subprocess.run([sys.executable, str(TOOLS / 'draw'), 'plan'], input=CODE.replace('store 2 2', 'store 2 2\nload 1 0\nload 1 0'),
                              stdout=subprocess.PIPE, encoding='utf-8', check=True)
        for expected in ('>y</text>', '>a</text>', 'loaded most: a 3 times'):
            self.assertIn(expected, done.stdout)


if __name__ == '__main__':
    unittest.main()
