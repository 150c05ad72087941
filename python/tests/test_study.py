"""Studies: jobs, resuming, rows, tables and pictures."""
from __future__ import annotations

import contextlib
import csv
import io
import os
import shutil
import subprocess
import tempfile
import unittest
from pathlib import Path
from unittest import mock

from pebbletools import pictures, plans, program, study
from pebbletools.command_study import parser, run
from pebbletools.errors import ProgramError
from pebbletools.from_c import kernel_from_file

KERNELS = Path(__file__).parent / 'kernels'


@unittest.skipUnless(shutil.which('parallel'), 'GNU parallel is not here')
class Studies(unittest.TestCase):
    def setUp(self) -> None:
        holder = tempfile.TemporaryDirectory()
        self.addCleanup(holder.cleanup)
        self.folder = holder.name

    def do(self, *words: str) -> str:
        said = io.StringIO()
        with contextlib.redirect_stdout(said):
            self.assertEqual(run([*words, '--folder', os.path.join(self.folder, 'f'), '--jobs', '1']), 0)
        return said.getvalue()

    def test_rows_and_resuming(self) -> None:
        words = [str(KERNELS / 'bitonic.c'), str(KERNELS / 'mixcolumns.c'), '--budget', '0', '--weights', '1:1', '--weights', '2:1', '--csv', '-']
        rows = list(csv.DictReader(io.StringIO(self.do(*words, '--slots', '+1'))))
        self.assertEqual([(row['kernel'], row['slots'], row['load']) for row in rows],
                         [('bitonic', slots, load) for load in '12' for slots in '34']
                         + [('mixcolumns', slots, load) for load in '12' for slots in '34'])
        log = Path(self.folder, 'f', 'joblog').read_text(encoding='utf-8')
        self.assertEqual(len(log.splitlines()), 9)
        self.do(*words, '--slots', '+1')
        self.assertEqual(Path(self.folder, 'f', 'joblog').read_text(encoding='utf-8'), log)  # nothing was done again
        more = list(csv.DictReader(io.StringIO(self.do(*words, '--slots', '+2'))))
        self.assertEqual(len(more), 12)
        self.assertEqual(len(Path(self.folder, 'f', 'joblog').read_text(encoding='utf-8').splitlines()), 13)
        self.assertEqual([row for row in more if row['slots'] != '5'], rows)

    def test_compare_and_pictures(self) -> None:
        source = (KERNELS / 'gemm.c').read_text(encoding='utf-8')
        blocked = source.replace('for (int i = 0; i < N; i++)\n        for (int j = 0; j < N; j++)\n            for (int k = 0; k < N; k++)\n',
                                 'for (int b = 0; b < N; b += 2) for (int k = 0; k < N; k++) for (int i = 0; i < N; i++)\n'
                                 '        for (int j = b; j < b + 2; j++)\n')
        self.assertNotEqual(source, blocked)
        other = Path(self.folder, 'blocked.c')
        other.write_text(blocked, encoding='utf-8')
        for file in ('p.svg', 'p.png'):
            picture = os.path.join(self.folder, file)
            said = self.do(str(KERNELS / 'gemm.c'), str(other), '--mad', '--slots', '8,12', '--budget', '0', '--compare', '--plot', picture)
            self.assertRegex(said, r'(?m)^slots +gemm +blocked$')
            self.assertRegex(said, r'(?m)^    8 +108 >= 64 +\d+ >= 64 \(\d+%\)$')
            self.assertGreater(os.path.getsize(picture), 1000)

    @unittest.skipUnless(shutil.which('rsync'), 'rsync is not here')
    def test_another_machine(self) -> None:
        """The words for parallel's --sshlogin are right: a script stands for ssh, and another folder for the other machine."""
        there = Path(self.folder, 'there')
        there.mkdir()
        ssh = Path(self.folder, 'ssh')
        ssh.write_text('#!/bin/bash\nwhile [ "${1#-}" != "$1" ]; do [ "$1" = -l ] && shift; shift; done\nshift\n[ "$1" = -- ] && shift\n'
                       f'cd {there} && exec bash -c "$*"\n', encoding='utf-8')
        ssh.chmod(0o755)
        with mock.patch.dict(os.environ, {'PARALLEL_SSH': str(ssh)}):
            os.environ.pop('SHELL', None)  # as in a bare environment
            said = self.do(str(KERNELS / 'bitonic.c'), '--slots', '4', '--budget', '0', '--sshlogin', '1/elsewhere', '--csv', '-')
        row = list(csv.DictReader(io.StringIO(said)))[0]
        self.assertEqual((row['cost'], row['host']), ('80', 'elsewhere'))
        self.assertEqual(list(there.rglob('*.kernel')), [])  # cleaned up

    @unittest.skipUnless(shutil.which('gnuplot'), 'gnuplot is not here')
    def test_picture_by_gnuplot(self) -> None:
        rows = [study.Row('k', 9, 2, 2, slots, 1, 1, 'budget 0', 9, 20 - slots, 4, 'Open', 0, '0.1', ':') for slots in range(3, 7)]
        picture = os.path.join(self.folder, 'q.svg')
        with mock.patch('importlib.util.find_spec', return_value=None):
            pictures.plot(study.series_of(rows), picture)
        self.assertIn('<svg', Path(picture).read_text(encoding='utf-8'))

    def test_a_batch_system(self) -> None:
        """Each line of --list is a command that stands alone; --collect takes what they have done."""
        words = [str(KERNELS / 'bitonic.c'), '--slots', '4,5', '--budget', '0']
        lines = self.do(*words, '--list').splitlines()
        self.assertEqual(len(lines), 2)
        for line in lines:
            self.assertEqual(subprocess.run(['sh', '-c', line], cwd='/', check=False).returncode, 0)
        self.assertEqual(self.do(*words, '--list').strip(), '')
        rows = list(csv.DictReader(io.StringIO(self.do(*words, '--collect', '--csv', '-'))))
        self.assertEqual([(row['slots'], row['cost']) for row in rows], [('4', '80'), ('5', '66')])

    def test_efforts(self) -> None:
        """With a program that answers the word improve, efforts are studied, and a plan is made by it if no budget is given."""
        improve = Path(self.folder, 'improve')
        improve.write_text('#!/bin/sh\n[ "$1" = improve ] || exit 2\nshift\n' + f'exec {program.find_program()} plan "$1" "$2" 0 ${{4:-1}} ${{5:-1}}'
                           ' | sed "s/^; budget 0/; effort $3/"\n', encoding='utf-8')
        improve.chmod(0o755)
        with mock.patch.dict(os.environ, {'PEBBLE_IMPROVE': str(improve)}):
            words = [str(KERNELS / 'bitonic.c'), '--slots', '4', '--effort', '3', '--budget', '0', '--csv', '-']
            rows = list(csv.DictReader(io.StringIO(self.do(*words))))
            self.assertEqual([(row['search'], row['cost']) for row in rows], [('budget 0', '80'), ('effort 3', '80')])
            plan = plans.plan(kernel_from_file(str(KERNELS / 'bitonic.c')), 4)
            self.assertEqual((plan.report.effort, plan.cost), (20, 80))
        with mock.patch.dict(os.environ, {'PEBBLE_IMPROVE': '/nowhere'}):
            with self.assertRaisesRegex(ProgramError, 'PEBBLE_IMPROVE names /nowhere'):
                program.find_improver()

    def test_slots(self) -> None:
        self.assertEqual(study.slots_of('+2', 3), [4, 5, 6])
        self.assertEqual(study.slots_of('2:5', 3), [4, 5])
        self.assertEqual(study.slots_of('2,9,70', 3), [9])

    def test_a_python_file_and_a_kernel_text(self) -> None:
        Path(self.folder, 'mine.kernel').write_text('kernel k { in a; in b; out y; y = a * b; }', encoding='utf-8')
        declared = 'from pebbletools.trace import kernel\n\n\n@kernel(x=3)\ndef total(x):\n    return sum(x)\n'
        Path(self.folder, 't.py').write_text(declared, encoding='utf-8')
        found = study.subjects(parser().parse_args([os.path.join(self.folder, 'mine.kernel'), os.path.join(self.folder, 't.py')]))
        self.assertEqual([(subject.name, subject.degree) for subject in found], [('mine', 2), ('total', 2)])


if __name__ == '__main__':
    unittest.main()
