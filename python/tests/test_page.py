"""The page of a plan: it stands alone, each reload and each spill has its reason, and a browser builds it without an error."""
from __future__ import annotations

import json
import re
import shutil
import subprocess
import tempfile
import unittest
from pathlib import Path
from typing import Any, Dict, Tuple

from pebbletools import plans
from pebbletools.from_c import kernel_from_file
from pebbletools.page import page, reasons, stays_of
from pebbletools.plans import Plan
from tests.harness import LONG

KERNELS = Path(__file__).parent / 'kernels'
CHOSEN = (('fir', 8, True), ('sha256', 6, False), ('rotate', 4, False))
BROWSER = shutil.which('chromium') or shutil.which('chromium-browser') or shutil.which('google-chrome')


def planned(name: str, slots: int, mad: bool) -> Plan:
    return plans.plan(kernel_from_file(str(KERNELS / f'{name}.c'), name, mad=mad), slots, 0)


def data_in(text: str) -> Tuple[str, Dict[str, Any]]:
    match = re.search(r'const data = (.*);\n', text)
    assert match
    return text.replace(match[0], ''), json.loads(match[1])


class Page(unittest.TestCase):
    def test_stands_alone(self) -> None:
        for name, slots, mad in CHOSEN:
            with self.subTest(name):
                text, data = data_in(page(planned(name, slots, mad), str(KERNELS / f'{name}.c')))
                self.assertNotRegex(text.replace('http://www.w3.org/2000/svg', '').replace('http://www.w3.org/1999/xhtml', ''), r'https?:|src=|@import|url\(')
                self.assertEqual(data['source'], (KERNELS / f'{name}.c').read_text(encoding='utf-8').split('\n'))
                moved = [statement for statement in data['statements'] if statement['kind'] in ('load', 'store')]
                self.assertGreaterEqual(len(moved), data['numbers']['cost'])

    def test_slots(self) -> None:
        """At each time a slot holds one value, and what is read is what is there."""
        for name, slots, mad in CHOSEN:
            plan = planned(name, slots, mad)
            stays = stays_of(plan)
            for at, step in enumerate(plan.steps):
                read = [step.slot] if step.word == 'store' else [number for kind, number in step.operands if kind == 'slot']
                for number in read:
                    there = [stay for stay in stays if stay.slot == number and stay.begin < at <= stay.end]
                    self.assertEqual(len(there), 1)
                    if step.word == 'store':
                        self.assertEqual(there[0].vertex, step.vertex)
                    else:
                        self.assertIn(there[0].vertex, plan.kernel.predecessors(step.vertex))

    def test_reasons(self) -> None:
        for name, slots, mad in CHOSEN:
            plan = planned(name, slots, mad)
            said = reasons(plan, stays_of(plan))
            loads = [(at, step.vertex) for at, step in enumerate(plan.steps) if step.word == 'load']
            again = {at for k, (at, vertex) in enumerate(loads) if vertex >= len(plan.kernel.inputs) or vertex in [v for _, v in loads[:k]]}
            self.assertEqual({at for at, text in said.items() if text.startswith('again')}, again)
            for text in said.values():
                self.assertRegex(text, r'^(again|spill): (evicted at \d+ for \S+(, read( again)? at \d+)?|stored at \d+, read at \d+)$')

    @unittest.skipUnless(BROWSER and LONG, 'there is no browser, or this is the short set')
    def test_browser(self) -> None:
        for name, slots, mad in CHOSEN:
            plan = planned(name, slots, mad)
            with tempfile.TemporaryDirectory() as folder:
                file = Path(folder, 'p.html')
                file.write_text(page(plan, str(KERNELS / f'{name}.c')), encoding='utf-8')
                done = subprocess.run([str(BROWSER), '--headless', '--no-sandbox', '--disable-gpu', f'--user-data-dir={folder}/profile', '--dump-dom',
                                       f'file://{file}#v{len(plan.kernel.inputs)}'], stdout=subprocess.PIPE, stderr=subprocess.DEVNULL, encoding='utf-8',
                                      check=True, timeout=120)
                self.assertEqual(done.stdout.count('class="row load'), sum(step.word == 'load' for step in plan.steps))
                self.assertEqual(len(re.findall(r'<rect class="bar', done.stdout)), len(stays_of(plan)))
                self.assertRegex(done.stdout, r'data-line="\d+"[^>]*class="row lit"|class="row lit" data-line')
                self.assertIn(f'{plan.kernel.name_of(len(plan.kernel.inputs))}: ', done.stdout)


if __name__ == '__main__':
    unittest.main()
