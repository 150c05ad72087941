"""Prints the table of the test kernels as Markdown: `python3 -m tests.table [BUDGET] > TABLE.md`."""
from __future__ import annotations

import sys
import tempfile
import time
from pathlib import Path

from pebbletools import plans
from pebbletools.from_c import kernel_from_file
from pebbletools.to_c import Emitter
from tests.harness import differs
from tests.test_c_to_c import EXPECTED, KERNELS, O2


def main() -> None:
    budget = int(sys.argv[1]) if len(sys.argv) > 1 else 100
    print(f'Budget {budget}. "read" is C to kernel, "plan" the planner, in seconds. "beyond" is what C moves besides the cost. '
          '"equal" is 1,000 random inputs, bit for bit, gcc -O2.\n')
    head = ['Kernel', 'values', 'native', 'S', 'first', 'cost', 'bound', 'verdict', 'beyond', 'read', 'plan', 'equal']
    print(f'| {" | ".join(head)} |\n|{"---|" * len(head)}')
    for name, (mad, *_, ranges) in EXPECTED.items():
        begin = time.monotonic()
        kernel = kernel_from_file(str(KERNELS / f'{name}.c'), name, mad=mad)
        read = time.monotonic() - begin
        for slots in (kernel.degree + 1, kernel.degree + 6, kernel.degree + 12):
            begin = time.monotonic()
            plan = plans.plan(kernel, slots, budget)
            took = time.monotonic() - begin
            emitter = Emitter(plan, name=f'{name}_planned')
            with tempfile.TemporaryDirectory() as folder:
                wrong = differs(Path(folder), KERNELS / f'{name}.c', kernel, emitter.function(), O2, ranges)
            report, layout = plan.report, emitter.layout
            extra = sum(map(len, layout.extra.values()))
            beyond = ', '.join(f'{count} {what}' for count, what in ((extra, 'stores'), (layout.moved, 'moves')) if count) or '-'
            cells = [name + ' --mad' * mad, kernel.vertices, 'yes' if kernel.native else 'no', slots, report.first, report.cost, report.bound,
                     report.verdict, beyond, f'{read:.2f}', f'{took:.2f}', wrong or 'yes']
            print(f'| {" | ".join(map(str, cells))} |', flush=True)


if __name__ == '__main__':
    main()
