"""The command `pebble-c`: a C function in, the same function out with planned loads and stores."""
from __future__ import annotations

import argparse
import re
import sys
import tempfile
from pathlib import Path
from typing import Dict, Optional, Sequence

from . import options, plans
from .compare import differs
from .errors import PebbleToolsError
from .kernels import Kernel
from .page import page
from .plans import Plan
from .to_c import KEEPS, remarks, to_c, verdict_of

HEAD = 'Plans a C function (or a Python function) for a scratchpad of S words, and prints it as C with its loads and stores.'
FOOT = """examples:
  pebble-c fir.c -S 8 -o planned.c               the function, planned for 8 slots; remarks on standard error
  pebble-c fir.c fir -S 8 --remarks              only the remarks: what is loaded again, and what is spilled
  pebble-c fir.c --kernel > fir.kernel           the planner's text of it, for ./pebble
  pebble-c fir.c -S 8 --code mine.code           C of a code that is there, as ./pebble tidy makes one of a schedule
  pebble-c fir.c -S 8 -o planned.c --test        the same, compiled and compared with fir.c on 1000 random inputs

It plans with improve (--effort) if that is there, else with plan (--budget). PEBBLE_PROGRAM and PEBBLE_IMPROVE name other programs.
docs/FROM_C.md says which C is taken. Status 0: done; 1: it could not be done, and standard error says why; 2: wrong options."""


def parser() -> argparse.ArgumentParser:
    words = argparse.ArgumentParser(prog='pebble-c', description=HEAD, epilog=FOOT, formatter_class=argparse.RawDescriptionHelpFormatter)
    words.add_argument('file', help='a C file, or a Python file with kernels (pebbletools.trace)')
    words.add_argument('function', nargs='?', help='one of its functions (default: the only one that is not static)')
    words.add_argument('-S', '--slots', type=int, metavar='S', help='the slots of fast memory (default: the fewest that suffice)')
    words.add_argument('-o', '--output', metavar='FILE', help='the C file (default: standard output)')
    words.add_argument('--html', metavar='FILE', help='also write a page with the source, the planned statements and the slots over time')
    words.add_argument('--kernel', action='store_true', help="print the planner's text of the function, and plan nothing")
    words.add_argument('--remarks', action='store_true', help='print the remarks in place of C')
    words.add_argument('--effort', type=int, help='how long improve searches, 0 to 200 (default: 20)')
    words.add_argument('--budget', type=int, help='plan with `plan` and this budget (default without improve: 20000)')
    words.add_argument('--load', type=int, default=1, metavar='A', help='what a load costs, 1 to 16')
    words.add_argument('--store', type=int, default=1, metavar='B', help='what a store costs, 1 to 16')
    words.add_argument('--code', metavar='FILE', help='plan nothing, and take this code of the kernel')
    words.add_argument('--keep', choices=KEEPS, default='none',
                       help='hold the compiler to the transfers (volatile), or to the order of all statements (barrier)')
    words.add_argument('--slots-array', metavar='NAME', help='the slots are elements of an array that you declare')
    words.add_argument('--name', help='the name of the planned function (default: as in the source)')
    words.add_argument('--test', type=int, nargs='?', const=1000, metavar='N',
                       help='compile the planned function and the original, and compare them on N random inputs, bit for bit (default: 1000)')
    words.add_argument('--range', action='append', default=[], metavar='[NAME=]R', help='the random inputs are from -R to R (1000); 0 is all of the type')
    options.add_source(words)
    return words


def put(text: str, file: Optional[str]) -> None:
    if file:
        Path(file).write_text(text, encoding='utf-8')
    else:
        sys.stdout.write(text)


def planned(kernel: Kernel, words: argparse.Namespace) -> Plan:
    if words.code:
        return plans.adopt(kernel, Path(words.code).read_text(encoding='utf-8'), words.load, words.store)
    return plans.plan(kernel, kernel.degree + 1 if words.slots is None else words.slots, words.budget, words.load, words.store, words.effort)


def ranges_of(words: Sequence[str]) -> Dict[str, int]:
    ranges = {}
    for word in words:
        name, _, size = word.rpartition('=')
        if not size.isdecimal():
            raise PebbleToolsError(f'--range {word}: write --range NAME=NUMBER, or --range NUMBER for all')
        ranges[name] = int(size)
    return ranges


def compared(plan: Plan, words: argparse.Namespace) -> str:
    """Compiles and runs the planned function beside the original; gives the line that says so."""
    kernel = plan.kernel
    if words.file.endswith('.py'):
        raise PebbleToolsError('--test compares with a C function, and this is a Python file')
    if words.slots_array:
        raise PebbleToolsError('--test needs slots of its own: leave --slots-array out')
    text = to_c(plan, None, words.keep, f'{kernel.name}_planned')
    flags = ['-O2', *[f'-D{define}' for define in words.defines]]
    with tempfile.TemporaryDirectory(prefix='pebbletools-') as folder:
        wrong = differs(Path(folder), Path(words.file).resolve(), kernel, text, flags, ranges_of(words.range), words.test)
    if wrong:
        raise PebbleToolsError(f'{kernel.name}: the planned function and the original differ, or could not be compared:\n{wrong.strip()}')
    return f'{kernel.name}: equal to the original on {words.test} random inputs, bit for bit'


def do(words: argparse.Namespace) -> None:
    for option, name in (('--name', words.name), ('--slots-array', words.slots_array)):
        if name is not None and not re.fullmatch(r'[A-Za-z_]\w*', name, re.ASCII):
            raise PebbleToolsError(f'{option} {name}: this is not a name of C')
    kernel = options.kernel_of(words.file, words.function, words)
    if words.kernel:
        put(kernel.text(), words.output)
        return
    plan = planned(kernel, words)
    said = [f'{kernel.name}: {plan.report.slots} slots, cost {plan.cost}, {verdict_of(plan.report)}', *remarks(plan)]
    if words.test is not None:
        said.append(compared(plan, words))
    if words.html:
        put(page(plan, words.file, words.slots_array), words.html)
    if words.remarks:
        put('\n'.join(said) + '\n', words.output)
        return
    put(to_c(plan, words.slots_array, words.keep, words.name), words.output)
    if words.output or words.test is not None:
        print(*said, sep='\n', file=sys.stderr)


def run(arguments: Optional[Sequence[str]] = None) -> int:
    words = parser().parse_args(arguments)
    return options.guarded('pebble-c', lambda: do(words))
