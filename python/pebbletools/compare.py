"""Compares a planned function with its original: both are compiled, and run on the same random inputs."""
from __future__ import annotations

import subprocess
from pathlib import Path
from typing import Dict, List, Sequence, Tuple

from .kernels import Kernel

WARNINGS = ['-std=gnu11', '-Wall', '-Wextra', '-Werror', '-Wno-unused-function', '-Wno-sign-compare']
DEFAULT_RANGE = 1000  # of random inputs, from -1000 to 1000; 0 is all of the type

MAIN = r'''
#include <stdint.h>
#include <stdio.h>
#include <string.h>
static uint64_t state_ = 88172645463325252u;
static uint64_t next(void) { state_ ^= state_ << 13; state_ ^= state_ >> 7; state_ ^= state_ << 17; return state_; }
static double real(double range) { return ((double)(next() >> 11) / 9007199254740992.0 * 2 - 1) * range; }
static int64_t whole(int64_t range) { return range ? (int64_t)(next() % (2 * (uint64_t)range + 1)) - range : (int64_t)next(); }
'''


def harness(kernel: Kernel, planned: str, ranges: Dict[str, int], runs: int) -> str:
    """A C program that runs both functions on the same random inputs."""
    params = ', '.join(param.declaration() for param in kernel.params)
    result = str(kernel.returns) if kernel.returns else 'void'
    lines = [MAIN, f'{result} {kernel.name}({params});', f'{result} {planned}({params});', 'int main(void)', '{']
    names: Tuple[List[str], List[str]] = ([], [])
    for param in kernel.params:
        sizes = ''.join(f'[{size}]' for size in param.shape)
        by_address = param.pointer and not param.shape
        for k, side in enumerate('ab'):
            lines.append(f'    static {param.type} {side}_{param.name}{sizes};')
            names[k].append(('&' if by_address else '') + f'{side}_{param.name}')
    lines.append(f'    for (int run = 0; run < {runs}; run++) {{')
    for param in kernel.params:
        count = 1
        for size in param.shape:
            count *= size
        given = ranges.get(param.name, ranges.get('', DEFAULT_RANGE))
        value = f'real({given})' if param.type.floating else f'whole({given})'
        lines += [f'        for (int k = 0; k < {count}; k++)', f'            (({param.type} *)&a_{param.name})[k] = ({param.type}){value};',
                  f'        memcpy(&b_{param.name}, &a_{param.name}, sizeof a_{param.name});']
    calls = [f'{name}({", ".join(of)})' for name, of in zip((kernel.name, planned), names)]
    if kernel.returns:
        lines += [f'        {result} ra = {calls[0]}, rb = {calls[1]};',
                  '        if (memcmp(&ra, &rb, sizeof ra)) { printf("result\\n"); return 1; }']
    else:
        lines.append(f'        {calls[0]}; {calls[1]};')
    for param in kernel.params:
        name = param.name
        lines.append(f'        if (memcmp(&a_{name}, &b_{name}, sizeof a_{name})) {{ printf("{name} in run %d\\n", run); return 1; }}')
    return '\n'.join([*lines, '    }', '    puts("equal");', '    return 0;', '}']) + '\n'


def _run(words: Sequence[str]) -> Tuple[int, str]:
    done = subprocess.run(words, stdout=subprocess.PIPE, stderr=subprocess.STDOUT, encoding='utf-8', errors='replace', check=False)
    return done.returncode, done.stdout


def differs(folder: Path, source: Path, kernel: Kernel, planned: str, flags: Sequence[str], ranges: Dict[str, int], runs: int = 1000) -> str:
    """Nothing if the planned C text, whose function is called NAME_planned, gives what the source gives, bit for bit; and else what differs,
    or what the compiler says. A main of the source is set aside."""
    (folder / 'main.c').write_text(harness(kernel, f'{kernel.name}_planned', ranges, runs), encoding='utf-8')
    (folder / 'planned.c').write_text(planned, encoding='utf-8')
    status, said = _run(['gcc', '-std=gnu11', '-w', *flags, '-Dmain=main_of_source', '-c', '-o', str(folder / 'source.o'), str(source)])
    if status:
        return said
    status, said = _run(['gcc', *WARNINGS, *flags, '-o', str(folder / 'both'), *(str(folder / name) for name in ('main.c', 'planned.c', 'source.o')), '-lm'])
    if status:
        return said
    status, said = _run([str(folder / 'both')])
    return '' if (status, said) == (0, 'equal\n') else said or f'status {status}'
