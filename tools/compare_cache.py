#!/usr/bin/env python3
"""Compares a write-back cache with plans, on the kernels of kernels/ with three numbers of slots each: docs/KERNELS.md, "Beside a cache".

  compare_cache.py table    prints the rows and the last sentence of that section. The cache's costs are worked out here, by the rules of
                            docs/BOUNDS.md; the plans' costs and bounds are those that `pebble plan` prints
  compare_cache.py check    runs `pebble cache` for each of them. Its numbers of loads, stores and hits are to be those of the rules, its
                            bound is to be at most the plan's cost and the cache's, and docs/KERNELS.md is to have these rows and sentence

The plans have the budget that the program takes if none is named. Only Python 3 is needed. The exit status is 0 if all agrees, 1
if something does not (it is printed), and 2 for other words. PEBBLE names another program than the one at the top of the repository.
"""
import glob
import math
import os
import re
import subprocess
import sys
import tempfile
from collections import namedtuple

sys.dont_write_bytecode = True
TOP = os.path.dirname(os.path.dirname(os.path.abspath(__file__)))
sys.path.insert(0, os.path.join(TOP, 'tools'))
import run_code

PEBBLE = run_code.program()
OPTIMAL, OPEN = 0, 5  # the statuses of a plan
DOCUMENT = os.path.join(TOP, 'docs', 'KERNELS.md')

Cache = namedtuple('Cache', 'loads stores hits')
Costs = namedtuple('Costs', 'cache plan bound')


def cache_of(kernel, slots):
    """What the cache does on a kernel."""
    trace = run_code.trace_of(kernel)
    lines = {}  # the vertices, the most recently used last, and whether each is dirty
    loads, stores, hits = 0, 0, 0
    for vertex in sorted(run_code.live_of(trace) - set(range(trace.inputs))):
        for touched in [*sorted(trace.preds[vertex]), vertex]:
            if touched in lines:
                hits += 1
                lines[touched] = lines.pop(touched)
                continue
            if len(lines) == slots:
                stores += lines.pop(next(iter(lines)))
            loads += touched != vertex
            lines[touched] = touched == vertex
    stores += sum(lines.get(output, False) for output in set(trace.outputs))
    return Cache(loads, stores, hits)


def ask(words, path, kernel):
    """What the program prints for words on a kernel that is planned."""
    with open(path, 'rb') as source:
        quiet = dict(os.environ, PEBBLE_QUIET='1')
        done = subprocess.run([PEBBLE, *words], stdin=source, stdout=subprocess.PIPE, env=quiet, check=False)
    run_code.demand(done.returncode in (OPTIMAL, OPEN), f'{kernel.name}: {words[0]} {words[1]} ends with {done.returncode}')
    return done.returncode, done.stdout.decode()


def planned(path, kernel, slots, table):
    """The costs beside one another, with those of the plan from its report."""
    report = dict(re.findall(r'^; (\w+) (\S+)$', ask(['plan', str(slots), table], path, kernel)[1], re.MULTILINE))
    cache = cache_of(kernel, slots)
    return Costs(cache.loads + cache.stores, int(report['cost']), int(report['bound']))


def compared(path, kernel, slots, table):
    """The same, with those of the plan as `cache` prints them."""
    status, text = ask(['cache', str(slots), table], path, kernel)
    cache, last = cache_of(kernel, slots), re.search(r'^plan cost (\d+) bound (\d+)$', text, re.MULTILINE)
    costs = Costs(cache.loads + cache.stores, *map(int, last.groups() if last else (0, 0)))
    wanted = (f'cache loads {cache.loads}\ncache stores {cache.stores}\ncache hits {cache.hits}\ncache cost {costs.cache}\n'
              f'plan cost {costs.plan} bound {costs.bound}\n')
    run_code.demand(text == wanted, f'{kernel.name} with {slots} slots: expected {wanted!r}, got {text!r}')
    run_code.demand(costs.bound <= min(costs.plan, costs.cache), f'{kernel.name} with {slots} slots: the bound is above a cost')
    run_code.demand((status == OPTIMAL) == (costs.plan == costs.bound), f'{kernel.name} with {slots} slots: the status is {status}')
    return costs


def section(costs_of):
    """The rows of the table, and the sentence after it."""
    rows, shares = [], []
    with tempfile.TemporaryDirectory() as folder:
        for path in sorted(glob.glob(os.path.join(TOP, 'kernels', '*.kernel'))):
            kernel = run_code.read_kernel(path)
            table = os.path.join(folder, 'table')
            costs = [costs_of(path, kernel, slots, table) for slots in run_code.slots_of(run_code.facts_of(kernel))]
            rows.append(f'| `{kernel.name}` | ' + ' | '.join(str(cost) for three in costs for cost in three) + ' |')
            shares.append([three.plan / three.cache for three in costs])
    means = [math.exp(sum(map(math.log, column)) / len(column)) for column in zip(*shares)]
    first, second, third = (f'{100 * mean:.0f} %' for mean in means)
    return [*rows, f'In the geometric mean the plans make {first}, {second} and {third} of the loads and stores of the cache.']


def main(words):
    if words not in (['table'], ['check']):
        print(__doc__, file=sys.stderr)
        return 2
    try:
        if words == ['table']:
            print('\n'.join(section(planned)))
            return 0
        with open(DOCUMENT, encoding='utf-8') as file:
            page = file.read().split('\n')
        lines = section(compared)
        for line in lines:
            run_code.demand(line in page, f'docs/KERNELS.md lacks the line {line}')
    except run_code.Disagrees as why:
        print(f'compare_cache: {why}')
        return 1
    print(f'cache, docs/KERNELS.md, "Beside a cache": {len(lines) - 1} kernels agree')
    return 0


if __name__ == '__main__':
    sys.exit(main(sys.argv[1:]))
