"""One page for a plan, as a compiler explorer shows it: the source beside the planned statements and the slots over time.

The page stands alone: its style and its script are in it, and it asks for nothing from outside.
"""
from __future__ import annotations

import html
import json
import os
from dataclasses import dataclass
from pathlib import Path
from typing import Any, Dict, List, Optional

from .kernels import Kernel
from .plans import Plan, Step
from .to_c import Emitter, remarks

HERE = Path(__file__).parent


@dataclass
class Stay:
    """A value in a slot, from the step that brings it to the step that overwrites it."""
    vertex: int
    slot: int
    begin: int
    first_read: int
    last_read: int
    end: int
    kind: str  # load, again (a reload), compute or recompute


def stays_of(plan: Plan) -> List[Stay]:
    """What is in the slots while the plan runs."""
    here: Dict[int, Stay] = {}
    seen: Dict[str, set] = {'load': set(), 'compute': set()}
    found: List[Stay] = []
    for at, step in enumerate(plan.steps):
        for number in [step.slot] if step.word == 'store' else [value for kind, value in step.operands if kind == 'slot']:
            here[number].last_read = at
            here[number].first_read = here[number].first_read or at
        if step.word == 'store':
            continue
        word = 'load' if step.word == 'load' else 'compute'
        is_again = step.vertex in seen[word] or word == 'load' and step.vertex >= len(plan.kernel.inputs)
        kind = {'load': 'again', 'compute': 'recompute'}[word] if is_again else word
        seen[word].add(step.vertex)
        if step.slot in here:
            here[step.slot].end = at
        here[step.slot] = Stay(step.vertex, step.slot, at, 0, at, len(plan.steps), kind)
        found.append(here[step.slot])
    return found


def reasons(plan: Plan, stays: List[Stay]) -> Dict[int, str]:
    """For each reload and each spill, by its step: when the value was evicted and for what, and when it is read again."""
    kernel, said = plan.kernel, {}
    outputs = {kernel.output_vertex(k) for k in range(len(kernel.outputs))}
    begins = {stay.begin: stay for stay in stays}
    stored = {step.vertex: at for at, step in reversed(list(enumerate(plan.steps))) if step.word == 'store'}
    for at, step in enumerate(plan.steps):
        if step.word == 'load':
            before = [stay for stay in stays if stay.vertex == step.vertex and stay.end <= at]
            again = begins[at].first_read
            if before:
                said[at] = f'again: evicted at {before[-1].end + 1} for {_taker(plan, before[-1])}, read at {again + 1}'
            elif step.vertex >= len(kernel.inputs):
                said[at] = f'again: stored at {stored[step.vertex] + 1}, read at {again + 1}'
        elif step.word == 'store' and step.vertex not in outputs:
            after = [stay for stay in stays if stay.vertex == step.vertex and stay.begin > at]
            here = [stay for stay in stays if stay.vertex == step.vertex and stay.begin < at and stay.slot == step.slot][-1]
            said[at] = f'spill: evicted at {here.end + 1} for {_taker(plan, here)}' + (f', read again at {after[0].first_read + 1}' if after else '')
    return said


def _taker(plan: Plan, stay: Stay) -> str:
    """The value that takes the slot."""
    return plan.name(plan.steps[stay.end]) if stay.end < len(plan.steps) else 'nothing'


def _line_of(kernel: Kernel, vertex: int, file: str) -> int:
    """The line of the source that computes a vertex; 0 for none of this file."""
    operation = kernel.operation(vertex)
    name, _, line = (operation.place if operation else '').rpartition(':')
    return int(line) if name == os.path.basename(file) else 0


def _readers(kernel: Kernel, step: Step) -> List[int]:
    return [] if step.moves else kernel.predecessors(step.vertex)


def data_of(plan: Plan, file: str, slots_array: Optional[str] = None) -> Dict[str, Any]:
    """What the script of the page shows."""
    kernel, report = plan.kernel, plan.report
    emitter = Emitter(plan, slots_array)
    stays = stays_of(plan)
    said = reasons(plan, stays)
    statements = []
    for at, text in emitter.statements():
        step = plan.steps[at] if 0 <= at < len(plan.steps) else None
        code, _, comment = text.partition(' /* ')
        moves = text.startswith('MOVE(')
        statements.append({'at': at + 1, 'code': code, 'note': comment[:-3], 'v': step.vertex if step and not moves else -1,
                           'reads': _readers(kernel, step) if step else [], 'kind': 'move' if moves or not step else step.word if step.moves else 'compute',
                           'why': '' if moves else said.get(at, '')})
    loads = sum(step.word == 'load' for step in plan.steps)
    stores = sum(step.word == 'store' for step in plan.steps)
    numbers = {'slots': report.slots, 'cost': report.cost, 'loads': loads, 'stores': stores, 'bound': report.bound or '-',
               'verdict': report.verdict or '-', 'values': report.vertices, 'again': sum(text.startswith('again') for text in said.values()),
               'spills': sum(text.startswith('spill') for text in said.values())}
    text = Path(file).read_text(encoding='utf-8', errors='replace')
    return {'name': kernel.name, 'file': os.path.basename(file), 'numbers': numbers, 'remarks': remarks(plan), 'source': text.split('\n'),
            'statements': statements, 'stays': [vars(stay) for stay in stays], 'steps': len(plan.steps),
            'names': [kernel.name_of(vertex) for vertex in range(kernel.vertices)],
            'lines': [_line_of(kernel, vertex, file) for vertex in range(kernel.vertices)],
            'reads': [kernel.predecessors(vertex) for vertex in range(kernel.vertices)]}


def page(plan: Plan, file: str, slots_array: Optional[str] = None) -> str:
    """The page of a plan of a source file."""
    data = json.dumps(data_of(plan, file, slots_array)).replace('<', '\\u003c')
    style, script = ((HERE / name).read_text(encoding='utf-8') for name in ('page.css', 'page.js'))
    title = html.escape(f'{plan.kernel.name}: {plan.report.slots} slots, cost {plan.cost}')
    return ('<!DOCTYPE html>\n<html lang="en">\n<head>\n<meta charset="utf-8">\n'
            '<meta http-equiv="Content-Security-Policy" content="default-src \'none\'; style-src \'unsafe-inline\'; script-src \'unsafe-inline\'">\n'
            f'<title>{title}</title>\n<style>\n{style}</style>\n</head>\n<body>\n'
            '<header id="head"></header>\n<main>\n<section id="source"></section>\n<section id="code"></section>\n</main>\n'
            '<section id="time"></section>\n<footer id="said">Point at a value, a statement or a line; click to keep it lit.</footer>\n'
            f'<script>\nconst data = {data};\n{script}</script>\n</body>\n</html>\n')
