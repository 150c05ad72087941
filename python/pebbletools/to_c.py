"""A planned kernel as a C function with the signature of the original, and remarks about its transfers.

Slots are local variables `s0`, `s1` .. or the elements of an array of the user's. A word that is an input or an output is the element of the
parameter itself; any other word is an element of a local `spill`. Each transfer is `LOAD(slot, word)` or `STORE(word, slot)`, which are plain
assignments unless they are defined before.

In place. An output element that is an input too has two words in the plan, the old and the new one, and one place in C. Where the plan loads
the old word after it has stored the new one, the new one goes to `spill`, and `MOVE` brings it home after the last load of the old one.
A MOVE costs a load and a store beyond the plan, and the header counts it. So it is with an output that is an input unchanged
(`y[0] = x[0]`), which the plan has for nothing, as it needs no computing.

An output that holds the same value as another is stored after it; that STORE too is counted in the header.
"""
from __future__ import annotations

import textwrap
from dataclasses import dataclass, field
from typing import Dict, List, Optional, Sequence, Set, Tuple

from .ctype import F32, F64, SIGNED, CType
from .errors import KernelError
from .kernels import RETURN, Const, Element, Kernel, Ref
from .plans import Plan, Step
from .texts import Report

KEEPS = ('none', 'volatile', 'barrier')
_PLAIN = {'LOAD': ('slot, word', '((slot) = (word))'), 'STORE': ('word, slot', '((word) = (slot))'), 'MOVE': ('to, from', '((to) = (from))')}
_VOLATILE = {'LOAD': ('slot, word', '((slot) = *(volatile __typeof__(word) *)&(word))'),
             'STORE': ('word, slot', '(*(volatile __typeof__(word) *)&(word) = (slot))'),
             'MOVE': ('to, from', '(*(volatile __typeof__(to) *)&(to) = *(volatile __typeof__(from) *)&(from))')}
_PIN = '''/* Each value exists where it is computed: the compiler keeps the order of all statements. */
#if defined(__SSE__)
#define PIN_FLOAT(slot) __asm__ volatile("" : "+x"(slot) : : "memory")
#elif defined(__aarch64__)
#define PIN_FLOAT(slot) __asm__ volatile("" : "+w"(slot) : : "memory")
#else
#define PIN_FLOAT(slot) __asm__ volatile("" : "+m"(slot) : : "memory")
#endif
#define PIN(slot) __asm__ volatile("" : "+r"(slot) : : "memory")'''


def _count(number: int, what: str) -> str:
    return f'{number} {what}' + ('' if number == 1 else 's')


def _class_of(ctype: CType) -> str:
    return 'f' if ctype == F32 else 'd' if ctype == F64 else 'i'


# ---- where the words are

@dataclass
class Layout:
    """Where each store of a plan goes, and what is moved. The keys of `moves` are steps; the moves come after them."""
    spill: Dict[int, int] = field(default_factory=dict)                      # words of slow memory that are in `spill`
    homes: Dict[int, Element] = field(default_factory=dict)                  # words that are elements
    extra: Dict[int, List[int]] = field(default_factory=dict)                # words and the further outputs that hold the same
    moves: Dict[int, List[Tuple[Element, object]]] = field(default_factory=dict)  # to an element, from a word in `spill` or an element
    first_moves: List[Tuple[int, Element]] = field(default_factory=list)     # to a spilled word, before all
    spills: int = 0

    @property
    def moved(self) -> int:
        return sum(map(len, self.moves.values())) + len(self.first_moves)

    def fresh(self) -> int:
        self.spills += 1
        return self.spills - 1


def lay_out(plan: Plan) -> Layout:
    """Where the words of a plan are in C."""
    kernel, layout = plan.kernel, Layout()
    layout.homes.update({word: read.element for word, read in enumerate(kernel.inputs)})
    owners: Dict[int, List[int]] = {}
    for k, (_, word) in enumerate(plan.outputs):
        owners.setdefault(word, []).append(k)
    _move_inputs(plan, layout, owners)
    _place_stores(plan, layout, owners)
    return layout


def _move_inputs(plan: Plan, layout: Layout, owners: Dict[int, List[int]]) -> None:
    """Outputs that are inputs unchanged: moved at the end, from a copy that is made at the start if the source is overwritten."""
    kernel = plan.kernel
    written = {output.element for output in kernel.outputs}
    copies: Dict[Element, int] = {}
    for word in sorted(word for word in owners if word < len(kernel.inputs)):
        source = kernel.inputs[word].element
        for k in owners[word]:
            origin: object = source
            if source in written:
                if source not in copies:
                    copies[source] = layout.fresh()
                    layout.first_moves.append((copies[source], source))
                origin = copies[source]
            layout.moves.setdefault(len(plan.steps), []).append((kernel.outputs[k].element, origin))


def _place_stores(plan: Plan, layout: Layout, owners: Dict[int, List[int]]) -> None:
    """What is stored goes to its output, or to `spill` if it is none or if the plan still loads the old value from there."""
    kernel = plan.kernel
    old_word = {read.element: word for word, read in enumerate(kernel.inputs)}
    last_load = {step.memory: k for k, step in enumerate(plan.steps) if step.word == 'load'}
    store_at = {step.memory: k for k, step in enumerate(plan.steps) if step.word == 'store'}
    for word in sorted(store_at):
        ks = owners.get(word, [])
        homes = [kernel.outputs[k].element for k in ks]
        late = [element for element in homes if last_load.get(old_word.get(element, -1), -1) > store_at[word]]
        at_once = [element for element in homes if element not in late]
        if at_once:
            layout.homes[word] = at_once[0]
            layout.extra[word] = [ks[homes.index(element)] for element in at_once[1:]]
        else:
            layout.spill[word] = layout.fresh()
        for element in late:
            origin = layout.homes[word] if at_once else layout.spill[word]
            layout.moves.setdefault(last_load[old_word[element]], []).append((element, origin))


# ---- emission

class Emitter:
    """Writes the function. `slots` names the user's array of slots; `keep` is how the compiler is held to the plan's order."""

    def __init__(self, plan: Plan, slots: Optional[str] = None, keep: str = 'none', name: Optional[str] = None):
        if keep not in KEEPS:
            raise KernelError(f'keep is one of {", ".join(KEEPS)}')
        self.kernel = kernel = plan.kernel
        self.plan, self.keep, self.array = plan, keep, slots
        self.name = name or kernel.name
        self.layout = lay_out(plan)
        types = {step.vertex: kernel.type_of(step.vertex) for step in plan.steps}
        if self.layout.moved:  # elements may pass through `spill`
            types.update({-1 - k: output.type for k, output in enumerate(kernel.outputs)})
        self.classes = sorted({_class_of(ctype) for ctype in types.values()})
        whole = [ctype for ctype in types.values() if not ctype.floating]
        self.whole = whole[0] if len(set(whole)) == 1 else SIGNED[64 if any(ctype.bits == 64 for ctype in whole) else 32]
        if slots and len(self.classes) > 1:
            raise KernelError(f'the slots of {kernel.name} hold whole numbers and floating ones, or float and double: an array of slots has one type')
        called = {operation.word[5:] for operation in kernel.operations if operation.word.startswith('call ')}
        self.taken = {param.name for param in kernel.params} | called
        self.slot_base = self._free('s', range(plan.report.slots))
        self.spill_name = self._free('spill', [''])
        self.used: Set[Tuple[str, int]] = set()
        self.spilled: Set[Tuple[str, int]] = set()

    def _free(self, base: str, ends: Sequence[object]) -> str:
        while any(f'{base}{end}{suffix}' in self.taken for end in ends for suffix in ('', '_i', '_f', '_d')):
            base += '_'
        return base

    # -- names of places

    def _suffix(self, kind: str) -> str:
        return f'_{kind}' if len(self.classes) > 1 else ''

    def _slot_type(self, ctype: CType) -> CType:
        return ctype if ctype.floating else self.whole

    def _slot(self, number: int, ctype: CType) -> str:
        kind = _class_of(ctype)
        self.used.add((kind, number))
        return f'{self.array}[{number}]' if self.array else f'{self.slot_base}{number}{self._suffix(kind)}'

    def _spill(self, number: int, ctype: CType) -> str:
        kind = _class_of(ctype)
        self.spilled.add((kind, number))
        return f'{self.spill_name}{self._suffix(kind)}[{number}]'

    def _home(self, element: Element) -> str:
        return self._result if element.param == RETURN else element.c_text()

    @property
    def _result(self) -> str:
        return self._free('result', [''])

    def _word(self, word: int, ctype: CType) -> str:
        if word in self.layout.homes:
            return self._home(self.layout.homes[word])
        return self._spill(self.layout.spill[word], ctype)

    def _read(self, number: int, operand: Ref) -> str:
        """A slot as an operation reads it: with the type of its value, and through the operand's casts."""
        ctype = self.kernel.type_of(operand.vertex)
        casts = list(operand.casts)
        held = self._slot_type(ctype)
        if held != ctype and not (casts and held.holds(ctype)):
            casts.insert(0, ctype)
        if casts and casts[0] == held:
            casts.pop(0)
        return ''.join(f'({cast})' for cast in reversed(casts)) + self._slot(number, ctype)

    # -- statements

    def _computed(self, step: Step, slots: Dict[int, int]) -> str:
        """The real operation of a vertex."""
        operation = self.kernel.operation(step.vertex)
        if operation is None:
            output = self.kernel.constant_of(step.vertex)
            assert isinstance(output.value, Const)
            return output.value.c_text()
        where = {slots[number]: number for kind, number in step.operands if kind == 'slot'}
        texts = [self._read(where[operand.vertex], operand) if isinstance(operand, Ref) else self._constant(operand, operation.word)
                 for operand in operation.operands]
        return operation.template.format(*texts)

    @staticmethod
    def _constant(operand: Const, word: str) -> str:
        """A constant; without the letters of its type if the other operand has that type, and C converts the constant."""
        value = operand.value
        is_alone = word in ('<<', '>>', 'neg', '~', '!', '&&', '||') or word.startswith('call ')
        if is_alone or not isinstance(value, int) or operand.type.bits != 64 or abs(value) >= 1 << 31:
            return operand.c_text()
        return str(value) if value >= 0 else f'({value})'

    def _stored(self, step: Step, element: Optional[Element]) -> str:
        """A slot as it is stored: an output with its own conversion."""
        for output in self.kernel.outputs if element else ():
            if output.element == element and isinstance(output.value, Ref) and output.value.casts:
                return self._read(step.slot, output.value)
        return self._slot(step.slot, self.kernel.type_of(step.vertex))

    def statements(self) -> List[Tuple[int, str]]:
        """The statements of the function, each with the number of its step. The step of what is before all is -1."""
        kernel, layout = self.kernel, self.layout
        lines: List[Tuple[int, str]] = []
        slots: Dict[int, int] = {}
        types = {output.element: output.type for output in kernel.outputs}
        for number, element in layout.first_moves:
            kept = self._spill(number, types[element])
            lines.append((-1, f'MOVE({kept}, {self._home(element)}); /* {element} is overwritten, and an output needs it */'))
        for k, step in enumerate(self.plan.steps):
            lines += [(k, line) for line in self._statement(step, slots)]
            if step.word != 'store':
                slots[step.slot] = step.vertex
            lines += [(k, line) for line in self._moves(k)]
        return lines + [(len(self.plan.steps), line) for line in self._moves(len(self.plan.steps))]

    def _statement(self, step: Step, slots: Dict[int, int]) -> List[str]:
        """The lines of a step; of a store one for each output that holds the value."""
        kernel, layout = self.kernel, self.layout
        ctype = kernel.type_of(step.vertex)
        slot = self._slot(step.slot, ctype)
        if step.word == 'store':
            lines = []
            for home in [layout.homes.get(step.memory)] + [kernel.outputs[k].element for k in layout.extra.get(step.memory, [])]:
                place = self._home(home) if home else self._word(step.memory, ctype)
                lines.append(self._commented(f'STORE({place}, {self._stored(step, home or self._delayed(step))});', step))
            return lines
        if step.word == 'load':
            line = self._commented(f'LOAD({slot}, {self._word(step.memory, ctype)});', step)
        else:
            line = self._commented(f'{slot} = {self._computed(step, slots)};', step)
        if self.keep == 'barrier':
            line = line.replace('; /*', f'; {"PIN_FLOAT" if ctype.floating else "PIN"}({slot}); /*', 1)
        return [line]

    def _delayed(self, step: Step) -> Optional[Element]:
        """The output whose word is stored in `spill` for now; None for a value that is only spilled."""
        for k, (_, word) in enumerate(self.plan.outputs):
            if word == step.memory:
                return self.kernel.outputs[k].element
        return None

    def _moves(self, k: int) -> List[str]:
        lines = []
        for element, origin in self.layout.moves.get(k, []):
            source = self._spill(origin, self._moved_type(element)) if isinstance(origin, int) else self._home(origin)  # type: ignore[arg-type]
            lines.append(f'MOVE({self._home(element)}, {source}); /* its old value is not needed any more */')
        return lines

    def _moved_type(self, element: Element) -> CType:
        value = next(output.value for output in self.kernel.outputs if output.element == element)
        return self.kernel.type_of(value.vertex) if isinstance(value, Ref) else value.type

    def _commented(self, statement: str, step: Step) -> str:
        operation = self.kernel.operation(step.vertex)
        name = self.kernel.name_of(step.vertex)
        if step.word in ('load', 'store') or operation is None:
            return f'{statement} /* {name} */'
        text = f'{name} = {self.kernel.meaning_of(operation)}'.replace('*/', '* /')
        return f'{statement} /* {text}{", " + operation.place if operation.place else ""} */'

    # -- the file

    def function(self) -> str:
        """The whole C file."""
        body = [line for _, line in self.statements()]
        kernel = self.kernel
        params = ', '.join(param.declaration() for param in kernel.params) or 'void'
        result = str(kernel.returns) if kernel.returns else 'void'
        head = textwrap.fill(f'{result} {self.name}({params})', 120, subsequent_indent=' ' * len(f'{result} {self.name}('), break_long_words=False)
        lines = [self._header(), '#include <stdint.h>', *([kernel.prelude] if kernel.prelude else []), *self._macros(), '',
                 head, '{']
        lines += [f'    {line}' for line in self._declarations()] + [''] + [f'    {line}' for line in body]
        if kernel.returns:
            lines.append(f'    return {self._result};')
        return '\n'.join([*lines, '}']) + '\n'

    def _declarations(self) -> List[str]:
        lines = []
        types = {'i': str(self.whole), 'f': 'float', 'd': 'double'}
        for kind in self.classes:
            numbers = sorted(number for used, number in self.used if used == kind)
            if numbers and not self.array:
                lines.append(f'{types[kind]} {", ".join(f"{self.slot_base}{number}{self._suffix(kind)}" for number in numbers)};')
            spilled = [number for used, number in self.spilled if used == kind]
            if spilled:
                lines.append(f'{types[kind]} {self.spill_name}{self._suffix(kind)}[{max(spilled) + 1}];')
        if self.kernel.returns:
            lines.append(f'{self.kernel.returns} {self._result};')
        return lines

    def _macros(self) -> List[str]:
        lines = ['']
        needed = ['LOAD', 'STORE'] + ['MOVE'] * bool(self.layout.moved)
        for name in needed:
            head, body = (_PLAIN if self.keep == 'none' else _VOLATILE)[name]
            lines += [f'#ifndef {name}', f'#define {name}({head}) {body}', '#endif']
        return lines + ([_PIN] if self.keep == 'barrier' else [])

    def _header(self) -> str:
        report = self.plan.report
        steps = self.plan.steps
        loads, stores = (sum(step.word == word for step in steps) for word in ('load', 'store'))
        computed = [step.vertex for step in steps if step.word not in ('load', 'store')]
        lines = [f'{self.name}: planned for {_count(report.slots, "slot")} of fast memory',
                 f'{report.vertices} values: {_count(report.inputs, "input")}, {_count(report.vertices - report.inputs, "operation")}',
                 f'cost {report.cost} ({_count(loads, "load")}, {_count(stores, "store")}), {verdict_of(report)}']
        if (report.load, report.store) != (1, 1):
            lines[-1] += f'; a load costs {report.load}, a store {report.store}'
        if len(computed) > len(set(computed)):
            lines.append(f'computed again: {_count(len(computed) - len(set(computed)), "value")}')
        extra = sum(map(len, self.layout.extra.values()))
        if extra:
            lines.append(f'beyond the cost: {_count(extra, "store")} of outputs that hold the same value as another')
        if self.layout.moved:
            lines.append(f'beyond the cost: {_count(self.layout.moved, "move")}, each a load and a store, of elements in place or outputs that '
                         f'are inputs')
        if self.array:
            ctype = self._slot_type(self.kernel.type_of(steps[0].vertex)) if steps else self.whole
            lines.append(f'declare before: {ctype} {self.array}[{report.slots}];')
        return '/* ' + '\n * '.join(lines) + ' */'


def verdict_of(report: Report) -> str:
    """The bound and the verdict, if a search gave them."""
    return f'bound {report.bound}, verdict {report.verdict}' if report.verdict else 'by a code that was given'


def to_c(plan: Plan, slots: Optional[str] = None, keep: str = 'none', name: Optional[str] = None) -> str:
    """The planned kernel as a C file."""
    return Emitter(plan, slots, keep, name).function()


# ---- remarks

def remarks(plan: Plan) -> List[str]:
    """What moves, array by array, as a compiler remarks on its optimisations."""
    kernel = plan.kernel
    loads: Dict[int, int] = {}
    stored: Dict[int, int] = {}
    computed: Dict[int, int] = {}
    for step in plan.steps:
        counts = loads if step.word == 'load' else stored if step.word == 'store' else computed
        counts[step.vertex] = counts.get(step.vertex, 0) + 1
    inputs = range(len(kernel.inputs))
    lines = []
    for param in dict.fromkeys(read.element.param for read in kernel.inputs):
        counts = {vertex: loads.get(vertex, 0) for vertex in inputs if kernel.inputs[vertex].element.param == param}
        first, again = sum(count > 0 for count in counts.values()), sum(max(count - 1, 0) for count in counts.values())
        count, most = max((count, -vertex) for vertex, count in counts.items())
        lines.append(f'{param}: {_count(first, "load")}, {again} again' + (f'; most {kernel.name_of(-most)}, {count} times' if count > 1 else ''))
    outputs = {kernel.output_vertex(k) for k in range(len(kernel.outputs))}
    for param in dict.fromkeys(output.element.param for output in kernel.outputs):
        vertices = {kernel.output_vertex(k) for k, output in enumerate(kernel.outputs) if output.element.param == param}
        computed_ones = vertices - set(inputs)
        parts = [_count(len(computed_ones), 'store')] if computed_ones else []
        if sum(loads.get(vertex, 0) for vertex in computed_ones):
            parts.append(f'{_count(sum(loads.get(vertex, 0) for vertex in computed_ones), "load")} of what is stored')
        if vertices - computed_ones:
            parts.append(f'{_count(len(vertices - computed_ones), "element")} moved, which the cost does not count')
        lines.append(f'{param}: {", ".join(parts)}')
    spilled = [vertex for vertex in stored if vertex not in outputs]
    if spilled:
        lines.append(f'{_count(len(spilled), "value")} spilled ({_names(kernel, spilled)}), '
                     f'{_count(sum(loads.get(vertex, 0) for vertex in spilled), "load")} of them')
    twice = [vertex for vertex, count in computed.items() if count > 1]
    if twice:
        lines.append(f'{_count(len(twice), "value")} computed again ({_names(kernel, twice)})')
    if kernel.merged:
        lines.append(f'{_count(kernel.merged, "operation")} of the source computed before: done once')
    return lines


def _names(kernel: Kernel, vertices: Sequence[int]) -> str:
    return ', '.join(kernel.name_of(vertex) for vertex in vertices[:6]) + (', ..' if len(vertices) > 6 else '')
