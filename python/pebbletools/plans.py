"""Plans: a report and a list of steps, each with the vertex that it moves or computes."""
from __future__ import annotations

from dataclasses import dataclass
from typing import Dict, List, Optional, Tuple

from . import program
from .errors import ProgramError
from .kernels import Form, FormOperand, Kernel
from .texts import Graph, Operand, Report, TextError, read_code, read_report


@dataclass(frozen=True)
class Step:
    """An instruction of a code, with the vertex that it moves or computes. `memory` is the word of slow memory of a load or a store."""
    word: str                           # load, store, or the word of an operation
    slot: int
    memory: int = -1
    operands: Tuple[Operand, ...] = ()
    vertex: int = -1

    @property
    def moves(self) -> bool:
        return self.word in ('load', 'store')


@dataclass
class Plan:
    """A planned kernel: `report` has the cost, the bound and the verdict, `steps` the instructions."""
    kernel: Kernel
    report: Report
    words: int                          # of slow memory
    outputs: List[Tuple[str, int]]      # labels, and the words where they are at the end
    steps: List[Step]
    text: str                           # report and code as printed

    @property
    def cost(self) -> int:
        return self.report.cost

    @property
    def bound(self) -> int:
        return self.report.bound

    @property
    def verdict(self) -> str:
        """`Optimal`, `Open`, or nothing if no search gave the code."""
        return self.report.verdict

    def name(self, step: Step) -> str:
        """What the source calls the value of a step, such as `x[3]` or `acc.4`."""
        return self.kernel.name_of(step.vertex)


def read_plan(kernel: Kernel, text: str, report: Optional[Report] = None) -> Plan:
    """The plan of a kernel that `plan`, `improve` or `tidy` printed.

    An operation's word, its constants and the vertices in the slots that it reads are a form, and a form has one vertex. (There is one exception.
    If a kernel whose numbers are the source's sets two outputs to the same constant, these share the form `set`. The numbers are equal, so
    either will do, and the first that is not computed yet is taken.) Anything that does not fit is an error: then code and kernel do not
    belong together.
    """
    code = read_code(text)
    if (code.inputs, [label for label, _ in code.outputs]) != (kernel.input_names, kernel.output_names):
        raise ProgramError('the code has other inputs or outputs than the kernel')
    plan = Plan(kernel, report or read_report(text), code.words, code.outputs, [], text)
    by_form: Dict[Form, List[int]] = {}
    for k, form in enumerate(kernel.forms):
        by_form.setdefault(form, []).append(len(kernel.inputs) + k)
    slots: Dict[int, int] = {}
    memory = dict(enumerate(range(len(kernel.inputs))))
    for k, (word, slot, rest) in enumerate(code.instructions):
        try:
            if isinstance(rest, int):
                vertex = memory[rest] if word == 'load' else slots[slot]
                plan.steps.append(Step(word, slot, rest, (), vertex))
            else:
                read: Tuple[FormOperand, ...] = tuple(('v', slots[value]) if kind == 'slot' else ('#', value) for kind, value in rest)
                candidates = by_form[Form(word, read)]
                vertex = candidates.pop(0) if len(candidates) > 1 else candidates[0]
                plan.steps.append(Step(word, slot, -1, tuple(rest), vertex))
        except KeyError:
            raise ProgramError(f'instruction {k} of the code ({word}) belongs to no vertex of the kernel') from None
        if word == 'store':
            memory[plan.steps[-1].memory] = vertex
        else:
            slots[slot] = vertex
    _check_outputs(plan, memory)
    return plan


def _check_outputs(plan: Plan, memory: Dict[int, int]) -> None:
    kernel = plan.kernel
    for k, (label, word) in enumerate(plan.outputs):
        held, meant = memory.get(word), kernel.output_vertex(k)
        if held != meant and (held is None or min(held, meant) < len(kernel.inputs) or kernel.form(held) != kernel.form(meant)):
            raise ProgramError(f'the code leaves another value in {label} than the kernel')


def plan(kernel: Kernel, slots: int, budget: Optional[int] = None, load: int = 1, store: int = 1, effort: Optional[int] = None) -> Plan:
    """Plans a kernel: with a budget by `plan`, with an effort by `improve`, and with neither by `improve` if it is there."""
    if slots <= kernel.degree:
        raise ProgramError(f'{kernel.name} needs {kernel.degree + 1} slots at least: one operation reads {kernel.degree} values', 4)
    if budget is not None and effort is not None:
        raise ProgramError('give a budget (for plan) or an effort (for improve), and not both')
    improver = None if budget is not None else program.find_improver()
    if effort is not None and improver is None:
        raise ProgramError('there is no program improve here, which an effort is for: give a budget')
    if improver:
        words = ['improve', str(slots), 'table', str(20 if effort is None else effort)]
    else:
        words = ['plan', str(slots), 'table', str(20000 if budget is None else budget)]
    if (load, store) != (1, 1):
        words += [str(load), str(store)]
    _, text = program.ask(words, kernel.text(), program=improver)
    report = read_report(text)
    if (report.vertices, report.inputs, report.degree) != (kernel.vertices, len(kernel.inputs), kernel.degree):
        raise ProgramError('the planner sees another graph than this package: the planner and this package do not fit together')
    return read_plan(kernel, text, report)


def adopt(kernel: Kernel, text: str, load: int = 1, store: int = 1) -> Plan:
    """The plan of a code that was made otherwise, as `tidy` makes one of a schedule of your own."""
    try:
        code = read_code(text)
    except TextError as why:
        raise ProgramError(f'this is not a code: {why}') from None
    cost = sum(load if word == 'load' else store for word, _, _ in code.instructions if word in ('load', 'store'))
    report = Report(kernel.name, kernel.vertices, len(kernel.inputs), kernel.degree, code.slots, cost, cost, 0, 0, '', 0, load, store)
    return read_plan(kernel, text, report)


def fits(kernel: Kernel, graph: Graph) -> bool:
    """Whether the planner's graph has exactly the kernel's vertices, predecessors, forms, inputs and outputs."""
    printed = [(vertex.word, tuple((argument[0], int(argument[1:])) for argument in vertex.arguments))
               for vertex in graph.vertices[len(kernel.inputs):]]
    printed = [(word, tuple(('v' if kind == 'v' else '#', number) for kind, number in operands)) for word, operands in printed]
    return (graph.inputs == kernel.input_names
            and printed == [(form.word, form.operands) for form in kernel.forms]
            and [sorted(set(vertex.operands())) for vertex in graph.vertices] == [kernel.predecessors(k) for k in range(kernel.vertices)]
            and graph.outputs == [(label, kernel.output_vertex(k)) for k, label in enumerate(kernel.output_names)])
