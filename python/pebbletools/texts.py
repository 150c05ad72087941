"""Readers of what the planner prints: reports, codes and graphs. docs/FORMATS.md has their forms. The scripts of tools/ read by them too."""
from __future__ import annotations

import re
from dataclasses import MISSING, dataclass
from typing import Dict, List, NamedTuple, Optional, Sequence, Set, Tuple, Union

from .errors import PebbleToolsError

LEAST, GREATEST = -2 ** 63, 2 ** 63 - 1
OPERANDS = {'set': 1, 'neg': 1, 'add': 2, 'sub': 2, 'mul': 2, 'and': 2, 'or': 2, 'xor': 2, 'min': 2, 'max': 2, 'sel': 3, 'mad': 3}
MOST_SLOTS, MOST_WORDS = 64, 256


class TextError(PebbleToolsError):
    """A text is not what the planner prints; the message says why."""


def demand(holds: object, what: str) -> None:
    if not holds:
        raise TextError(what)


# ---- codes

Operand = Tuple[str, int]  # ('slot', a number) or ('constant', a value)


class Instruction(NamedTuple):
    """A line of code. `rest` is the word of slow memory of a load or a store, and else the operands."""
    word: str
    slot: int
    rest: Union[int, List[Operand]]

    def text(self) -> str:
        if isinstance(self.rest, int):
            return f'{self.word} {self.slot} {self.rest}'
        return ' '.join([self.word, str(self.slot)] + [f's{value}' if kind == 'slot' else f'#{value}' for kind, value in self.rest])


class Code(NamedTuple):
    slots: int
    words: int
    inputs: List[str]
    outputs: List[Tuple[str, int]]  # a label, and the word where it is at the end
    instructions: List[Instruction]


def read_number(text: str, high: int) -> int:
    demand(re.fullmatch(r'0|[1-9][0-9]{0,8}', text) and int(text) <= high, f'{text} is not a number up to {high}')
    return int(text)


def read_operand(text: str, slots: int) -> Operand:
    if text.startswith('s'):
        return 'slot', read_number(text[1:], slots - 1)
    demand(re.fullmatch(r'#(0|-?[1-9][0-9]*)', text), f'{text} is not an operand')
    demand(LEAST <= int(text[1:]) <= GREATEST, f'{text} has more than 64 bits')
    return 'constant', int(text[1:])


def read_instruction(parts: Sequence[str], slots: int, words: int) -> Instruction:
    word, slot = parts[0], read_number(parts[1], slots - 1)
    if word in ('load', 'store'):
        demand(len(parts) == 3, f'{word} has one slot and one word')
        return Instruction(word, slot, read_number(parts[2], words - 1))
    demand(word in OPERANDS, f'{word} is not an instruction')
    operands = [read_operand(text, slots) for text in parts[2:]]
    demand(len(operands) == OPERANDS[word], f'{word} has another number of operands')
    demand(word != 'set' or operands[0][0] == 'constant', 'set has no constant')
    return Instruction(word, slot, operands)


def read_code_lines(lines: Sequence[str]) -> Code:
    """The code of lines without comments: slots, words, inputs, outputs, instructions, end."""
    rows = [line.split(' ') for line in lines]
    demand(len(rows) >= 3 and rows[-1] == ['end'], 'the code does not end with end')
    demand([row[0] for row in rows[:2]] == ['slots', 'words'], 'the code does not begin with slots and words')
    slots, words = read_number(' '.join(rows[0][1:]), MOST_SLOTS), read_number(' '.join(rows[1][1:]), MOST_WORDS)
    code, section = Code(slots, words, [], [], []), 0
    for row in rows[2:-1]:
        place = {'in': 0, 'out': 1}.get(row[0], 2)
        demand(place >= section, f'the line {" ".join(row)} comes too late')
        section = place
        demand(len(row) >= 2, f'the line {row[0]} is too short')
        if place == 0:
            demand(len(row) == 2, 'in has a label')
            code.inputs.append(row[1])
        elif place == 1:
            demand(len(row) == 3, 'out has a label and a word')
            code.outputs.append((row[1], read_number(row[2], words - 1)))
        else:
            code.instructions.append(read_instruction(row, slots, words))
    return code


FAULT_LINE = re.compile(r'(?:kernel|code|values|exec|play) (?:fault|incomplete)|too small needs|refused reason|usage: pebble')


def read_code(text: str) -> Code:
    """The code of a text; lines that begin with `;` are comments."""
    demand(not FAULT_LINE.match(text), f'this is what pebble printed at a fault, not a code: {text[:60].strip()}')
    demand(text == '' or text.endswith('\n'), 'the last line does not end')
    code = read_code_lines([line for line in text.split('\n')[:-1] if not line.startswith(';')])
    demand(len(code.inputs) <= code.words, 'there are more inputs than words')
    return code


# ---- reports

@dataclass(frozen=True)
class Report:
    """The lines before a code. `first` is the cost of the plan in the source's order. `improve` has an effort, `plan` a budget."""
    kernel: str
    vertices: int
    inputs: int
    degree: int
    slots: int
    first: int
    cost: int
    bound: int
    expanded: int
    verdict: str
    budget: int = 0
    load: int = 1
    store: int = 1
    effort: Optional[int] = None


_NUMBERS = ('vertices', 'inputs', 'degree', 'slots', 'first', 'cost', 'bound', 'expanded', 'budget', 'load', 'store', 'effort')


def read_report(text: str) -> Report:
    pairs = dict(line[2:].split(' ', 1) for line in text.splitlines() if line.startswith('; ') and ' ' in line[2:])
    missing = [name for name, field in Report.__dataclass_fields__.items() if name not in pairs and field.default is MISSING]
    demand(not missing, f'this is not a report of a plan, which has lines for {", ".join(missing)}')
    try:
        known = {name: int(value) if name in _NUMBERS else value for name, value in pairs.items() if name in Report.__dataclass_fields__}
    except ValueError as why:
        raise TextError(f'the report of a plan cannot be read: {why}') from None
    return Report(**known)  # type: ignore[arg-type]


# ---- graphs

class Vertex(NamedTuple):
    """A line of a graph: the word of an operation and its operands as printed, `v3` or `#7`; an input has the word `in` and its label."""
    word: str
    arguments: List[str]

    def operands(self) -> List[int]:
        """The vertices that it reads, from the left, with repetitions."""
        return [] if self.word == 'in' else [int(argument[1:]) for argument in self.arguments if argument.startswith('v')]


class Graph(NamedTuple):
    vertices: List[Vertex]
    outputs: List[Tuple[str, int]]  # a label and a vertex

    @property
    def inputs(self) -> List[str]:
        return [vertex.arguments[0] for vertex in self.vertices if vertex.word == 'in']

    def live(self) -> set:
        """The vertices from which a path leads to an output, and the outputs."""
        live = {number for _, number in self.outputs}
        for number in range(len(self.vertices) - 1, -1, -1):
            if number in live:
                live.update(self.vertices[number].operands())
        return live


def read_graph(text: str) -> Graph:
    """The graph that `pebble graph` printed."""
    graph = Graph([], [])
    for line in text.splitlines():
        words = line.split()
        if len(words) == 3 and words[0] == 'out':
            graph.outputs.append((words[1], int(words[2][1:])))
        elif len(words) > 1 and words[0] == str(len(graph.vertices)):
            graph.vertices.append(Vertex(words[1], words[2:]))
    demand(text.startswith('vertices ') and text.splitlines()[0] == f'vertices {len(graph.vertices)}', 'the text is not what pebble graph prints')
    return graph


# ---- names

def order_names(graph: Graph) -> Dict[str, int]:
    """The names of vertices that can be computed: `v17`, an output's label, and `LABEL.K`, the K-th of the vertices that lead to the output
    LABEL and to no other."""
    names = {f'v{number}': number for number in range(len(graph.inputs), len(graph.vertices))}
    leads_to: List[Set[int]] = [set() for _ in graph.vertices]
    for k, (_, vertex) in enumerate(graph.outputs):
        leads_to[vertex].add(k)
    for number in range(len(graph.vertices) - 1, -1, -1):
        for operand in graph.vertices[number].operands():
            leads_to[operand] |= leads_to[number]
    for k, (label, vertex) in enumerate(graph.outputs):
        names[label] = vertex
        alone = [number for number in range(len(graph.inputs), len(graph.vertices)) if leads_to[number] == {k}]
        names.update({f'{label}.{count}': number for count, number in enumerate(alone, 1)})
    return names
