"""The intermediate form of a kernel, and its text for the planner.

A `Kernel` is a straight list of operations on scalar values. Its vertices are numbered as the planner numbers them: first the inputs, in the
order of the parameters and row by row, then the operations in their order, then one vertex for each output that is a constant. Each operation
carries its real meaning as a template of C text, such as `{0} >> {1}`.

The planner needs only the graph. An operation that the kernel language has with the same meaning on 64-bit integers is written as such;
every other one is *opaque* and written as a placeholder that has exactly the same predecessors:

    one value        mad(a, a, K)
    two values       mad(a, b, K)
    three values     mad(a, b, c) or sel(a, b, c), in the first order of the three that is still free
    a constant       K, which the planner makes a vertex `set K`

K is a constant, and no vertex; it is the number of the operation's own vertex, or the next number that keeps the form free. A **form** is the
word with its operands. `forms` never gives one form to two operations, so that an instruction of the planned code, which names its word,
its constants and the slots of its operands, belongs to exactly one vertex (`plans.read_plan`).
"""
from __future__ import annotations

import itertools
import re
from dataclasses import dataclass, field
from typing import Dict, Iterator, List, Optional, Sequence, Set, Tuple, Union

from .ctype import I64, CType, Number, literal
from .errors import KernelError

MOST_VERTICES = 256
MOST_OPERANDS = 3
LONGEST_NAME = 64  # bytes
LONGEST_TEXT = 65536
LARGEST_SIZE = 64
RESERVED = frozenset('kernel in out tmp for min max sel mad if else by'.split())
RETURN = 'return'  # the name of the element that a function returns


# ---- values

@dataclass(frozen=True, eq=False)
class Const:
    """A constant; `text` spells it if no number is known, as of `sqrt(2.0)`. 0.0 and -0.0 are two constants."""
    value: Optional[Number]
    type: CType
    text: str = ''

    def _key(self) -> Tuple[str, CType, str]:
        return repr(self.value), self.type, self.text

    def __eq__(self, other: object) -> bool:
        return isinstance(other, Const) and self._key() == other._key()

    def __hash__(self) -> int:
        return hash(self._key())

    def c_text(self) -> str:
        return self.text if self.value is None else literal(self.value, self.type)


@dataclass(frozen=True)
class Ref:
    """A vertex as an operation reads it: through casts, which are part of the reading operation and not vertices. `type` is the type after them."""
    vertex: int
    type: CType
    casts: Tuple[CType, ...] = ()


Operand = Union[Const, Ref]


@dataclass(frozen=True)
class Param:
    """A parameter of the function: a scalar (shape `()`), an array, or a pointer to its elements."""
    name: str
    shape: Tuple[int, ...]
    type: CType
    const: bool = False
    pointer: bool = False
    spelling: str = ''  # how the source spells the type, if otherwise than `type`

    def elements(self) -> Iterator[Tuple[int, ...]]:
        return itertools.product(*map(range, self.shape))

    def declaration(self) -> str:
        """The parameter as C declares it."""
        sizes = '' if self.pointer else ''.join(f'[{size}]' for size in self.shape)
        return f'{"const " if self.const else ""}{self.spelling or self.type} {"*" if self.pointer else ""}{self.name}{sizes}'


@dataclass(frozen=True)
class Element:
    """A parameter's element, or the value that the function returns."""
    param: str
    indices: Tuple[int, ...] = ()
    pointed: bool = False  # a number that a pointer points to

    def __str__(self) -> str:
        return self.param + ''.join(f'[{index}]' for index in self.indices)

    def c_text(self) -> str:
        return f'*{self.param}' if self.pointed else str(self)


@dataclass(frozen=True)
class Input:
    element: Element
    type: CType


@dataclass
class Operation:
    """An operation: its word (a sign of C, or `min`, `max`, `mad`, `call NAME`, `cast`), the type of its result, and its C text."""
    word: str
    type: CType
    operands: Tuple[Operand, ...]
    template: str
    label: str = ''  # the variable or element that first holds it
    place: str = ''  # file:line

    def reads(self) -> List[int]:
        """The vertices that it reads, each once, in order."""
        return list(dict.fromkeys(operand.vertex for operand in self.operands if isinstance(operand, Ref)))


@dataclass(frozen=True)
class Output:
    element: Element
    type: CType
    value: Operand


@dataclass
class Kernel:
    name: str
    params: List[Param]
    inputs: List[Input]
    operations: List[Operation]
    outputs: List[Output]
    returns: Optional[CType] = None
    prelude: str = ''                # C text before the function: includes, prototypes
    merged: int = 0                  # equal operations that became one
    forms: List['Form'] = field(default_factory=list)  # of the vertices after the inputs
    native: bool = False             # whether the planner's own `run` gives the kernel's numbers
    input_names: List[str] = field(default_factory=list)
    output_names: List[str] = field(default_factory=list)
    versions: Dict[int, str] = field(default_factory=dict)  # the names of operations, for people

    def __post_init__(self) -> None:
        self._check_counts()
        self._name_elements()
        self._number_versions()
        self.forms, self.native = forms(self)

    # -- the graph

    @property
    def constants(self) -> List[int]:
        """The outputs that are constants, which have a vertex each."""
        return [k for k, output in enumerate(self.outputs) if isinstance(output.value, Const)]

    @property
    def vertices(self) -> int:
        return len(self.inputs) + len(self.operations) + len(self.constants)

    @property
    def degree(self) -> int:
        return max((len(operation.reads()) for operation in self.operations), default=0)

    def operation(self, vertex: int) -> Optional[Operation]:
        """The operation of a vertex, or None for an input or a constant."""
        k = vertex - len(self.inputs)
        return self.operations[k] if 0 <= k < len(self.operations) else None

    def output_vertex(self, k: int) -> int:
        """The vertex that the k-th output names."""
        value = self.outputs[k].value
        if isinstance(value, Ref):
            return value.vertex
        return len(self.inputs) + len(self.operations) + self.constants.index(k)

    def form(self, vertex: int) -> 'Form':
        """The form of a vertex that is no input."""
        return self.forms[vertex - len(self.inputs)]

    def predecessors(self, vertex: int) -> List[int]:
        operation = self.operation(vertex)
        return sorted(operation.reads()) if operation else []

    def constant_of(self, vertex: int) -> Output:
        """The output of a vertex that is a constant."""
        return self.outputs[self.constants[vertex - len(self.inputs) - len(self.operations)]]

    def type_of(self, vertex: int) -> CType:
        if vertex < len(self.inputs):
            return self.inputs[vertex].type
        operation = self.operation(vertex)
        return operation.type if operation else self.constant_of(vertex).type

    def name_of(self, vertex: int) -> str:
        """What a person calls a vertex: `x[3]`, `y[2]`, `acc.4` (the fourth value of acc), or `v17`."""
        if vertex < len(self.inputs):
            return str(self.inputs[vertex].element)
        operation = self.operation(vertex)
        if operation is None:
            return str(self.constant_of(vertex).element)
        return self.versions[vertex]

    def meaning_of(self, operation: Operation) -> str:
        """An operation as text, with the names of what it reads."""
        texts = [self.name_of(operand.vertex) if isinstance(operand, Ref) else str(operand.value) if isinstance(operand.value, int)
                 else operand.c_text() for operand in operation.operands]
        return operation.template.format(*texts)

    # -- checks and names

    def _number_versions(self) -> None:
        """One name for each operation. The last value of an output's element has the plain name, unless that is an input's."""
        count: Dict[str, int] = {}
        for operation in self.operations:
            count[operation.label] = count.get(operation.label, 0) + 1
        plain = {self.output_vertex(k): str(output.element) for k, output in enumerate(self.outputs)}
        old = {str(read.element) for read in self.inputs}
        seen: Dict[str, int] = {}
        for vertex, operation in enumerate(self.operations, len(self.inputs)):
            label = operation.label
            seen[label] = seen.get(label, 0) + 1
            if not label:
                name = f'v{vertex}'
            elif label not in old and (count[label] == 1 or plain.get(vertex) == label):
                name = label
            else:
                name = f'{label}.{seen[label]}'
            self.versions[vertex] = name

    def _check_counts(self) -> None:
        if not self.outputs:
            raise KernelError(f'{self.name} writes no output: give it an array that is not const, a pointer, or a result')
        if self.vertices > MOST_VERTICES:
            arrays: Dict[str, int] = {}
            for read in self.inputs:
                arrays[read.element.param] = arrays.get(read.element.param, 0) + 1
            listed = ', '.join(f'{name} {count}' for name, count in arrays.items())
            fusable = {'+', '*'} <= {operation.word for operation in self.operations}
            fusable = fusable and not any(operation.word == 'mad' for operation in self.operations)
            raise KernelError(
                f'{self.name} has {self.vertices} values ({len(self.inputs)} inputs: {listed}; {len(self.operations)} operations; '
                f'{len(self.constants)} constants), {self.vertices - MOST_VERTICES} more than the {MOST_VERTICES} that a plan can have: '
                f'plan a tile{", or let a product and its sum be one operation (--mad)" if fusable else ""}', self._first_too_many())
        for operation in self.operations:
            if len(operation.reads()) > MOST_OPERANDS:
                raise KernelError(f'{operation.word} reads {len(operation.reads())} values, and an operation of a plan reads at most '
                                  f'{MOST_OPERANDS}: split it', operation.place)

    def _first_too_many(self) -> str:
        k = MOST_VERTICES - len(self.inputs)
        return self.operations[k].place if 0 <= k < len(self.operations) else ''

    def _name_elements(self) -> None:
        taken: Set[str] = set()
        inputs = [read.element for read in self.inputs]
        outputs = [output.element for output in self.outputs]
        written = {element.param for element in outputs}
        self.input_names = self._names(inputs, taken, set())
        self.output_names = self._names(outputs, taken, {element.param for element in inputs} & written)

    def _names(self, elements: Sequence[Element], taken: Set[str], in_place: Set[str]) -> List[str]:
        """Names for elements, as the kernel text has them: an array as such if all of it is there, and else a scalar for each element."""
        shapes = {param.name: param.shape for param in self.params}
        count: Dict[str, int] = {}
        for element in elements:
            count[element.param] = count.get(element.param, 0) + 1
        bases: Dict[str, str] = {}
        for param in count:
            base = 'result' if param == RETURN else re.sub(r'\W', '_', param)
            base += '_out' if param in in_place else ''
            while base in taken or base in RESERVED:
                base += '_'
            taken.add(base)
            bases[param] = base
        names = []
        for element in elements:
            shape, base = shapes.get(element.param, ()), bases[element.param]
            total = 1
            for size in shape:
                total *= size
            if count[element.param] == total and len(shape) <= 2 and all(size <= LARGEST_SIZE for size in shape):
                name = base + ''.join(f'[{index}]' for index in element.indices)
            else:
                name = '_'.join([base, *map(str, element.indices)])
                while name in taken and element.indices:
                    name += '_'
                taken.add(name)
            if len(name.partition('[')[0].encode()) > LONGEST_NAME:
                raise KernelError(f'the name {name} has more than {LONGEST_NAME} bytes')
            names.append(name)
        return names

    # -- the text

    def text(self) -> str:
        """The kernel as the planner reads it: one statement for each operation."""
        for with_comments in (True, False):
            text = '\n'.join(self._lines(with_comments)) + '\n'
            if len(text.encode()) <= LONGEST_TEXT:
                return text
        raise KernelError(f'the text of {self.name} has more than {LONGEST_TEXT} bytes: give shorter names, or plan a tile')

    def _lines(self, with_comments: bool) -> Iterator[str]:
        prefix = 'v'
        while any(name.startswith(prefix) for name in self.input_names + self.output_names):
            prefix += '_'
        names = self.input_names + [f'{prefix}{vertex}' for vertex in range(len(self.inputs), self.vertices)]
        name = re.sub(r'\W', '_', self.name) + '_' * (self.name in RESERVED)
        yield f'// {"the numbers are those of the source" if self.native else "a graph only: its mad and sel may stand for other operations"}'
        yield f'kernel {name} {{'
        yield from self._declarations('in', self.input_names)
        yield from self._declarations('out', self.output_names)
        temporaries = names[len(self.inputs):len(self.inputs) + len(self.operations)]
        for k in range(0, len(temporaries), 10):
            yield '  ' + ' '.join(f'tmp {name};' for name in temporaries[k:k + 10])
        owners: Dict[int, List[int]] = {}
        for k, output in enumerate(self.outputs):
            if isinstance(output.value, Ref):
                owners.setdefault(output.value.vertex, []).append(k)
        for vertex in range(len(self.inputs)):
            for k in owners.get(vertex, []):
                yield f'  {self.output_names[k]} = {names[vertex]};'
        for k, operation in enumerate(self.operations):
            vertex = len(self.inputs) + k
            comment = f'  // {self.name_of(vertex)} = {self.meaning_of(operation)}' if with_comments else ''
            yield f'  {names[vertex]} = {self.forms[k].text(names)};{comment}'
            for owner in owners.get(vertex, []):
                yield f'  {self.output_names[owner]} = {names[vertex]};'
        for k, form in zip(self.constants, self.forms[len(self.operations):]):
            yield f'  {self.output_names[k]} = {form.text(names)};'
        yield '}'

    def _declarations(self, kind: str, names: Sequence[str]) -> Iterator[str]:
        sizes: Dict[str, List[int]] = {}
        for name in names:
            base, _, rest = name.partition('[')
            indices = [int(index) for index in rest.rstrip(']').split('][')] if rest else []
            largest = sizes.setdefault(base, indices)
            sizes[base] = [max(pair) for pair in zip(largest, indices)]
        for base, largest in sizes.items():
            yield f'  {kind} {base}{"".join(f"[{index + 1}]" for index in largest)};'


# ---- forms

FormOperand = Tuple[str, int]  # ('v', a vertex) or ('#', a constant)


@dataclass(frozen=True)
class Form:
    """A word of the kernel language with its operands: what an instruction of planned code shows of its vertex."""
    word: str
    operands: Tuple[FormOperand, ...]

    def text(self, names: Sequence[str]) -> str:
        texts = [names[number] if kind == 'v' else kernel_number(number) for kind, number in self.operands]
        if self.word in SIGNS:
            return f'{texts[0]} {SIGNS[self.word]} {texts[1]}'
        if self.word == 'neg':
            return f'-{texts[0]}'
        if self.word == 'set':
            return texts[0]
        return f'{self.word}({", ".join(texts)})'


SIGNS = {'add': '+', 'sub': '-', 'mul': '*', 'and': '&', 'or': '|', 'xor': '^'}
WORDS = {sign: word for word, sign in SIGNS.items()}
WORDS.update({'neg': 'neg', 'min': 'min', 'max': 'max', '?:': 'sel', 'mad': 'mad'})


def kernel_number(value: int) -> str:
    """A constant as the kernel language spells it, which has no literal for the least number."""
    if value == I64.least:
        return '(-9223372036854775807 - 1)'
    return str(value) if value >= 0 else f'(-{-value})'


def is_identity(casts: Sequence[CType], start: CType) -> bool:
    """Whether casts leave a whole number as it is, seen as 64 bits of two's complement."""
    for ctype in casts:
        if ctype.floating or start.floating or not (ctype.bits == 64 or ctype.holds(start)):
            return False
        start = ctype
    return not start.floating


def _as_int64(kernel: Kernel, operand: Operand) -> Optional[FormOperand]:
    """An operand as the kernel language has it, if it means the same there."""
    if isinstance(operand, Ref):
        return ('v', operand.vertex) if is_identity(operand.casts, kernel.type_of(operand.vertex)) else None
    if operand.value is None or operand.type.floating:
        return None
    return '#', int(I64.convert(operand.value))


def _native_form(kernel: Kernel, operation: Operation) -> Optional[Form]:
    """The operation in the kernel language, if that has it with the same meaning on 64 bits."""
    word = WORDS.get(operation.word)
    if word is None or operation.type.floating or operation.type.bits != 64:
        return None
    if word in ('min', 'max') and not operation.type.signed:
        return None
    operands = [_as_int64(kernel, operand) for operand in operation.operands]
    return None if None in operands else Form(word, tuple(operand for operand in operands if operand))


def _opaque_forms(vertex: int, reads: Sequence[int]) -> Iterator[Form]:
    """The placeholders that read exactly these vertices, best first."""
    if len(reads) == MOST_OPERANDS:
        for word in ('mad', 'sel'):
            for order in itertools.permutations(reads):
                yield Form(word, tuple(('v', read) for read in order))
        return
    for number in itertools.count(vertex):
        if not reads:
            yield Form('set', (('#', number),))
        else:
            yield Form('mad', (('v', reads[0]), ('v', reads[-1]), ('#', number)))


def forms(kernel: Kernel) -> Tuple[List[Form], bool]:
    """A form for each vertex after the inputs, and whether all of them mean what the source means. No operation shares its form."""
    natives = [_native_form(kernel, operation) for operation in kernel.operations]
    numbers = [_as_int64(kernel, kernel.outputs[k].value) for k in kernel.constants]
    plain = all(is_identity(output.value.casts, kernel.type_of(output.value.vertex)) for output in kernel.outputs if isinstance(output.value, Ref))
    native = plain and None not in natives and None not in numbers and len(set(natives)) == len(natives)
    native = native and not any(read.type.floating for read in kernel.inputs)
    if native:
        # Two outputs may be the same constant; their vertices then share a form and, as they are equal numbers, also what is computed.
        return [form for form in natives if form] + [Form('set', (number,)) for number in numbers if number], True
    taken: Set[Form] = set()
    chosen: List[Optional[Form]] = []
    for meant in natives:
        chosen.append(meant if meant not in taken else None)
        if meant is not None:
            taken.add(meant)
    for k, operation in enumerate(kernel.operations):
        if chosen[k] is None:
            free = next((form for form in _opaque_forms(len(kernel.inputs) + k, operation.reads()) if form not in taken), None)
            if free is None:
                raise KernelError('more than twelve different operations read the same three values', operation.place)
            chosen[k] = free
            taken.add(free)
    first = len(kernel.inputs) + len(kernel.operations)
    constants = [Form('set', (('#', first + k),)) for k in range(len(kernel.constants))]
    return [form for form in chosen if form] + constants, False
