"""Makes kernels: C's arithmetic on values that are constants or vertices.

Constants are folded with C's types. Equal operations become one: a plan may compute a value again anyhow, so this can only lower the cost.
What no output needs is left out.
"""
from __future__ import annotations

from typing import Any, Callable, Dict, List, Optional, Sequence, Set, Tuple

from .ctype import BOOL, I32, UNSIGNED, CType, Number, common, promoted
from .errors import SourceError
from .kernels import Const, Element, Input, Kernel, Operand, Operation, Output, Param, Ref, is_identity

MOST_OPERATIONS = 50_000  # at which unrolling is given up
COMPARISONS = {'<', '>', '<=', '>=', '==', '!='}
COMMUTATIVE = {'+', '*', '&', '|', '^', '==', '!='}
SHIFTS = {'<<', '>>'}
LOGICAL = {'&&', '||'}
INTEGERS_ONLY = {'%', '<<', '>>', '&', '|', '^', '~'}
BINARY = COMPARISONS | COMMUTATIVE | SHIFTS | LOGICAL | {'-', '/', '%'}


def _quotient(a: int, b: int) -> int:
    """C's division, which cuts towards zero."""
    return abs(a) // abs(b) * (1 if (a < 0) == (b < 0) else -1)


FOLD: Dict[str, Callable[[Any, Any], Number]] = {
    '+': lambda a, b: a + b, '-': lambda a, b: a - b, '*': lambda a, b: a * b, '&': lambda a, b: a & b, '|': lambda a, b: a | b,
    '^': lambda a, b: a ^ b, '<<': lambda a, b: a << b, '>>': lambda a, b: a >> b, '%': lambda a, b: a - b * _quotient(a, b),
    '<': lambda a, b: a < b, '>': lambda a, b: a > b, '<=': lambda a, b: a <= b, '>=': lambda a, b: a >= b, '==': lambda a, b: a == b,
    '!=': lambda a, b: a != b, '&&': lambda a, b: bool(a) and bool(b), '||': lambda a, b: bool(a) or bool(b)}


class Builder:
    """Collects the operations of one kernel. `place` is the line of the source, for messages and comments."""

    def __init__(self, name: str):
        self.name = name
        self.place = ''
        self.guarded = 0  # how many conditions on data hold what is computed now; see `_template`
        self.merged = 0
        self._inputs: List[Input] = []
        self._input_numbers: Dict[Element, int] = {}
        self._input_types: Dict[int, CType] = {}
        self._operations: Dict[int, Operation] = {}
        self._numbers: Dict[tuple, int] = {}
        self._next = 0

    # -- values

    def input(self, element: Element, ctype: CType) -> Ref:
        """The value that an element of a parameter holds at the start."""
        if element not in self._input_numbers:
            self._input_numbers[element] = self._fresh()
            self._inputs.append(Input(element, ctype))
            self._input_types[self._input_numbers[element]] = ctype
        return Ref(self._input_numbers[element], ctype)

    def _fresh(self) -> int:
        self._next += 1
        if self._next > MOST_OPERATIONS:
            raise SourceError(f'more than {MOST_OPERATIONS} operations come of the loops: plan a tile', self.place)
        return self._next - 1

    def convert(self, value: Operand, ctype: CType) -> Operand:
        """A value converted to a type. A conversion is part of the operation that reads the value."""
        if value.type == ctype:
            return value
        if isinstance(value, Const):
            if value.value is None:
                return Const(None, ctype, f'(({ctype}){value.text})')
            try:
                return Const(ctype.convert(value.value), ctype)
            except (OverflowError, ValueError):
                raise SourceError(f'{value.value} cannot become {ctype}', self.place) from None
        casts = list(value.casts)
        start = self._type_of(value.vertex)
        while casts:  # a cast needs not be done before another if it loses nothing, or only says how the same bits are signed
            before = casts[-2] if len(casts) > 1 else start
            same_bits = casts[-1].bits == ctype.bits and not (casts[-1].floating or ctype.floating or before.floating)
            if not same_bits and (not casts[-1].holds(before) or casts[-1] is BOOL):
                break
            casts.pop()
        last = casts[-1] if casts else start
        if last != ctype:
            casts.append(ctype)
        return Ref(value.vertex, ctype, tuple(casts))

    def _type_of(self, vertex: int) -> CType:
        operation = self._operations.get(vertex)
        return operation.type if operation else self._input_types[vertex]

    def label(self, value: Operand, label: str) -> None:
        """Says which variable or element holds a value; the first one counts."""
        operation = self._operations.get(value.vertex) if isinstance(value, Ref) else None
        if operation and not operation.label:
            operation.label = label

    # -- operations

    def _operation(self, word: str, ctype: CType, operands: Sequence[Operand], template: str) -> Operand:
        constants = [operand for operand in operands if isinstance(operand, Const)]
        if len(constants) == len(operands):
            return Const(None, ctype, '(' + template.format(*(constant.c_text() for constant in constants)) + ')')
        key_operands = sorted(operands, key=repr) if word in COMMUTATIVE else operands
        key = (word, ctype, tuple(key_operands))
        if key in self._numbers:
            self.merged += 1
            return Ref(self._numbers[key], ctype)
        self._refuse_traps(word, operands)
        vertex = self._fresh()
        self._numbers[key] = vertex
        self._operations[vertex] = Operation(word, ctype, tuple(operands), template, '', self.place)
        return Ref(vertex, ctype)

    def _refuse_traps(self, word: str, operands: Sequence[Operand]) -> None:
        """What C does not compute, because data chose so, the plan computes: it must be defined for all values."""
        if not self.guarded or word not in ('/', '%', '<<', '>>') or operands[0].type.floating:
            return
        right = operands[1]
        if isinstance(right, Const) and right.value is not None and (word in SHIFTS or right.value not in (0, -1)):
            return
        raise SourceError(f'{word} by a value is computed only if data say so; a plan computes it always, and then it may be undefined: '
                          f'compute it before, with an operand that is right for all data', self.place)

    def _template(self, sign: str, ctype: CType, text: str, unsigned_text: str) -> str:
        """The text of signed arithmetic; if data decide whether C computes it, it wraps in place of being undefined."""
        if self.guarded and ctype.signed and not ctype.floating and sign in ('+', '-', '*', '<<', 'neg'):
            return f'({ctype}){unsigned_text}'
        return text

    def binary(self, sign: str, left: Operand, right: Operand) -> Operand:
        """An operator of C with two operands."""
        if sign in INTEGERS_ONLY and (left.type.floating or right.type.floating):
            raise SourceError(f'{sign} has an operand of type {left.type if left.type.floating else right.type}', self.place)
        if sign in LOGICAL:
            return self._logical(sign, left, right)
        if sign in SHIFTS:
            shared = promoted(left.type)
            left, right = self.convert(left, shared), self.convert(right, promoted(right.type))
        else:
            shared = common(left.type, right.type)
            left, right = self.convert(left, shared), self.convert(right, shared)
        result = I32 if sign in COMPARISONS else shared
        folded = self._fold(sign, left, right, shared, result)
        if folded is not None:
            return folded
        unsigned = UNSIGNED.get(shared.bits, shared)
        second = '{1}' if sign in SHIFTS else f'({unsigned}){{1}}'
        template = self._template(sign, shared, f'{{0}} {sign} {{1}}', f'(({unsigned}){{0}} {sign} {second})')
        return self._operation(sign, result, (left, right), template)

    def _logical(self, sign: str, left: Operand, right: Operand) -> Operand:
        for this, other in ((left, right), (right, left)):
            if isinstance(this, Const) and this.value is not None:
                if bool(this.value) == (sign == '||'):
                    return Const(int(sign == '||'), I32)
                return self.truth(other)
        return self._operation(sign, I32, (left, right), f'{{0}} {sign} {{1}}')

    def truth(self, value: Operand) -> Operand:
        """1 or 0, as a condition is."""
        operation = self._operations.get(value.vertex) if isinstance(value, Ref) and not value.casts else None
        if operation and operation.word in COMPARISONS | LOGICAL | {'!'}:
            return value
        return self.binary('!=', value, Const(0, I32))

    def _fold(self, sign: str, left: Operand, right: Operand, shared: CType, result: CType) -> Optional[Operand]:
        """A constant, or one of the operands, if the operation changes nothing."""
        a = left.value if isinstance(left, Const) else None
        b = right.value if isinstance(right, Const) else None
        if b is not None and sign in SHIFTS and not 0 <= b < shared.bits:
            raise SourceError(f'{sign} by {b} is undefined for {shared}', self.place)
        if b == 0 and sign in ('/', '%') and not shared.floating:
            raise SourceError(f'{sign} by zero', self.place)
        if a is not None and b is not None:
            if sign == '/':
                if shared.floating and b == 0:
                    return None
                return Const(shared.convert(a / b if shared.floating else _quotient(int(a), int(b))), shared)
            return Const(result.convert(FOLD[sign](a, b)), result)
        if shared.floating:
            return None  # x + 0.0 and x * 1.0 are left: they may change the sign of zero, or quiet a NaN
        if b == 0 and sign in ('+', '-', '|', '^', '<<', '>>') or b == 1 and sign in ('*', '/'):
            return left
        if a == 0 and sign in ('+', '|', '^') or a == 1 and sign == '*':
            return right
        if 0 in (a, b) and sign in ('*', '&'):
            return Const(0, shared)
        if sign == '&' and shared.convert(-1) in (a, b):
            return left if a is None else right
        return None

    def unary(self, sign: str, value: Operand) -> Operand:
        """`+`, `-`, `~` or `!` of a value."""
        if sign == '!':
            if isinstance(value, Const) and value.value is not None:
                return Const(int(not value.value), I32)
            return self._operation('!', I32, (value,), '!{0}')
        if sign == '~' and value.type.floating:
            raise SourceError(f'~ has an operand of type {value.type}', self.place)
        value = self.convert(value, promoted(value.type))
        if sign == '+':
            return value
        if isinstance(value, Const) and value.value is not None:
            return Const(value.type.convert(-value.value if sign == '-' else ~int(value.value)), value.type)
        if sign == '~':
            return self._operation('~', value.type, (value,), '~{0}')
        unsigned = UNSIGNED.get(value.type.bits, value.type)
        return self._operation('neg', value.type, (value,), self._template('neg', value.type, '-{0}', f'(0 - ({unsigned}){{0}})'))

    def select(self, condition: Operand, yes: Operand, no: Operand) -> Operand:
        """`condition ? yes : no`, with both computed. A smaller or greater one of two becomes one operation."""
        shared = common(yes.type, no.type)
        yes, no = self.convert(yes, shared), self.convert(no, shared)
        if isinstance(condition, Const) and condition.value is not None:
            return yes if condition.value else no
        if yes == no:
            return yes
        return self._extreme(condition, yes, no) or self._operation('?:', shared, (condition, yes, no), '{0} ? {1} : {2}')

    def _extreme(self, condition: Operand, yes: Operand, no: Operand) -> Optional[Operand]:
        """`a < b ? a : b` and its like."""
        compared = self._operations.get(condition.vertex) if isinstance(condition, Ref) and not condition.casts else None
        if not compared or compared.word not in ('<', '>', '<=', '>='):
            return None
        left, right = compared.operands
        if (left, right) == (yes, no):
            word, template = ('min' if compared.word[0] == '<' else 'max'), f'{{0}} {compared.word} {{1}} ? {{0}} : {{1}}'
        elif (left, right) == (no, yes):
            word, template = ('max' if compared.word[0] == '<' else 'min'), f'{{0}} {compared.word} {{1}} ? {{1}} : {{0}}'
        else:
            return None
        if yes.type.floating:
            word = template  # which of two zeros, or what of a NaN, depends on the very form
        return self._operation(word, yes.type, (left, right), template)

    def call(self, function: str, result: CType, parameters: Sequence[CType], arguments: Sequence[Operand]) -> Operand:
        """A call of a function that only computes."""
        operands = tuple(self.convert(argument, ctype) for argument, ctype in zip(arguments, parameters))
        template = f'{function}({", ".join(f"{{{k}}}" for k in range(len(operands)))})'
        if len({operand.vertex for operand in operands if isinstance(operand, Ref)}) > 3:
            raise SourceError(f'the call of {function} reads more than three values', self.place)
        return self._operation(f'call {function}', result, operands, template)

    # -- the end

    def finish(self, params: List[Param], outputs: Sequence[Tuple[Element, CType, Operand]], returns: Optional[CType] = None,
               mad: bool = False, prelude: str = '') -> Kernel:
        """The kernel of the operations that the outputs need. `mad` lets a product and the sum that alone reads it be one operation."""
        ends = [(element, ctype, self.convert(value, ctype)) for element, ctype, value in outputs]
        if mad:
            self._fuse([value.vertex for _, _, value in ends if isinstance(value, Ref)])
        ends = self._settle_casts(self._absorb_casts(ends))
        live = self._live([value.vertex for _, _, value in ends if isinstance(value, Ref)])
        order = {param.name: k for k, param in enumerate(params)}
        reads = [read for read in self._inputs if self._input_numbers[read.element] in live]
        reads.sort(key=lambda read: (order[read.element.param], read.element.indices))
        ends.sort(key=lambda end: (order.get(end[0].param, len(order)), end[0].indices))
        old = [self._input_numbers[read.element] for read in reads] + sorted(vertex for vertex in live if vertex in self._operations)
        new = {vertex: k for k, vertex in enumerate(old)}

        def moved(value: Operand) -> Operand:
            return Ref(new[value.vertex], value.type, value.casts) if isinstance(value, Ref) else value

        operations = []
        for vertex in old[len(reads):]:
            operation = self._operations[vertex]
            operations.append(Operation(operation.word, operation.type, tuple(map(moved, operation.operands)), operation.template, operation.label,
                                        operation.place))
        return Kernel(self.name, params, reads, operations, [Output(element, ctype, moved(value)) for element, ctype, value in ends], returns,
                      prelude, self.merged)

    def _live(self, roots: Sequence[int]) -> set:
        live, waiting = set(), list(roots)
        while waiting:
            vertex = waiting.pop()
            if vertex not in live:
                live.add(vertex)
                waiting += self._operations[vertex].reads() if vertex in self._operations else []
        return live

    def _absorb_casts(self, ends: List[Tuple[Element, CType, Operand]]) -> List[Tuple[Element, CType, Operand]]:
        """Where all readers of a value begin with one cast that may lose something, the operation itself ends with it."""
        live = self._live([value.vertex for _, _, value in ends if isinstance(value, Ref)]) & self._operations.keys()
        first: Dict[int, Set[Optional[CType]]] = {}
        for operand in [*(operand for vertex in live for operand in self._operations[vertex].operands), *(value for _, _, value in ends)]:
            if isinstance(operand, Ref):
                first.setdefault(operand.vertex, set()).add(operand.casts[0] if operand.casts else None)
        absorbed = set()
        for vertex in live:
            operation = self._operations[vertex]
            cast = next(iter(first[vertex]))
            if len(first[vertex]) == 1 and cast is not None and not is_identity([cast], operation.type) and not cast.holds(operation.type):
                operation.word, operation.template = f'({cast}) {operation.word}', f'({cast})({operation.template})'
                operation.type = cast
                absorbed.add(vertex)

        def bare(value: Operand) -> Operand:
            return Ref(value.vertex, value.type, value.casts[1:]) if isinstance(value, Ref) and value.vertex in absorbed else value

        for vertex in live:
            self._operations[vertex].operands = tuple(map(bare, self._operations[vertex].operands))
        return [(element, ctype, bare(value)) for element, ctype, value in ends]

    def _settle_casts(self, ends: List[Tuple[Element, CType, Operand]]) -> List[Tuple[Element, CType, Operand]]:
        """An output's conversion is done as it is stored. Where others need the value before it, it gets a vertex of its own: else the
        output's word would not hold the value."""
        live = self._live([value.vertex for _, _, value in ends if isinstance(value, Ref)])
        readers: Dict[int, int] = {}
        for vertex in live:
            for read in self._operations[vertex].reads() if vertex in self._operations else []:
                readers[read] = readers.get(read, 0) + 1
        for ref in {value for _, _, value in ends if isinstance(value, Ref)}:
            readers[ref.vertex] = readers.get(ref.vertex, 0) + 1
        settled: List[Tuple[Element, CType, Operand]] = []
        for element, ctype, value in ends:
            if isinstance(value, Ref) and value.casts and (value.vertex not in self._operations or readers[value.vertex] > 1):
                value = self._operation('cast', ctype, (value,), '{0}')
                self.label(value, str(element))
            settled.append((element, ctype, value))
        return settled

    def _fuse(self, roots: Sequence[int]) -> None:
        """Makes `a * b + c` one operation if nothing else reads the product."""
        live = self._live(roots)
        readers: Dict[int, int] = {}
        for vertex in live:
            operation = self._operations.get(vertex)
            for operand in operation.operands if operation else ():
                if isinstance(operand, Ref):
                    readers[operand.vertex] = readers.get(operand.vertex, 0) + 1
        for vertex in sorted(live & self._operations.keys()):
            operation = self._operations[vertex]
            if operation.word != '+' or operation.template != '{0} + {1}':
                continue
            for product, other in (reversed(operation.operands), operation.operands):
                if not isinstance(product, Ref) or product.casts:
                    continue
                inner = self._operations.get(product.vertex)
                if inner and inner.word == '*' and inner.template == '{0} * {1}' and inner.type == operation.type \
                        and readers[product.vertex] == 1 and product.vertex not in roots:
                    self._operations[vertex] = Operation('mad', operation.type, (*inner.operands, other), '{0} * {1} + {2}', operation.label,
                                                         operation.place)
                    break
