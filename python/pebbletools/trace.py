"""Kernels from plain Python functions, by operator overloading.

    from pebbletools.trace import kernel, select

    @kernel(x=24, h=5)
    def fir(x, h):
        return [sum(h[k] * x[i + k] for k in range(5)) + (1 << 14) >> 15 for i in range(20)]

Each word of the decorator declares an input: its size, a tuple of sizes (`()` is a scalar), or a pair of sizes and a type such as
`((4, 4), 'int32_t')`. The function gets nested lists of values, and returns a value, a nested list, or a dict of names and these; a single
result is named after the decorator's `output`, `out` if left out. Operators have the meaning of C: `/` cuts towards zero where whole numbers
are divided, and there is no `//`. A branch on a value is refused: use `select`, `minimum`, `maximum`.
"""
from __future__ import annotations

import importlib.util
import itertools
import os
import re
import sys
import traceback
from typing import Any, Callable, Dict, List, Optional, Sequence, Tuple, Union

from .builder import BINARY, Builder
from .ctype import BY_NAME, F64, I64, CType
from .errors import PebbleToolsError, SourceError
from .kernels import Const, Element, Kernel, Operand, Param

Shape = Union[int, Tuple[int, ...]]
_current: List[Builder] = []  # the builder of the function that is traced


def _place() -> str:
    """The line of the traced function that is executed."""
    frame = sys._getframe(1)
    while frame and frame.f_code.co_filename == __file__:
        frame = frame.f_back  # type: ignore[assignment]
    return f'{os.path.basename(frame.f_code.co_filename)}:{frame.f_lineno}'


def _operand(value: Any) -> Operand:
    if isinstance(value, Value):
        return value.operand
    if isinstance(value, (bool, int)) and I64.least <= value <= I64.greatest:
        return Const(int(value), I64)
    if isinstance(value, float):
        return Const(value, F64)
    raise SourceError(f'{value!r} is no number of a kernel', _place())


def _do(make: Callable[[Builder], Operand]) -> 'Value':
    if not _current:
        raise SourceError('values are combined only while a kernel is traced', _place())
    builder = _current[-1]
    builder.place = _place()
    return Value(make(builder))


class Value:
    """A value of the kernel that is traced. Python's operators make operations of it."""
    __slots__ = ('operand',)
    __hash__ = None  # type: ignore[assignment]

    def __init__(self, operand: Operand):
        self.operand = operand

    def to(self, ctype: str) -> 'Value':
        """The value converted to a type of C, as `x.to('int32_t')`."""
        return _do(lambda builder: builder.convert(self.operand, BY_NAME[ctype]))

    def named(self, label: str) -> 'Value':
        """The same value, with a name for comments and pictures."""
        def name(builder: Builder) -> Operand:
            builder.label(self.operand, label)
            return self.operand
        return _do(name)

    def __neg__(self) -> 'Value':
        return _do(lambda builder: builder.unary('-', self.operand))

    def __invert__(self) -> 'Value':
        return _do(lambda builder: builder.unary('~', self.operand))

    def __bool__(self) -> bool:
        if isinstance(self.operand, Const) and self.operand.value is not None:
            return bool(self.operand.value)
        raise SourceError('a branch depends on a value: use select(condition, yes, no), minimum or maximum', _place())

    def __index__(self) -> int:
        raise SourceError('an index or a bound depends on a value: a plan is for one list of operations', _place())

    def __floordiv__(self, other: Any) -> 'Value':
        raise SourceError('// rounds down and C cuts: write / for the division of C', _place())

    __rfloordiv__ = __floordiv__


def _give_operators() -> None:
    names = {'+': 'add', '-': 'sub', '*': 'mul', '/': 'truediv', '%': 'mod', '<<': 'lshift', '>>': 'rshift', '&': 'and', '|': 'or', '^': 'xor',
             '<': 'lt', '>': 'gt', '<=': 'le', '>=': 'ge', '==': 'eq', '!=': 'ne'}
    comparisons = ('<', '>', '<=', '>=', '==', '!=')
    for sign in BINARY & names.keys():
        def there(self: Value, other: Any, sign: str = sign) -> Value:
            return _do(lambda builder: builder.binary(sign, self.operand, _operand(other)))

        def back(self: Value, other: Any, sign: str = sign) -> Value:
            return _do(lambda builder: builder.binary(sign, _operand(other), self.operand))

        setattr(Value, f'__{names[sign]}__', there)
        if sign not in comparisons:
            setattr(Value, f'__r{names[sign]}__', back)


_give_operators()


def select(condition: Any, yes: Any, no: Any) -> Value:
    """`condition ? yes : no`, with both computed."""
    return _do(lambda builder: builder.select(_operand(condition), _operand(yes), _operand(no)))


def minimum(a: Any, b: Any) -> Value:
    return _do(lambda builder: builder.select(builder.binary('<', _operand(a), _operand(b)), _operand(a), _operand(b)))


def maximum(a: Any, b: Any) -> Value:
    return _do(lambda builder: builder.select(builder.binary('>', _operand(a), _operand(b)), _operand(a), _operand(b)))


def call(function: str, result: str, *arguments: Any) -> Value:
    """A call of a C function that only computes, as `call('sqrt', 'double', x)`."""
    operands = [_operand(argument) for argument in arguments]
    return _do(lambda builder: builder.call(function, BY_NAME[result], [operand.type for operand in operands], operands))


# ---- functions as kernels

class Traced:
    """A Python function with the shapes of its inputs."""

    def __init__(self, function: Callable[..., Any], inputs: Dict[str, Any], name: Optional[str], output: str, prelude: str):
        self.function, self.inputs, self.output, self.prelude = function, inputs, output, prelude
        self.name = name or function.__name__

    def kernel(self, mad: bool = False) -> Kernel:
        """Runs the function on values, and gives the kernel of what it did."""
        builder = Builder(self.name)
        builder.place = self.name
        params = [_param(name, word) for name, word in self.inputs.items()]
        _current.append(builder)
        try:
            returned = self.function(**{param.name: _nested(builder, param) for param in params})
            ends = [end for name, value in (returned if isinstance(returned, dict) else {self.output: returned}).items()
                    for end in _outputs(builder, name, value, params)]
        except PebbleToolsError:
            raise
        except Exception as why:
            raise SourceError(f'{type(why).__name__}: {why}', _innermost(why, self.function.__code__.co_filename)) from None
        finally:
            _current.pop()
        return builder.finish(params, ends, mad=mad, prelude=self.prelude)

    def __call__(self, *arguments: Any, **words: Any) -> Any:
        return self.function(*arguments, **words)


def kernel(function: Optional[Callable[..., Any]] = None, *, name: Optional[str] = None, output: str = 'out', prelude: str = '',
           **inputs: Any) -> Any:
    """Declares a function as a kernel; see the head of this module."""
    def declare(of: Callable[..., Any]) -> Traced:
        return Traced(of, inputs, name, output, prelude)
    return declare(function) if function else declare


def _param(name: str, word: Any) -> Param:
    pair = word if isinstance(word, tuple) and len(word) == 2 and isinstance(word[1], str) else (word, 'int64_t')
    shape: Shape = pair[0]
    return Param(name, (shape,) if isinstance(shape, int) else tuple(shape), BY_NAME[pair[1]], const=True)


def _nested(builder: Builder, param: Param, indices: Tuple[int, ...] = ()) -> Any:
    if len(indices) == len(param.shape):
        return Value(builder.input(Element(param.name, indices), param.type))
    return [_nested(builder, param, (*indices, index)) for index in range(param.shape[len(indices)])]


def _shape(value: Any) -> Tuple[int, ...]:
    return (len(value), *_shape(value[0])) if isinstance(value, (list, tuple)) else ()


def _outputs(builder: Builder, name: str, value: Any, params: List[Param]) -> Sequence[Tuple[Element, CType, Operand]]:
    """The elements of one result; its parameter is appended."""
    if any(param.name == name for param in params):
        raise SourceError(f'{name} is an input and an output: give the output another name', builder.name)
    shape = _shape(value)
    flat = [(indices, _at(value, indices)) for indices in itertools.product(*map(range, shape))]
    operands = [(indices, _operand(item)) for indices, item in flat]
    types = {operand.type for _, operand in operands}
    ctype = operands[0][1].type if len(types) == 1 else I64 if not any(each.floating for each in types) else F64
    params.append(Param(name, shape, ctype, pointer=not shape))
    ends = []
    for indices, operand in operands:
        element = Element(name, indices, pointed=not shape)
        builder.label(operand, str(element))
        ends.append((element, ctype, operand))
    return ends


def _at(value: Any, indices: Tuple[int, ...]) -> Any:
    for index in indices:
        value = value[index]
    return value


def kernels_of_file(file: str, chosen: str = '') -> List[Traced]:
    """The kernels that a Python file declares; the file is run."""
    spec = importlib.util.spec_from_file_location('kernels_of_' + re.sub(r'\W', '_', os.path.basename(file)), file)
    if spec is None or spec.loader is None:
        raise SourceError('this is not a Python file', file)
    try:
        module = importlib.util.module_from_spec(spec)
        spec.loader.exec_module(module)
    except SourceError:
        raise
    except Exception as why:
        raise SourceError(f'{type(why).__name__}: {why}', _innermost(why, file)) from None
    traces = [value for value in vars(module).values() if isinstance(value, Traced)]
    chosen_ones = [traced for traced in traces if traced.name == chosen or not chosen]
    if not chosen_ones:
        raise SourceError(f'there is no kernel {chosen}; there is {", ".join(traced.name for traced in traces) or "none"}' if chosen else
                          'it declares no kernel: put @kernel(x=24, ..) from pebbletools.trace before a function', file)
    return chosen_ones


def _innermost(why: BaseException, file: str) -> str:
    """The last line of a file that an error went through."""
    if isinstance(why, SyntaxError):
        return f'{file}:{why.lineno}'
    lines = [line for frame, line in traceback.walk_tb(why.__traceback__) if os.path.realpath(frame.f_code.co_filename) == os.path.realpath(file)]
    return f'{file}:{lines[-1]}' if lines else file
