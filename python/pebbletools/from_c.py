"""Kernels from C functions, by symbolic execution: loops are unrolled, and what remains is the list of operations on values.

Taken are: parameters that are numbers, arrays of constant sizes, or pointers (`*p` for one value, or with `sizes` for several); local numbers
and arrays; constant tables; every operator; `for`, `while`, `do`, `if`, `break` and `continue` whose conditions are known; ternaries on data;
calls of functions of the file, which are inlined, of the functions of <math.h>, and of those that are declared `pure`.

A parameter that is read before it is written is an input, one that is written an output, and one that is both is in place.
"""
from __future__ import annotations

import os
from dataclasses import dataclass
from typing import Any, Dict, List, Optional, Sequence, Tuple, Union

from pycparser import c_ast, c_generator

from .builder import BINARY, COMPARISONS, LOGICAL, SHIFTS, Builder
from .c_source import Source
from .ctype import F32, F64, I32, I64, U32, U64, BY_NAME, CType, common, promoted, type_of_words
from .errors import KernelError, SourceError
from .kernels import RETURN, Const, Element, Kernel, Operand, Param

MOST_STEPS = 200_000  # statements and turns of one function
LIBRARY_HEADERS = ('math.h', 'stdlib.h')  # whose declared functions only compute
DEEPEST_CALL = 32
MOST_ELEMENTS = 65_536  # of one array


# ---- storage

class Cells:
    """A number, or an array row by row, with the values that it holds. `guarded` is how many conditions on data held its declaration."""

    def __init__(self, name: str, ctype: CType, shape: Tuple[int, ...] = (), const: bool = False,
                 values: Optional[List[Optional[Operand]]] = None, guarded: int = 0):
        self.name, self.type, self.shape, self.const, self.guarded = name, ctype, shape, const, guarded
        self.values: List[Optional[Operand]] = [None] * _product(shape) if values is None else values

    def label(self, offset: int) -> str:
        """The name of the element at an offset, as `C[1][2]`."""
        text = ''
        for size in reversed(self.shape):
            text, offset = f'[{offset % size}]{text}', offset // size
        return self.name + text


@dataclass(frozen=True)
class View:
    """What a name, an element or a pointer denotes: cells from an offset on. A shape that begins with None is a pointer's."""
    cells: Cells
    offset: int
    shape: Tuple[Optional[int], ...]

    def name(self) -> str:
        return self.cells.name


class _Return(Exception):
    def __init__(self, value: Optional[Operand]):
        super().__init__()
        self.value = value


class _Break(Exception):
    pass


class _Continue(Exception):
    pass


Evaluated = Union[Operand, View]


# ---- reading

def kernel_from_file(file: str, function: Optional[str] = None, *, mad: bool = False, pure: Sequence[str] = (),
                     sizes: Optional[Dict[str, int]] = None, defines: Sequence[str] = ()) -> Kernel:
    """The kernel of a function of a C file; of the only one that is not static, if no name is given."""
    translator = Translator(Source(file, defines), pure, sizes or {})
    try:
        return translator.kernel(function, mad)
    except KernelError as why:
        raise translator.placed(why) from None
    except RecursionError:
        raise SourceError('an expression or a statement is nested too deeply', file) from None


class Translator:
    """Executes one function of a file on values."""

    def __init__(self, source: Source, pure: Sequence[str] = (), sizes: Optional[Dict[str, int]] = None):
        self.source, self.file, self.pure, self.sizes = source, source.file, set(pure), sizes or {}
        self.function: Any = None
        self.statement: Any = None            # the one that is executed
        self.statements: Dict[str, Any] = {}  # the first statement of each place that an operation names
        self.typedefs: Dict[str, Any] = {}
        self.functions: Dict[str, c_ast.FuncDef] = {}
        self.prototypes: Dict[str, c_ast.Decl] = {}
        self.scopes: List[Dict[str, View]] = [{}]
        self.enums: Dict[str, Const] = {}
        self.builder = Builder('')
        self.steps = 0
        self.calls: List[str] = []
        self.prelude: List[str] = []
        self.top = source.tree()

    # -- messages

    def refuse(self, node: Any, message: str) -> SourceError:
        """An error at a node, or at the statement if the node has no place."""
        return self.source.error_at(message, node if getattr(node, 'coord', None) else self.statement)

    def placed(self, why: KernelError) -> SourceError:
        """An error of the whole kernel at the statement that it names, or at the function."""
        return self.refuse(self.statements.get(why.place) or self.function.decl, why.message)

    # -- the file

    def _collect(self) -> None:
        for node in self.top.ext:
            if isinstance(node, c_ast.FuncDef):
                self.functions[node.decl.name] = node
            elif isinstance(node, c_ast.Typedef):
                self.typedefs[node.name] = node.type
            elif isinstance(node, c_ast.Decl) and isinstance(node.type, c_ast.FuncDecl):
                self.prototypes[node.name] = node
            elif isinstance(node, c_ast.Decl):
                self._enumerate(node.type)
                if node.name:
                    self._declare_global(node)

    def _declare_global(self, node: c_ast.Decl) -> None:
        """Constant tables are known; any other global only matters if it is used."""
        ctype, shape = self._declared(node.type, node)
        is_const = 'const' in node.quals or 'const' in _quals(node.type)
        if is_const and node.init is not None:
            self._declare(node)
        else:
            self.scopes[0][node.name] = View(Cells(node.name, ctype, const=True, values=[]), 0, shape)

    def kernel(self, function: Optional[str], mad: bool = False) -> Kernel:
        self._collect()
        node = self.function = self._chosen(function)
        name = node.decl.name
        self.builder.name = name
        params: List[Param] = []
        scope: Dict[str, View] = {}
        arguments = node.decl.type.args.params if node.decl.type.args else []
        for argument in arguments:
            if isinstance(argument, c_ast.EllipsisParam):
                raise self.refuse(argument, 'a kernel has no variable number of parameters')
            if isinstance(argument, c_ast.ID):
                raise self.refuse(argument, f'the parameter {argument.name} has no type here')
            if isinstance(argument, c_ast.Typename) and argument.name is None and type_words(argument.type) == 'void':
                continue
            param = self._param(argument)
            params.append(param)
            values: List[Optional[Operand]] = [self.builder.input(_element(param, indices), param.type) for indices in param.elements()]
            shape: Tuple[Optional[int], ...] = param.shape if param.shape or not param.pointer else (1,)
            scope[param.name] = View(Cells(param.name, param.type, param.shape, param.const, values), 0, shape)
        for unknown in self.sizes.keys() - {param.name for param in params}:
            raise self.refuse(node.decl, f'--size names {unknown}, which is not a parameter of {name}')
        returns = self._result_type(node)
        self.calls.append(name)
        result = self._body(node, scope)
        outputs = []
        for param in params:
            if not param.shape and not param.pointer:
                continue  # a number that is given by value is the function's own
            for k, indices in enumerate(param.elements()):
                element = _element(param, indices)
                value = scope[param.name].cells.values[k]
                if value is not None and value != self.builder.input(element, param.type):
                    outputs.append((element, param.type, value))
        if returns:
            if result is None:
                raise self.refuse(node.decl, f'{name} ends without a result')
            self.builder.label(self.builder.convert(result, returns), RETURN)
            outputs.append((Element(RETURN), returns, result))
        return self.builder.finish(params, outputs, returns, mad, '\n'.join(self.prelude))

    def _chosen(self, function: Optional[str]) -> c_ast.FuncDef:
        open_ones = [name for name, node in self.functions.items() if 'static' not in node.decl.storage]
        if function is None:
            if len(open_ones) != 1:
                raise SourceError(f'name one of its functions: {", ".join(open_ones) or "it has none that is not static"}', self.file)
            function = open_ones[0]
        if function not in self.functions:
            raise SourceError(f'there is no function {function}; there is {", ".join(self.functions) or "none"}', self.file)
        return self.functions[function]

    def _result_type(self, node: c_ast.FuncDef) -> Optional[CType]:
        result = node.decl.type.type
        if isinstance(result, c_ast.TypeDecl) and type_words(result) == 'void':
            return None
        ctype, shape = self._declared(result, node.decl)
        if shape:
            raise self.refuse(node.decl, f'{node.decl.name} returns a pointer')
        return ctype

    def _param(self, node: Any) -> Param:
        ctype, shape = self._declared(node.type, node, is_param=True)
        name = node.name
        if not name:
            raise self.refuse(node, 'a parameter has no name')
        const, spelling = 'const' in _quals(node.type), _spelling(node.type)
        pointer = isinstance(node.type, c_ast.PtrDecl) or bool(shape) and shape[0] is None
        if pointer:
            rest = tuple(size for size in shape[1:] if size is not None)
            count = self.sizes.get(name)
            if isinstance(node.type, c_ast.ArrayDecl) and count is None:
                raise self.refuse(node, f'the array {name} has no size: write it ({name}[24]), or give it (--size {name}=24)')
            if rest and count is None:
                raise self.refuse(node, f'the pointer {name} has no size: write an array, or give it (--size {name}=24)')
            if rest:
                return Param(name, (count or 1, *rest), ctype, const, spelling=spelling)
            return Param(name, (count,) if count else (), ctype, const, pointer=True, spelling=spelling)
        if name in self.sizes:
            raise self.refuse(node, f'--size names {name}, which has a size or is a number')
        return Param(name, tuple(size for size in shape if size is not None), ctype, const and bool(shape), spelling=spelling)

    # -- types

    def _declared(self, node: Any, at: Any, is_param: bool = False) -> Tuple[CType, Tuple[Optional[int], ...]]:
        """The number type and the sizes of a declarator; a pointer's first size is None."""
        if 'volatile' in _quals(node):
            raise self.refuse(at, 'volatile data are not taken: a plan decides itself when a value is loaded')
        shape: List[Optional[int]] = []
        while True:
            if isinstance(node, c_ast.ArrayDecl):
                size = self._constant(node.dim, 'the size of an array') if node.dim is not None else None
                if size is not None and size < 1:
                    raise self.refuse(at, f'an array of {size} elements')
                shape.append(size)
                if _product(each or 1 for each in shape) > MOST_ELEMENTS:
                    raise self.refuse(at, f'an array of more than {MOST_ELEMENTS} elements')
                node = node.type
            elif isinstance(node, c_ast.PtrDecl):
                if shape or not is_param:
                    raise self.refuse(at, 'pointers are taken as parameters alone, as `int64_t *p` or `int64_t (*p)[4]`')
                shape.append(None)
                node = node.type
            elif isinstance(node, c_ast.TypeDecl):
                inner = node.type
                if isinstance(inner, (c_ast.Struct, c_ast.Union)):
                    raise self.refuse(at, 'structs and unions are not taken: give their members one by one')
                if isinstance(inner, c_ast.Enum):
                    self._enumerate(inner)
                    return I32, tuple(shape)
                words = ' '.join(inner.names)
                if words in BY_NAME:
                    return BY_NAME[words], tuple(shape)
                ctype = type_of_words(words)
                if ctype:
                    return ctype, tuple(shape)
                if words in self.typedefs:
                    node, is_param = self.typedefs[words], is_param
                    continue
                raise self.refuse(at, f'the type {words} is not one that is taken (int8_t to uint64_t, int, long, float, double ..)')
            else:
                raise self.refuse(at, 'this kind of declaration is not taken')

    def _enumerate(self, node: Any) -> None:
        enum = node if isinstance(node, c_ast.Enum) else getattr(node, 'type', None)
        if isinstance(enum, c_ast.Enum) and enum.values:
            following = 0
            for enumerator in enum.values.enumerators:
                if enumerator.value is not None:
                    following = self._constant(enumerator.value, 'the value of an enumerator')
                self.enums[enumerator.name] = Const(following, I32)
                following += 1

    # -- statements

    def _body(self, node: c_ast.FuncDef, scope: Dict[str, View]) -> Optional[Operand]:
        outer, self.scopes = self.scopes, [self.scopes[0], scope]
        try:
            self._run(node.body)
        except _Return as end:
            return end.value
        except (_Break, _Continue):
            raise self.refuse(self.statement, 'this is in no loop') from None
        finally:
            self.scopes = outer
        return None

    def _run(self, node: Any) -> None:
        if node is None:
            return
        self.steps += 1
        if self.steps > MOST_STEPS:
            raise self.refuse(node, f'more than {MOST_STEPS} statements are executed: a loop does not end, or is too long for a plan')
        if getattr(node, 'coord', None):
            self.builder.place = f'{os.path.basename(str(node.coord.file))}:{node.coord.line}'
            self.statement = node
            self.statements.setdefault(self.builder.place, node)
        handler = getattr(self, f'_run_{type(node).__name__}', None)
        if handler:
            handler(node)
        elif isinstance(node, (c_ast.Assignment, c_ast.UnaryOp, c_ast.FuncCall, c_ast.BinaryOp, c_ast.ID, c_ast.Constant, c_ast.TernaryOp,
                               c_ast.Cast, c_ast.ExprList, c_ast.ArrayRef)):
            self._value(node)
        else:
            raise self.refuse(node, f'{_kind(node)} is not taken')

    def _run_Compound(self, node: c_ast.Compound) -> None:
        self.scopes.append({})
        try:
            for item in node.block_items or []:
                self._run(item)
        finally:
            self.scopes.pop()

    def _run_EmptyStatement(self, node: Any) -> None:
        pass

    def _run_Pragma(self, node: Any) -> None:
        pass

    def _run_StaticAssert(self, node: Any) -> None:
        pass  # gcc has checked it

    def _run_Typedef(self, node: c_ast.Typedef) -> None:
        self.typedefs[node.name] = node.type

    def _run_Decl(self, node: c_ast.Decl) -> None:
        self._enumerate(node.type)
        if node.name is None:
            return
        if 'static' in node.storage and 'const' not in _quals(node.type) and 'const' not in node.quals:
            raise self.refuse(node, f'{node.name} is static and changes: make it a parameter')
        self._declare(node)

    def _run_DeclList(self, node: c_ast.DeclList) -> None:
        for decl in node.decls:
            self._run(decl)

    def _declare(self, node: c_ast.Decl) -> None:
        ctype, shape = self._declared(node.type, node)
        if shape and shape[0] is None:
            if not isinstance(node.init, c_ast.InitList):
                raise self.refuse(node, f'the array {node.name} has no size')
            shape = (self._rows(node.init, shape), *shape[1:])
        whole = tuple(size or 1 for size in shape)
        const = 'const' in _quals(node.type) or 'const' in node.quals
        cells = Cells(node.name, ctype, whole, const, guarded=self.builder.guarded)
        view = View(cells, 0, whole)
        if node.init is not None and whole:
            if not isinstance(node.init, c_ast.InitList):
                raise self.refuse(node, f'the array {node.name} is initialised by no list')
            cells.values = [Const(ctype.convert(0), ctype)] * _product(whole)
            self._fill(cells, 0, whole, node.init)
        elif node.init is not None:
            self._store(View(cells, 0, ()), self._value(self._only(node.init)), node, first=True)
        self.scopes[-1][node.name] = view

    @staticmethod
    def _rows(init: c_ast.InitList, shape: Tuple[Optional[int], ...]) -> int:
        """How many rows a list gives to an array without a first size."""
        if init.exprs and isinstance(init.exprs[0], c_ast.InitList):
            return len(init.exprs)
        return -(-len(init.exprs) // _product(size or 1 for size in shape[1:])) or 1

    def _only(self, init: Any) -> Any:
        """The value of a scalar's initialiser, which may be in braces."""
        if not isinstance(init, c_ast.InitList):
            return init
        if len(init.exprs) != 1:
            raise self.refuse(init, f'{len(init.exprs)} values for one number')
        return self._only(init.exprs[0])

    def _fill(self, cells: Cells, offset: int, shape: Tuple[int, ...], init: c_ast.InitList) -> None:
        """Sets the elements of an array, or of a row of one, by a list in braces."""
        values = list(init.exprs)
        named = next((expr for expr in values if isinstance(expr, c_ast.NamedInitializer)), None)
        if named:
            raise self.refuse(named.expr, 'initialisers with [index] = are not taken')
        self._take(cells, offset, shape, values)
        if values:
            raise self.refuse(init, f'{len(init.exprs)} values are too many for {cells.name}')

    def _take(self, cells: Cells, offset: int, shape: Tuple[int, ...], values: List[Any]) -> None:
        """Takes what the elements need from the front of a list; inner braces may be left out."""
        stride = _product(shape[1:])
        for at in range(offset, offset + shape[0] * stride, stride):
            if not values:
                return
            if len(shape) == 1:
                expr = values.pop(0)
                self._store(View(cells, at, ()), self._value(self._only(expr)), expr, first=True)
            elif isinstance(values[0], c_ast.InitList):
                self._fill(cells, at, shape[1:], values.pop(0))
            else:
                self._take(cells, at, shape[1:], values)

    def _run_If(self, node: c_ast.If) -> None:
        if self._known(node.cond, 'a branch', 'write the values as ternaries: x = condition ? a : b'):
            self._run(node.iftrue)
        else:
            self._run(node.iffalse)

    def _run_For(self, node: c_ast.For) -> None:
        self.scopes.append({})
        try:
            self._run(node.init)
            while node.cond is None or self._known(node.cond, 'a loop', 'a kernel has constant bounds'):
                if not self._turn(node.stmt):
                    break
                self._run(node.next)
        finally:
            self.scopes.pop()

    def _run_While(self, node: c_ast.While) -> None:
        while self._known(node.cond, 'a loop', 'a kernel has constant bounds'):
            if not self._turn(node.stmt):
                break

    def _run_DoWhile(self, node: c_ast.DoWhile) -> None:
        while self._turn(node.stmt) and self._known(node.cond, 'a loop', 'a kernel has constant bounds'):
            pass

    def _turn(self, body: Any) -> bool:
        """One turn of a loop; False if it breaks."""
        self.steps += 1
        try:
            self._run(body)
        except _Continue:
            pass
        except _Break:
            return False
        return True

    def _run_Break(self, node: Any) -> None:
        raise _Break

    def _run_Continue(self, node: Any) -> None:
        raise _Continue

    def _run_Return(self, node: c_ast.Return) -> None:
        raise _Return(self._value(node.expr) if node.expr is not None else None)

    # -- expressions

    def _known(self, node: Any, what: str, hint: str) -> bool:
        value = self._value(node)
        if not isinstance(value, Const) or value.value is None:
            raise self.refuse(node, f'{what} depends on data: {hint}')
        return bool(value.value)

    def _constant(self, node: Any, what: str) -> int:
        value = self._value(node)
        if not isinstance(value, Const) or value.value is None or value.type.floating:
            raise self.refuse(node, f'{what} depends on data or is not a whole number: it has to be a constant')
        return int(value.value)

    def _value(self, node: Any) -> Operand:
        """The value of an expression that is a number."""
        return self._number(self._evaluate(node), node)

    def _number(self, value: Evaluated, node: Any) -> Operand:
        """What was evaluated, as a number."""
        if isinstance(value, View):
            if value.shape:
                raise self.refuse(node, f'{value.name()} is an array or a pointer here, and not a number')
            return self._load(value, node)
        return value

    def _load(self, place: View, node: Any) -> Operand:
        if not place.cells.values:
            raise self.refuse(node, f'{place.name()} is a global that is not a constant with a value: make it a parameter')
        value = place.cells.values[place.offset]
        if value is None:
            raise self.refuse(node, f'{place.name()} is read before it has a value')
        return value

    def _store(self, place: View, value: Operand, node: Any, first: bool = False) -> Operand:
        cells = place.cells
        if cells.const and not first:
            raise self.refuse(node, f'{cells.name} is const')
        if self.builder.guarded > cells.guarded:
            raise self.refuse(node, f'{cells.name} is set only if data say so: set it before or after')
        converted = self.builder.convert(value, cells.type)
        self.builder.label(converted, cells.label(place.offset))
        cells.values[place.offset] = converted
        return converted

    def _evaluate(self, node: Any) -> Evaluated:
        handler = getattr(self, f'_of_{type(node).__name__}', None)
        if not handler:
            raise self.refuse(node, f'{_kind(node)} is not taken')
        try:
            return handler(node)
        except SourceError as why:
            if why.place == self.builder.place:  # the builder knows the line; here is the column
                raise self.refuse(node, why.message) from None
            raise

    def _of_Constant(self, node: c_ast.Constant) -> Operand:
        text = node.value
        if node.type == 'char':
            try:
                return Const(ord(text[1:-1].encode().decode('unicode_escape')), I32)
            except (TypeError, ValueError):
                raise self.refuse(node, f'the character {text} is not taken') from None
        if node.type == 'string':
            raise self.refuse(node, 'strings are not taken')
        if not text[0].isdigit() and text[0] != '.':
            raise self.refuse(node, f'the constant {text} is not taken')
        bare = text.rstrip('uUlLfF') if not text.lower().startswith('0x') else text.rstrip('uUlL')
        if 'float' in node.type or 'double' in node.type:
            if text[-1] in 'lL':
                raise self.refuse(node, 'long double is not taken')
            bare = text.rstrip('fF') if not text.lower().startswith('0x') or 'p' in text.lower() else text
            value = float.fromhex(bare) if text.lower().startswith('0x') else float(bare)
            return Const(F32.convert(value), F32) if text[-1] in 'fF' else Const(value, F64)
        suffix = text[len(bare):].lower()
        base = 16 if bare[:2].lower() == '0x' else 2 if bare[:2].lower() == '0b' else 8 if bare[0] == '0' else 10
        number = int(bare, base)
        wide, unsigned = 'l' in suffix, 'u' in suffix
        for ctype in (I32, U32, I64, U64):
            if wide and ctype.bits == 32 or unsigned and ctype.signed or not unsigned and not ctype.signed and base == 10:
                continue
            if number <= ctype.greatest:
                return Const(number, ctype)
        raise self.refuse(node, f'the number {text} is too large')

    def _of_ID(self, node: c_ast.ID) -> Evaluated:
        for scope in reversed(self.scopes):
            if node.name in scope:
                return scope[node.name]
        if node.name in self.enums:
            return self.enums[node.name]
        raise self.refuse(node, f'{node.name} is not known here')

    def _of_ArrayRef(self, node: c_ast.ArrayRef) -> View:
        base = self._evaluate(node.name)
        if not isinstance(base, View) or not base.shape:
            raise self.refuse(node, 'this is not an array')
        return self._index(base, self._constant(node.subscript, f'an index of {base.name()}'), node)

    def _index(self, base: View, index: int, node: Any) -> View:
        offset = base.offset + index * _product(size or 1 for size in base.shape[1:])
        size = base.shape[0]
        inside = 0 <= index < size if size is not None else 0 <= offset < len(base.cells.values)
        if not inside or base.cells.values and not 0 <= offset < len(base.cells.values):
            have = size if size is not None else len(base.cells.values)
            index = index if size is not None else offset
            hint = f'; a pointer is one value, unless --size {base.name()}=N says more' if have == 1 else ''
            raise self.refuse(node, f'the index {index} of {base.name()} is outside of 0 to {have - 1}{hint}')
        return View(base.cells, offset, base.shape[1:])

    def _of_Cast(self, node: c_ast.Cast) -> Operand:
        if type_words(node.to_type.type) == 'void':
            self._evaluate(node.expr)
            return Const(0, I32)
        ctype, shape = self._declared(node.to_type.type, node)
        if shape:
            raise self.refuse(node, 'a cast to a pointer is not taken')
        return self.builder.convert(self._value(node.expr), ctype)

    def _of_BinaryOp(self, node: c_ast.BinaryOp) -> Evaluated:
        left = self._evaluate(node.left)
        if isinstance(left, View) and left.shape and node.op in '+-':
            step = self._constant(node.right, 'a pointer\'s step')
            step = -step if node.op == '-' else step
            stride = _product(size or 1 for size in left.shape[1:])
            return View(left.cells, left.offset + step * stride, (None, *left.shape[1:]))
        operand = self._number(left, node.left)
        if node.op in ('&&', '||'):
            return self._short(node, operand)
        if node.op not in BINARY:
            raise self.refuse(node, f'{node.op} is not taken')
        return self.builder.binary(node.op, operand, self._value(node.right))

    def _short(self, node: c_ast.BinaryOp, left: Operand) -> Operand:
        """`&&` and `||`; the right side is computed always, unless a constant settles it."""
        if isinstance(left, Const) and left.value is not None and bool(left.value) == (node.op == '||'):
            return Const(int(node.op == '||'), I32)
        is_data = not isinstance(left, Const)
        self.builder.guarded += is_data
        try:
            right = self._value(node.right)
        finally:
            self.builder.guarded -= is_data
        return self.builder.binary(node.op, left, right)

    def _of_UnaryOp(self, node: c_ast.UnaryOp) -> Evaluated:
        if node.op in ('++', '--', 'p++', 'p--'):
            place = self._place(node.expr)
            before = self._load(place, node.expr)
            after = self._store(place, self.builder.binary(node.op[-1], before, Const(1, I32)), node)
            return before if node.op[0] == 'p' else after
        if node.op == '*':
            base = self._evaluate(node.expr)
            if not isinstance(base, View) or not base.shape:
                raise self.refuse(node, 'this is not a pointer')
            return self._index(base, 0, node)
        if node.op == '&':
            variable = self._evaluate(node.expr)
            if not isinstance(variable, View):
                raise self.refuse(node, '& of no variable')
            return View(variable.cells, variable.offset, (None, *variable.shape))
        if node.op == 'sizeof':
            return Const(self._size(node.expr), U64)
        if node.op not in ('+', '-', '~', '!'):
            raise self.refuse(node, f'{node.op} is not taken')
        return self.builder.unary(node.op, self._value(node.expr))

    def _size(self, node: Any) -> int:
        if isinstance(node, c_ast.Typename):
            ctype, shape = self._declared(node.type, node)
            return max(ctype.bits // 8, 1) * _product(size or 1 for size in shape)
        value = self._evaluate(node)
        if isinstance(value, View):
            return max(value.cells.type.bits // 8, 1) * _product(size or 1 for size in value.shape)
        return max(value.type.bits // 8, 1)

    def _place(self, node: Any) -> View:
        place = self._evaluate(node)
        if not isinstance(place, View) or place.shape:
            raise self.refuse(node, 'what is assigned to is not a number in a variable or an array')
        return place

    def _of_Assignment(self, node: c_ast.Assignment) -> Operand:
        if node.op == '=':
            value = self._value(node.rvalue)
            return self._store(self._place(node.lvalue), value, node)
        place = self._place(node.lvalue)
        value = self.builder.binary(node.op[:-1], self._load(place, node.lvalue), self._value(node.rvalue))
        return self._store(place, value, node)

    def _of_ExprList(self, node: c_ast.ExprList) -> Operand:
        values = [self._value(expr) for expr in node.exprs]
        return values[-1]

    def _of_TernaryOp(self, node: c_ast.TernaryOp) -> Operand:
        condition = self._value(node.cond)
        if isinstance(condition, Const) and condition.value is not None:
            taken, other = (node.iftrue, node.iffalse) if condition.value else (node.iffalse, node.iftrue)
            value = self._value(taken)
            return self.builder.convert(value, common(value.type, self._type(other)))
        self.builder.guarded += 1
        try:
            yes, no = self._value(node.iftrue), self._value(node.iffalse)
        finally:
            self.builder.guarded -= 1
        return self.builder.select(condition, yes, no)

    def _type(self, node: Any) -> CType:
        """The type of an expression that is not evaluated."""
        if isinstance(node, c_ast.Cast):
            return self._declared(node.to_type.type, node)[0]
        if isinstance(node, c_ast.BinaryOp):
            if node.op in COMPARISONS | LOGICAL:
                return I32
            left = self._type(node.left)
            return promoted(left) if node.op in SHIFTS else common(left, self._type(node.right))
        if isinstance(node, c_ast.TernaryOp):
            return common(self._type(node.iftrue), self._type(node.iffalse))
        if isinstance(node, c_ast.UnaryOp):
            if node.op in ('!', 'sizeof'):
                return I32 if node.op == '!' else U64
            inner = self._type(node.expr)
            return promoted(inner) if node.op in ('+', '-', '~') else inner
        if isinstance(node, c_ast.Assignment):
            return self._type(node.lvalue)
        if isinstance(node, c_ast.ExprList):
            return self._type(node.exprs[-1])
        if isinstance(node, c_ast.ArrayRef):
            return self._type(node.name)
        if isinstance(node, c_ast.FuncCall) and isinstance(node.name, c_ast.ID):
            if node.name.name in self.functions:
                return self._result_type(self.functions[node.name.name]) or I32
            if node.name.name in self.prototypes:
                return self._declared(self.prototypes[node.name.name].type.type, node)[0]
        value = self._evaluate(node)  # a name or a number; anything else is refused
        return value.cells.type if isinstance(value, View) else value.type

    # -- calls

    def _of_FuncCall(self, node: c_ast.FuncCall) -> Operand:
        name = node.name.name if isinstance(node.name, c_ast.ID) else None
        if name is None:
            raise self.refuse(node, 'a call through a pointer is not taken')
        if name in ('asm', '__asm', '__asm__'):
            raise self.refuse(node, 'assembly is not taken')
        arguments = [self._evaluate(argument) for argument in (node.args.exprs if node.args else [])]
        if name in self.functions:
            return self._inlined(node, self.functions[name], arguments)
        if name in self.prototypes:
            return self._called(node, self.prototypes[name], arguments)
        raise self.refuse(node, f'{name} is neither written nor declared here: include its header, or write a prototype')

    def _called(self, node: c_ast.FuncCall, prototype: c_ast.Decl, arguments: List[Evaluated]) -> Operand:
        name = prototype.name
        header = os.path.basename(str(prototype.coord.file))
        if header in LIBRARY_HEADERS:
            line = f'#include <{header}>'
        elif name in self.pure:
            line = c_generator.CGenerator().visit(prototype) + ';'
        else:
            raise self.refuse(node, f'the body of {name} is not here, and it may have effects: if it only computes, say so (--pure {name})')
        types = [self._declared(param.type, param)[0] for param in prototype.type.args.params if type_words(param.type) != 'void'] \
            if prototype.type.args else []
        result, _ = self._declared(prototype.type.type, prototype)
        if len(types) != len(arguments):
            raise self.refuse(node, f'{name} takes {len(types)} arguments, and gets {len(arguments)}')
        if line not in self.prelude:
            self.prelude.append(line)
        return self.builder.call(name, result, types, [self._number(argument, node) for argument in arguments])

    def _inlined(self, node: c_ast.FuncCall, function: c_ast.FuncDef, arguments: List[Evaluated]) -> Operand:
        name = function.decl.name
        if len(self.calls) >= DEEPEST_CALL:
            raise self.refuse(node, f'calls are more than {DEEPEST_CALL} deep: {" > ".join(self.calls[-3:])} > {name}')
        params = function.decl.type.args.params if function.decl.type.args else []
        params = [param for param in params if not (isinstance(param, c_ast.Typename) and type_words(param.type) == 'void')]
        if len(params) != len(arguments):
            raise self.refuse(node, f'{name} takes {len(params)} arguments, and gets {len(arguments)}')
        scope: Dict[str, View] = {}
        for param, argument in zip(params, arguments):
            ctype, shape = self._declared(param.type, param, is_param=True)
            if shape:
                if not isinstance(argument, View) or not argument.shape:
                    raise self.refuse(node, f'{name} takes an array or a pointer as {param.name}')
                if argument.cells.type != ctype or argument.shape[1:] != shape[1:]:
                    raise self.refuse(node, f'{param.name} of {name} has another type or shape than {argument.name()}')
                scope[param.name] = View(argument.cells, argument.offset, (None, *shape[1:]))
            else:
                value = self.builder.convert(self._number(argument, node), ctype)
                cells = Cells(param.name, ctype, values=[value], guarded=self.builder.guarded)
                scope[param.name] = View(cells, 0, ())
        self.calls.append(name)
        place = self.builder.place
        result = self._body(function, scope)
        self.builder.place = place
        self.calls.pop()
        returns = self._result_type(function)
        if returns is None:
            return Const(0, I32)
        if result is None:
            raise self.refuse(node, f'{name} ends without a result')
        return self.builder.convert(result, returns)


# ---- small things

def _element(param: Param, indices: Tuple[int, ...]) -> Element:
    return Element(param.name, indices, pointed=param.pointer and not param.shape)


def _product(sizes: Any) -> int:
    total = 1
    for size in sizes:
        total *= size
    return total


def _quals(node: Any) -> List[str]:
    """The qualifiers of what a declarator is made of, such as the `const` of `const int x[4]`."""
    while not isinstance(node, c_ast.TypeDecl):
        node = getattr(node, 'type', None)
        if node is None:
            return []
    return list(node.quals or [])


def _spelling(node: Any) -> str:
    """How the source spells a number type, unless by a name of its own."""
    while not isinstance(node, c_ast.TypeDecl):
        node = node.type
    words = type_words(node)
    return words if words in BY_NAME or type_of_words(words) else ''


def type_words(node: Any) -> str:
    """The words of a plain type, or nothing."""
    inner = getattr(node, 'type', None)
    return ' '.join(inner.names) if isinstance(node, c_ast.TypeDecl) and isinstance(inner, c_ast.IdentifierType) else ''


_KINDS = {'Switch': 'switch', 'Goto': 'goto', 'Label': 'a label', 'StructRef': 'a member of a struct', 'CompoundLiteral': 'a compound literal',
          'InitList': 'a list of values'}


def _kind(node: Any) -> str:
    return _KINDS.get(type(node).__name__, f'what C calls {type(node).__name__}')
