"""The number types of C on the machines that this package speaks of (LP64: int has 32 bits, long 64), their conversions and constants."""
from __future__ import annotations

import math
import struct
from dataclasses import dataclass
from typing import Dict, Optional, Tuple, Union

Number = Union[int, float]


@dataclass(frozen=True)
class CType:
    """A number type. `name` is how emitted C spells it; two types of one size and sign are equal whatever they were called."""
    name: str
    bits: int
    signed: bool = True
    floating: bool = False

    @property
    def least(self) -> int:
        return -(1 << (self.bits - 1)) if self.signed else 0

    @property
    def greatest(self) -> int:
        return (1 << (self.bits - 1)) - 1 if self.signed else (1 << self.bits) - 1

    def holds(self, other: 'CType') -> bool:
        """Whether each value of the other type is one of this type."""
        if other.floating:
            return self.floating and self.bits >= other.bits
        if self.floating:
            return other.bits - other.signed <= (24 if self.bits == 32 else 53)
        return self.least <= other.least and other.greatest <= self.greatest

    def convert(self, value: Number) -> Number:
        """A number converted to this type, as gcc converts it."""
        if self.floating:
            return struct.unpack('f', struct.pack('f', value))[0] if self.bits == 32 else float(value)
        if self is BOOL:
            return int(value != 0)
        whole = int(value) & ((1 << self.bits) - 1)
        return whole - (1 << self.bits) if self.signed and whole >> (self.bits - 1) else whole

    def __str__(self) -> str:
        return self.name


I8, I16, I32, I64 = (CType(f'int{bits}_t', bits) for bits in (8, 16, 32, 64))
U8, U16, U32, U64 = (CType(f'uint{bits}_t', bits, signed=False) for bits in (8, 16, 32, 64))
BOOL = CType('_Bool', 1, signed=False)
F32, F64 = CType('float', 32, floating=True), CType('double', 64, floating=True)
SIGNED: Dict[int, CType] = {8: I8, 16: I16, 32: I32, 64: I64}
UNSIGNED: Dict[int, CType] = {8: U8, 16: U16, 32: U32, 64: U64}

# What C's words spell, as sorted tuples; `char` is signed here, as gcc has it on x86-64.
_WORDS: Dict[Tuple[str, ...], CType] = {tuple(sorted(words.split())): ctype for words, ctype in {
    'char': I8, 'signed char': I8, 'unsigned char': U8, 'short': I16, 'unsigned short': U16, 'int': I32, 'signed': I32, 'unsigned': U32,
    'signed int': I32, 'unsigned int': U32, 'short int': I16, 'unsigned short int': U16, 'long': I64, 'unsigned long': U64,
    'long int': I64, 'unsigned long int': U64, 'long long': I64, 'unsigned long long': U64, 'long long int': I64, 'signed long': I64,
    'unsigned long long int': U64, 'signed long long': I64, 'signed short': I16, '_Bool': BOOL, 'float': F32, 'double': F64}.items()}


def type_of_words(words: str) -> Optional[CType]:
    """The type that C's words spell (`unsigned long int`), or None."""
    return _WORDS.get(tuple(sorted(words.split())))


BY_NAME: Dict[str, CType] = {ctype.name: ctype for ctype in (*SIGNED.values(), *UNSIGNED.values(), BOOL, F32, F64)}


def promoted(ctype: CType) -> CType:
    """The integer promotion."""
    return I32 if not ctype.floating and ctype.bits < 32 else ctype


def common(a: CType, b: CType) -> CType:
    """The usual arithmetic conversions."""
    for floating in (F64, F32):
        if floating in (a, b):
            return floating
    a, b = promoted(a), promoted(b)
    if a.bits != b.bits:
        return a if a.bits > b.bits else b
    return a if not a.signed else b


def literal(value: Number, ctype: CType) -> str:
    """A constant of a type as C text that can be anywhere among operands."""
    if ctype.floating:
        if math.isinf(value) or math.isnan(value):
            text = '(0.0 / 0.0)' if math.isnan(value) else '(1.0 / 0.0)' if value > 0 else '(-1.0 / 0.0)'
            return text if ctype is F64 else f'(float){text}'
        text = repr(float(value)) + ('f' if ctype.bits == 32 else '')
        return text if math.copysign(1, value) > 0 else f'({text})'
    if ctype.bits == 64:
        if ctype.signed and value == ctype.least:
            return 'INT64_MIN'
        text = f'INT64_C({value})' if ctype.signed else f'UINT64_C({value})'
        return text
    if ctype == U32:
        return f'{value}u'
    if ctype == I32 and value == ctype.least:
        return 'INT32_MIN'
    text = str(value) if value >= 0 else f'({value})'
    return text if ctype == I32 else f'({ctype}){text}'
