#!/usr/bin/env python3
"""Turns a code text into a C function, so that a kernel's code can be compiled and stepped through.

  code_to_c.py NAME <CODE
      prints a C file with the function `void NAME(const int64_t *in, int64_t *out)`
  code_to_c.py NAME main <CODE
      prints the same with a `main` after it, which reads a number for each input from standard input and prints the lines that
      `pebble exec` prints, but for the last one

CODE is a code text: what `pebble plan` prints, or a text by docs/FORMATS.md. In the function the slots are one small array and the words
another, and each instruction is one statement with its text beside it. Arithmetic wraps at 64 bits: it is done on unsigned numbers. The
inputs and outputs are in the order of the code, and a comment names each.

Only Python 3 is needed. The exit status is 0; 1 if the input is not a code text, or reads an empty slot or word (one
line says what); and 2 for other words.
"""
import re
import sys

sys.dont_write_bytecode = True
from run_code import run  # which also finds pebbletools
from pebbletools.texts import LEAST, TextError, read_code

WRAPPING = {'add': '+', 'sub': '-', 'mul': '*'}
BITWISE = {'and': '&', 'or': '|', 'xor': '^'}
TWICE_READ = {'min': '<', 'max': '>'}
KEYWORDS = set('auto break case char const continue default do double else enum extern float for goto if inline int long register restrict '
               'return short signed sizeof static struct switch typedef union unsigned void volatile while main in out slot word'.split())


def number(value):
    """A constant of 64 bits. The least one has no literal of its own in C."""
    return 'INT64_MIN' if value == LEAST else f'INT64_C({value})'


def operand(source):
    kind, value = source
    return f'slot[{value}]' if kind == 'slot' else number(value)


def unsigned(text):
    return f'(uint64_t){text}'


def value_of(name, operands):
    """The value of an operation, as a C expression."""
    if name == 'set':
        return operands[0]
    if name == 'neg':
        return f'(int64_t)(0 - {unsigned(operands[0])})'
    if name in WRAPPING:
        return f'(int64_t)({unsigned(operands[0])} {WRAPPING[name]} {unsigned(operands[1])})'
    if name in BITWISE:
        return f'{operands[0]} {BITWISE[name]} {operands[1]}'
    if name in TWICE_READ:
        return f'{operands[0]} {TWICE_READ[name]} {operands[1]} ? {operands[0]} : {operands[1]}'
    if name == 'sel':
        return f'{operands[0]} != 0 ? {operands[1]} : {operands[2]}'
    return f'(int64_t)({unsigned(operands[0])} * {unsigned(operands[1])} + {unsigned(operands[2])})'


def statement(instruction):
    name, slot, rest = instruction
    if name == 'load':
        return f'slot[{slot}] = word[{rest}];'
    if name == 'store':
        return f'word[{rest}] = slot[{slot}];'
    return f'slot[{slot}] = {value_of(name, [operand(source) for source in rest])};'


def function(name, code, transfers):
    lines = ['#include <stdint.h>', '',
             f'/* {code.slots} slots of fast memory, {code.words} words of slow memory, {transfers} transfers. */',
             f'void {name}(const int64_t *in, int64_t *out)', '{', f'    int64_t slot[{code.slots}];', f'    int64_t word[{max(code.words, 1)}];',
             '    (void)in, (void)out, (void)slot, (void)word;', '']
    lines += [f'    word[{k}] = in[{k}]; /* in {label} */' for k, label in enumerate(code.inputs)]
    lines += [f'    {statement(instruction)} /* {instruction.text()} */' for instruction in code.instructions]
    lines += [f'    out[{k}] = word[{word}]; /* out {label} */' for k, (label, word) in enumerate(code.outputs)]
    return lines + ['}']


def harness(name, code):
    lines = ['', '#include <inttypes.h>', '#include <stdio.h>', '', 'int main(void)', '{', f'    int64_t in[{max(len(code.inputs), 1)}];',
             f'    int64_t out[{max(len(code.outputs), 1)}];', '', f'    for (int k = 0; k < {len(code.inputs)}; k++)',
             '        if (scanf("%" SCNd64, &in[k]) != 1)', '            return 1;', f'    {name}(in, out);']
    lines += [f'    printf("{label} = %" PRId64 "\\n", out[{k}]);' for k, (label, _) in enumerate(code.outputs)]
    return lines + ['    return 0;', '}']


def main(words):
    is_name = len(words) in (1, 2) and re.fullmatch(r'[A-Za-z_][A-Za-z0-9_]*', words[0]) and words[0] not in KEYWORDS
    if not is_name or words[1:] not in ([], ['main']):
        print(__doc__, file=sys.stderr)
        return 2
    try:
        code = read_code(sys.stdin.buffer.read().decode())
        _, transfers = run(code, [0] * len(code.inputs))
    except (TextError, UnicodeError) as error:
        print(f'code_to_c: {error}', file=sys.stderr)
        return 1
    lines = function(words[0], code, transfers) + (harness(words[0], code) if words[1:] else [])
    sys.stdout.buffer.write(('\n'.join(lines) + '\n').encode())
    return 0


if __name__ == '__main__':
    sys.exit(main(sys.argv[1:]))
