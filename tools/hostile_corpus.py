"""Words, kernels, codes, tables, covered tables, plays and values files that are made to break the program, each with its one right answer.

The answers come from the rules alone: a fault of a kernel is where the text was spoiled (tools/hostile_kernels.py), and other answers are
worked out by tools/reckon.py and tools/run_code.py, or written here by hand. None of them shares a line with the program. tools/harden runs
the cases; `python3 tools/hostile_corpus.py` counts them.
"""
import itertools
from collections import Counter, namedtuple

import reckon
from hostile_kernels import P, faulty_kernels, sound_kernels, written_kernels

# A code with a line of each kind.
EVERY_LINE = (b'; any bytes\nslots 3\nwords 4\nin x\nin A[0][63]\nout y 2\nload 0 0\nload 1 1\nset 2 #-1\nadd 2 s0 s2\nsub 2 #10 s2\n'
              b'mul 2 s2 s1\nand 2 s2 #15\nor 2 s2 s0\nxor 2 s2 #1\nneg 2 s2\nmin 0 s0 s2\nmax 1 s0 s1\nsel 2 s0 s1 #0\nmad 2 s1 s2 #3\n'
              b'store 2 2\nend\n')
CHAIN_CODE = (b'slots 3\nwords 4\nin x\nout y 3\nload 0 0\nadd 1 s0 #1\nadd 2 s0 #2\nmul 0 s1 s2\nstore 2 1\nstore 1 2\nload 1 0\n'
              b'add 2 s1 #3\nmul 1 s0 s2\nload 0 2\nmul 2 s1 s0\nload 0 1\nmul 1 s2 s0\nstore 1 3\nend\n')

# A command, its words on the usage line of its program, in the order of that line, and words that spell it.
Command = namedtuple('Command', 'name usage words program')
Command.__new__.__defaults__ = ('pebble',)
COMMANDS = [
    Command('plan', 'plan S TABLE [BUDGET [A B]]', 'plan 2 t'),
    Command('check', 'check S TABLE [A B]', 'check 2 t'),
    Command('run', 'run VALUES', 'run t'),
    Command('exec', 'exec VALUES', 'exec t'),
    Command('graph', 'graph', 'graph'),
    Command('trial', 'trial N S TABLE', 'trial 1 3 t'),
    Command('cover', 'cover S FILE [BUDGET]', 'cover 2 t'),
    Command('covercheck', 'covercheck S FILE', 'covercheck 2 t'),
    Command('parts', 'parts S K FILE [BUDGET]', 'parts 2 1 t'),
    Command('judge', 'judge S PLAY', 'judge 2 t'),
    Command('tidy', 'tidy S PLAY', 'tidy 2 t'),
    Command('cache', 'cache S TABLE [BUDGET]', 'cache 2 t'),
    Command('improve', 'improve S FILE [EFFORT [A B]]', 'improve 2 t', 'improve'),
    Command('confirm', 'confirm S FILE [A B]', 'confirm 2 t', 'improve'),
]

ALL_COMMANDS = {command.name for command in COMMANDS}

# Those that answer a fault of their kernel, beside `graph`.
KERNEL_COMMANDS = [
    'plan', 'run', 'check', 'cover', 'covercheck', 'parts', 'judge', 'tidy', 'cache', 'improve', 'confirm']

AS_BEFORE = object()                   # the file after a run
AS_LEFT = object()                     # the file before a run: what the run before left
OLD = b'what stood in the file before'

# A run and its answer; program is a name, or None for the program that has the command.
Case = namedtuple('Case', 'name words given held status output after program')
Large = namedtuple('Large', 'name words given held statuses')


def case(name, words, given, held, answer, after=AS_BEFORE, program=None):
    return Case(name, words, given, held, *answer, after, program)


# ---- words and kernels

NO_WORDS = [
    '', ' ', '--help', '--version', '-h', 'PLAN 2 t', 'Plan 2 t', 'plan', 'plan 2', 'plan 2 ', 'plan  t', 'plan 0 t', 'plan 65 t',
    'plan 02 t', 'plan +2 t', 'plan -2 t', 'plan 2. t', 'plan 0x2 t', 'plan 1e1 t', 'plan \u0662 t', 'plan \uff12 t', 'plan 4294967298 t',
    'plan 18446744073709551618 t', 'plan 2 t -1', 'plan 2 t 150001', 'plan 2 t 00', 'plan 2 t 4294967296', 'plan 2 t 18446744073709551616',
    'plan 2 t 5 1', 'plan 2 t 5 0 1', 'plan 2 t 5 1 0', 'plan 2 t 5 17 1', 'plan 2 t 5 1 17', 'plan 2 t 5 01 1', 'plan 2 t 5 1 257',
    'plan 2 t 5 1 1 1', 'plan 2 t  1 1', 'plan 2 t 5 1 \u0661', 'check', 'check 2', 'check 2 ', 'check 0 t', 'check 65 t', 'check 2 t 1',
    'check 2 t 0 1', 'check 2 t 1 17', 'check 2 t 1 1 1', 'run', 'run ', 'run t t', 'exec', 'exec ', 'exec t t', 'graph t', 'graph ',
    'graph graph', 'graph\n', 'plan 2\n t', 'trial', 'trial 1 3', 'trial 0 3 t', 'trial 201 3 t', 'trial 1 0 t', 'trial 1 65 t',
    'trial 01 3 t', 'trial 1 3 ', 'trial 1 3 t 5', '\u00e9', 'x' * 120000, 'plan ' + '2' * 100000 + ' t', 'plan 2 t ' + '0' * 100000,
    'cover 2 t 8001', 'cover 0 t', 'cover 2 t 5 1 1', 'covercheck 2', 'covercheck 2 t 1 1', 'parts 2 0 t', 'parts 2 17 t',
    'parts 2 1 t 8001', 'parts 2 1', 'judge 2', 'judge 65 t', 'judge 2 t t', 'tidy 0 t', 'tidy 2 ', 'cache 2', 'cache 2 t 150001',
    'cache 2 t 5 1 1']


# The same for the program improve.
NO_IMPROVE_WORDS = [
    '', ' ', '--help', '--version', 'IMPROVE 2 t', 'Improve 2 t', 'plan 2 t', 'check 2 t', 'graph', 'run t', 'improve', 'improve 2', 'improve 2 ',
    'improve  t', 'improve 0 t', 'improve 65 t', 'improve 02 t', 'improve +2 t', 'improve -2 t', 'improve 2. t', 'improve \u0662 t',
    'improve 4294967298 t', 'improve 18446744073709551618 t', 'improve 2 t -1', 'improve 2 t 201', 'improve 2 t 00', 'improve 2 t 020',
    'improve 2 t 4294967296', 'improve 2 t 18446744073709551636', 'improve 2 t ', 'improve 2 t 5 1', 'improve 2 t 5 0 1', 'improve 2 t 5 1 0',
    'improve 2 t 5 17 1', 'improve 2 t 5 1 17', 'improve 2 t 5 01 1', 'improve 2 t 5 1 257', 'improve 2 t 5 1 1 1', 'improve 2 t  1 1',
    'improve 2 t 5 1 \u0661', 'confirm', 'confirm 2', 'confirm 2 ', 'confirm 0 t', 'confirm 65 t', 'confirm 2 t 1', 'confirm 2 t 0 1',
    'confirm 2 t 1 17', 'confirm 2 t 1 1 1', 'confirm 2 t 20', 'improve\n', '\u00e9', 'x' * 120000, 'improve ' + '2' * 100000 + ' t',
    'improve 2 t ' + '0' * 100000]


def word_cases(commands):
    for program, lines in (('pebble', NO_WORDS), ('improve', NO_IMPROVE_WORDS)):
        usages = [command.usage for command in COMMANDS if command.name in commands and command.program == program]
        if not usages:
            continue
        usage, first = (2, f'usage: {program} {", ".join(usages)}\n'.encode()), 'plan' if program == 'pebble' else 'improve'
        for line in lines:
            yield case(f'words {line[:40]!r}', line.split(' '), P, OLD, usage, program=program)
        yield case('no words', [], P, OLD, usage, program=program)
        yield case('3,000 words', [first] * 3000, P, OLD, usage, program=program)
        yield case('a word that is no UTF-8', [first, b'2', b'\xff'], P, OLD, (13, b''), program=program)
        yield case('no command, no UTF-8', [b'\xc3'], P, OLD, (13, b''), program=program)


EMPTY_PLAN = (b'; kernel e\n; vertices 0\n; inputs 0\n; degree 0\n; slots 64\n; load 16\n; store 1\n; first 0\n; cost 0\n'
              b'; bound 0\n; expanded 0\n; budget 150000\n; verdict Optimal\nslots 64\nwords 0\nend\n')


def kernel_cases(commands):
    turn = itertools.cycle(command.words for command in COMMANDS if command.name in commands and command.name in KERNEL_COMMANDS)
    for number, (code, at, text) in enumerate(faulty_kernels()):
        answer = 3, b'kernel fault %s at %d\n' % (code.encode(), at)
        yield case(f'faulty kernel {number}, {code} at {at}', 'graph', text, OLD, answer)
        words = next(turn)
        yield case(f'faulty kernel {number}, {code} at {at}, {words}', words, text, OLD, answer)
    for number, text in enumerate(sound_kernels()):
        yield case(f'sound kernel {number}', 'graph', text, OLD, reckon.graph_answer(text))
        inputs = reckon.trace_of(reckon.kernel_of(text)).inputs
        values = b' '.join(b'%d' % (k * 7 - 3) for k in range(inputs))
        yield case(f'run of sound kernel {number}', 'run t', text, values, reckon.run_answer(text, values))
        degree = reckon.game_of(text, 64).degree
        if degree:
            small = 4, b'too small needs %d\n' % (degree + 1)
            yield case(f'too few slots for sound kernel {number}', f'plan {degree} t', text, OLD, small)
            yield case(f'too few slots to check sound kernel {number}', f'check {degree} t', text, None, small)
            if 'improve' in commands:
                yield case(f'too few slots to improve sound kernel {number}', f'improve {degree} t', text, OLD, small)
                yield case(f'too few slots to confirm sound kernel {number}', f'confirm {degree} t', text, None, small)
    for number, (text, graph) in enumerate(written_kernels()):
        yield case(f'written kernel {number}', 'graph', text, OLD, (0, graph))
    yield case('the empty kernel planned', 'plan 64 t 150000 16 1', b'kernel e { }', OLD, (0, EMPTY_PLAN),
               bytes.fromhex('5242505400020000004010010000000000000000'))
    if 'improve' in commands:
        improved = EMPTY_PLAN.replace(b'budget 150000', b'effort 200')
        yield case('the empty kernel improved', 'improve 64 t 200 16 1', b'kernel e { }', OLD, (0, improved),
                   bytes.fromhex('5242505400020000004010010000000000000000'))


# ---- codes

HEAD = b'slots 2\nwords 3\nin x\nout y 1\n'
BODY = b'load 0 0\nadd 1 s0 #1\nstore 1 1\nend\n'
GOOD = HEAD + BODY

FIRST_LINES = [
    b'', b' ', b'slots', b'slots ', b'slots 0', b'slots 65', b'slots 01', b'slots +1', b'slots -1', b'slots 1 ', b' slots 1', b'slots  1',
    b'slots\t1', b'slots 1\r', b'Slots 1', b'slots 1 1', b'slots 4294967297', b'slots 18446744073709551617', b'slots ' + b'9' * 5000,
    b'slots ' + b'0' * 5000 + b'1', b'slots 1\0', b'slots \xd9\xa1', b'words 1', b'end', b'\xef\xbb\xbfslots 1', b'slots s1', b'slots #1',
    b'slots 1.0', b'\0', b'kernel']
WORD_LINES = [
    b'', b'words', b'words 257', b'words 00', b'words 1000000', b'words -0', b'words 65536', b'words 4294967296', b'slots 2', b'words 1 ',
    b'in x', b'end', b'word 1', b'words  1']
LABELS = [
    b'x[64]', b'x[00]', b'x[0][0][0]', b'x[', b'x]', b'x[]', b'x[-1]', b'x[0', b'x[0]y', b'x [0]', b'[0]', b'1x', b'', b'\xff', b'\xc3',
    b'x\xc3', b'\xc2\xb2', b'x-y', b'a' * 65, b'\xc3\xa9' * 33, b'x[18446744073709551616]', b'x[0] ', b'x\t', b'x\r', b'\xc2\xa0',
    b'\xed\xa0\x80', b'x[\xd9\xa1]', b'x.y', b'x;', b'x[0]]']
GOOD_LABELS = [
    b'x[63][0]', b'_', b'kernel', b'a' * 64, b'\xc3\xa9' * 32, b'a\xcc\x81', b'in', b'x[9]', b'end', b'\xf0\x90\x90\x80']
LINES = [
    b'load', b'load 0', b'load 0 ', b'load 2 0', b'load 0 3', b'load 0 0 0', b'load s0 0', b'load 0 #0', b'load 00 0', b'load 0 00',
    b'load  0 0', b'Load 0 0', b'store 2 1', b'store 0 3', b'store 0', b'set 0 s1', b'set 0 #', b'set 0 #-', b'set 0 #-0', b'set 0 #00',
    b'set 0 #+1', b'set 0 #01', b'set 0 #9223372036854775808', b'set 0 #-9223372036854775809', b'set 0 #' + b'9' * 30000, b'set 0 #0x1',
    b'set 0 1', b'set 0 #1 #2', b'set 2 #1', b'neg 0', b'neg 0 s0 s0', b'neg 0 s2', b'neg 0 s', b'neg 0 s00', b'neg 0 s-1', b'add 0 s0',
    b'add 0 s0 s0 s0', b'add 0 s0  s0', b'add s0 s0 s0', b'add 0 s0 t0', b'sel 0 s0 s0', b'mad 0 s0 s0 s0 s0', b'div 0 s0 s0', b'input 0',
    b'in z', b'out z 1', b'slots 2', b'words 3', b'END', b'end ', b' end', b'end\r', b'', b' ', b'nop', b'load\t0 0', b'load 0 0\0',
    b'\xff\xfe', b'add 0 s0 #18446744073709551616', b'a' * 70000, b'load 18446744073709551616 0']
GOOD_LINES = [
    b'set 1 #9223372036854775807', b'set 1 #-9223372036854775808', b'neg 1 #-9223372036854775808',
    b'mul 1 #9223372036854775807 #9223372036854775807', b'neg 1 s1', b'mad 1 s1 s1 s1', b'sel 1 #0 s1 #-1', b'; a comment', b';',
    b';\0\xff\xc3', b'load 1 0', b'store 1 2', b'load 0 2', b'store 0 0', b'neg 0 s0', b'min 1 s0 #-9223372036854775808']
ENDS = [
    b'', b'end', b'end\n\n', b'end\nend\n', b'end\n;', b'end\n; a\n', b'end\n;\n;\n', b'end\n ;\n', b'end\n\0', b'end\nload 0 0\n',
    b'end\r\n', b';\n', b'; end\n']


def codes():
    yield from (b'', b'\n', b'\n\n', b';', b';\n', b'; a\r\n', b'slots 1\nwords 0\nend\n', GOOD, GOOD.replace(b'\n', b'\r\n'), GOOD[:-1],
                EVERY_LINE, CHAIN_CODE, P, b'RBPT' + bytes(14))
    yield from (line + b'\nwords 0\nend\n' for line in FIRST_LINES)
    yield from (b'slots 2\n' + line + b'\nend\n' for line in WORD_LINES)
    for label in LABELS + GOOD_LABELS:
        yield b'slots 2\nwords 3\nin ' + label + b'\nout y 0\nend\n'
        yield b'slots 2\nwords 3\nin x\nout ' + label + b' 0\nend\n'
    yield from (b'slots 2\nwords 3\nin x\nout y 1\nload 0 0\n' + line + b'\nstore 0 1\nend\n' for line in LINES + GOOD_LINES)
    yield from (HEAD + b'set 0 #3\nstore 0 1\n' + end for end in ENDS)
    yield from (b'slots 2\nwords 3\n' + b'in x\n' * count + b'end\n' for count in (1, 3, 4))
    yield from (b'slots 2\nwords 3\nin x\nout y ' + word + b'\nend\n' for word in (b'3', b'00', b'', b'256', b'4294967296', b'2'))
    yield b'slots 64\nwords 256\nin x\nout y 255\n' + b''.join(b'load %d 0\n' % k for k in range(64)) + b'store 63 255\nend\n'
    yield b'slots 1\nwords 0\nout y 0\nend\n'
    for sign in b'\0\n\r ;#s0e\xff\xc3':
        yield bytes([sign]) * 65536
        yield bytes([sign]) * 65537
    yield b';\n' * 300_000 + GOOD
    yield GOOD.replace(b'end\n', b'neg 1 s1\n' * 50_000 + b'end\n')
    yield b'slots 1\nwords 1\nin x\n' + b'out y 0\n' * 30_000 + b'end\n'


def code_cases():
    for number, text in enumerate(codes()):
        yield case(f'code {number}', 'exec t', text, b'5', reckon.exec_answer(text, b'5'))
    limit = 20_000_000
    yield case('a comment up to the limit', 'exec t', (b';'.ljust(limit - len(GOOD) - 1, b'x') + b'\n' + GOOD), b'5',
               (0, b'y = 6\n; transfers 2\n'))
    yield case('a byte more than the limit', 'exec t', (b';'.ljust(limit - len(GOOD), b'x') + b'\n' + GOOD), b'5',
               (9, b'code fault line 0\n'))
    yield case('line feeds up to the limit', 'exec t', b'\n' * limit, b'5', (9, b'code fault line 1\n'))
    yield case('comments up to the limit', 'exec t', b';\n' * (limit // 2), b'5', (9, b'code fault line 10000001\n'))
    yield case('a line without end', 'exec t', b'x' * limit, b'5', (9, b'code fault line 1\n'))
    yield case('much more than the limit', 'exec t', bytes(3 * limit), b'5', (9, b'code fault line 0\n'))
    yield case('as many lines as there can be', 'exec t',
               b'slots 1\nwords 1\nin x\nout y 0\nload 0 0\n' + b'neg 0 s0\n' * 2_222_217 + b'end\n', b'5',
               (0, b'y = 5\n; transfers 1\n'))


# ---- values files

NUMBERS = [
    b'', b' ', b'\n', b'5', b'5\n', b' 5', b'\t5\r\n', b'-5', b'-0', b'00005', b'-00005', b'0' * 999_000 + b'7', b'9223372036854775807',
    b'9223372036854775808', b'-9223372036854775808', b'-9223372036854775809', b'18446744073709551616', b'18446744073709551621',
    b'9' * 900_000, b'-' + b'9' * 900_000, b'-', b'--5', b'- 5', b'5-', b'+5', b'5.', b'5.0', b'5e0', b'0x5', b'5,', b'5;', b'5\0', b'\0',
    b'\0005', b'5\x0b', b'5\x0c', b'5\xc2\xa0', b'\xef\xbb\xbf5', b'\xd9\xa5', b'\xff', b'5\xff', b'five', b"'5'", b'5 6', b'5 5',
    b'5\n\n\n', b'5 x', b'x 5', b'NaN', b'// 5', b'; 5', b'5' + b' ' * 999_999, b'5' + b' ' * 1_000_000, b' ' * 999_999 + b'5',
    b' ' * 1_000_000, b' ' * 1_000_001, b'1 ' * 500_000, b'\n' * 1_000_001, b'1_0', b'5\\n', b'-9223372036854775808 ',
    b'0-9223372036854775808', b'000000000000000000000000000000009223372036854775807',
    b'-000000000000000000000000000000009223372036854775808', b'0' * 1_000_000]


def values_cases():
    for number, data in enumerate(NUMBERS):
        yield case(f'values {number} for run', 'run t', P, data, reckon.run_answer(P, data))
        yield case(f'values {number} for exec', 'exec t', GOOD, data, reckon.exec_answer(GOOD, data))
    yield case('no values are wanted', 'run t', b'kernel c { out y; y = 2; }', b' \n', (0, b'y = 2\n'))
    yield case('values that are not wanted', 'run t', b'kernel c { out y; y = 2; }', b'1', (10, b'values fault\n'))
    full, many = b'kernel f { in A[64][4]; out y; y = A[63][3]; }', b' '.join(b'%d' % -k for k in range(256))
    for data in (many, many + b' 1', many[:-5], many.replace(b' ', b'\r\n')):
        yield case('256 values or nearly so', 'run t', full, data, reckon.run_answer(full, data))
    yield case('a folder would be read', 'run room', P, OLD, (6, b''))
    yield case('a file in no folder', 'run none/t', P, OLD, (6, b''))
    yield case('no file', 'run t', P, None, (6, b''))
    yield case('no file for a code', 'exec t', GOOD, None, (6, b''))
    yield case('no file for no code', 'exec t', P, None, (9, b'code fault line 1\n'))
    yield case('a folder would be written', 'plan 2 room', P, OLD, (7, b''))
    yield case('a table in no folder', 'plan 2 none/t', P, OLD, (7, b''))
    yield case('a device that is full', 'plan 2 /dev/full', P, OLD, (7, b''))


# ---- tables and covered tables

def table(vertices, slots, bound, rows=(), version=1, weights=b'', count=None, name=b'RBPT'):
    """The bytes of a table whose rows are its cost, red and blue numbers, and names if it is a covered one."""
    words = (vertices + 63) // 64
    data = name + b''.join(number.to_bytes(2, 'big') for number in (version, vertices, slots)) + weights
    data += bound.to_bytes(4, 'big') + (len(rows) if count is None else count).to_bytes(4, 'big')
    for cost, red, blue, *names in rows:
        data += cost.to_bytes(4, 'big')
        for number in (red, blue):
            data += b''.join((number >> 64 * k & 2 ** 64 - 1).to_bytes(8, 'big') for k in range(words))
        if name == b'RBPC':
            data += len(names).to_bytes(2, 'big') + b''.join(place.to_bytes(2, 'big') + row.to_bytes(4, 'big') for place, row in names)
    return data


def tables():
    """Files for P with two slots."""
    good = table(2, 2, 2)
    yield from (b'', b'R', b'RBP', b'RBPT', bytes(18), bytes(20), b'\xff' * 18, b'\xff' * 4000, good, good[:-1], good + b'\0', good + b'\n',
                good * 2, good.lower(), b'\xef\xbb\xbf' + good, P)
    yield from (table(vertices, 2, 2) for vertices in (0, 1, 3, 64, 65, 128, 192, 256, 257, 65535))
    yield from (table(2, slots, 2) for slots in (0, 1, 3, 64, 65, 256, 65535))
    yield from (table(2, 2, bound) for bound in (0, 1, 3, 255, 2 ** 31, 2 ** 32 - 1))
    yield from (table(2, 2, 2, version=version) for version in (0, 2, 3, 256, 65535))
    yield from (table(2, 2, 2, version=2, weights=bytes(pair)) for pair in ((1, 1), (0, 1), (1, 0), (17, 1), (1, 17), (255, 255), (2, 1),
                                                                            (16, 16)))
    yield from (table(2, 2, 2, weights=bytes(pair)) for pair in ((1, 1), (2, 1)))
    yield from (table(vertices, 2, 2, count=count) for vertices in (0, 2, 256) for count in (1, 2 ** 16, 2 ** 30, 2 ** 30 + 1, 2 ** 31,
                                                                                             2 ** 32 - 1))
    yield from (table(2, 2, 2, [(0, 0, 1)] * 3, count=count) for count in (0, 2, 4, 2 ** 30 + 3, 2 ** 32 - 1))
    start, worked = (0, 0, 1), (1, 3, 1)
    for rows in ([start], [worked], [start, worked], [worked, start], [start, start], [start, worked, worked], [(2 ** 32 - 1, 0, 1)],
                 [(0, 3, 1)], [start, (0, 3, 1)], [(0, 1, 1)], [(0, 2, 1)],
                 [(0, 4, 1)], [(0, 0, 5)], [(0, 0, 2)], [(0, 0, 0)], [(0, 0, 3)], [(1, 0, 3)], [(0, 2 ** 63, 1)], [(0, 0, 2 ** 64 - 1)],
                 [start, (1, 1, 1), (1, 2, 1), (1, 3, 1)], [(0, 7, 1)],
                 [start, (2 ** 32 - 1, 3, 1)], [start, (1, 3, 1), (2, 3, 3)]):
        yield from (table(2, 2, bound, rows) for bound in (0, 2, 3, 2 ** 32 - 1))


def table_cases(commands):
    game = reckon.game_of(P, 2)
    for number, data in enumerate(tables()):
        yield case(f'table {number}', 'check 2 t', P, data, reckon.check_answer(game, data))
        if 'confirm' in commands:
            yield case(f'table {number} to confirm', 'confirm 2 t', P, data, reckon.check_answer(game, data, confirmed=True))
    wide = b'kernel f { in A[64][4]; out y; y = A[63][3]; }'
    game, full = reckon.game_of(wide, 1), 2 ** 256 - 1
    for rows in ([], [(0, 0, full)], [(0, 1, full), (0, 2, full)], [(0, 2, full), (0, 1, full)], [(0, 2 ** 192, full), (0, 1, full)],
                 [(0, 1, full), (0, 2 ** 255, full)], [(0, 3, full)],
                 [(0, 0, full - 1)], [(0, 0, full >> 1)]):
        for bound in (0, 1):
            data = table(256, 1, bound, rows)
            yield case('a table of 256 vertices', 'check 1 t', wide, data, reckon.check_answer(game, data))
    row, limit = bytes(20), 20_000_000
    refused = 1, b'refused reason 1 row 0\n'
    yield case('rows up to the limit', 'check 2 t', P, table(2, 2, 2, count=999_999) + row * 999_999, (1, b'refused reason 4 row 1\n'))
    yield case('rows of four bytes up to the limit', 'check 1 t', b'kernel e { }', table(0, 1, 0, count=4_999_995) + bytes(4 * 4_999_995),
               (1, b'refused reason 4 row 1\n'))
    yield case('the limit, and no table', 'check 2 t', P, (table(2, 2, 2, count=999_999) + row * 999_999).ljust(limit, b'\0'), refused)
    yield case('a byte more than the limit', 'check 2 t', P, (table(2, 2, 2, count=999_999) + row * 999_999).ljust(limit + 1, b'\0'),
               refused)
    yield case('much more than the limit', 'check 2 t', P, bytes(3 * limit), refused)
    yield case('no table file', 'check 2 t', P, None, (6, b''))
    yield case('no table file, and no kernel', 'check 2 t', b'?', None, (3, b'kernel fault K1 at 0\n'))
    yield case('a folder for a table', 'check 2 room', P, OLD, (6, b''))
    if 'confirm' in commands:
        yield case('a byte more than the limit, to confirm', 'confirm 2 t', P,
                   (table(2, 2, 2, count=999_999) + row * 999_999).ljust(limit + 1, b'\0'), refused)
        yield case('no file to confirm', 'confirm 2 t', P, None, (6, b''))
        yield case('a folder to confirm', 'confirm 2 room', P, OLD, (6, b''))
        yield case('a folder would be written by improve', 'improve 2 room', P, OLD, (7, b''))
        yield case('a certificate in no folder', 'improve 2 none/t', P, OLD, (7, b''))
        yield case('a device that is full for a certificate', 'improve 2 /dev/full', P, OLD, (7, b''))


def covered_tables():
    good = table(2, 2, 2, version=1, weights=b'\1\1', name=b'RBPC')
    yield from (b'', b'RBPC', bytes(20), good, good[:-1], good + b'\0', table(2, 2, 2), b'RBPT' + good[4:])
    yield from (table(2, 2, 2, version=version, weights=b'\1\1', name=b'RBPC') for version in (0, 2, 65535))
    yield from (table(2, 2, 2, weights=bytes(pair), name=b'RBPC') for pair in ((0, 1), (1, 0), (17, 1), (1, 17), (2, 1), (16, 16)))
    yield from (table(2, 2, 2, weights=b'\1\1', name=b'RBPC', count=count) for count in (1, 2 ** 30, 2 ** 32 - 1))
    for rows in ([(0, 0, 1)], [(0, 0, 1, (0, 0))], [(0, 0, 1, (1, 0))], [(0, 0, 1, (0, 1))], [(0, 0, 1, (0, 2 ** 32 - 1))],
                 [(0, 0, 1, (65535, 0))], [(0, 0, 1), (1, 3, 1)],
                 [(0, 0, 1, (0, 1)), (1, 3, 1)], [(0, 0, 1, (0, 1), (0, 1)), (1, 3, 1)], [(0, 0, 1, (0, 1)), (1, 3, 1, (0, 0))],
                 [(0, 0, 1, (0, 1)), (0, 3, 1, (2, 0))],
                 [(0, 0, 1, (0, 1)), (2, 3, 1)], [(0, 0, 1, *[(k, 0) for k in range(385)])]):
        yield from (table(2, 2, bound, rows, weights=b'\1\1', name=b'RBPC') for bound in (0, 2, 3))


def cover_cases():
    game = reckon.game_of(P, 2)
    for number, data in enumerate(covered_tables()):
        yield case(f'covered table {number}', 'covercheck 2 t', P, data, reckon.check_answer(game, data, True))
    yield case('more bytes than a covered table may have', 'covercheck 2 t', P, bytes(20_000_001), (1, b'refused reason 1 row 0\n'))


# ---- plays

MOVES = [
    b'load', b'load ', b'load 2', b'load 00', b'load -1', b'load +0', b'load 0 ', b' load 0', b'load  0', b'load 0 0', b'load\t0',
    b'load 0\r', b'Load 0', b'load x', b'load 18446744073709551616', b'load 65536', b'load ' + b'0' * 5000, b'spill 0', b'work 1', b'',
    b' ', b'END', b'end ', b'end\r', b'\0', b'\xff', b'#', b'load 0;', b'dropred 0', b'x' * 70000]
GOOD_MOVES = [
    b';', b'; any \xff bytes', b'load 0', b'load 1', b'store 0', b'store 1', b'compute 0', b'compute 1', b'drop 0', b'drop 1', b'unblue 0',
    b'unblue 1']


def plays():
    yield from (b'', b'\n', b'end', b'end\n', b';', b';\n', b'end\nend\n', b'end\n;\n', b'end\n;', b'end\nload 0\n', P)
    for first in MOVES + GOOD_MOVES:
        yield from (before + first + b'\nstore 1\nend\n' for before in (b'', b'load 0\n', b'load 0\ncompute 1\n',
                                                                        b'load 0\ncompute 1\ndrop 0\nstore 1\n'))
    yield b'load 0\ncompute 1\nstore 1\n' * 20_000 + b'end\n'
    yield b'unblue 0\n' * 2 + b'end\n'


def play_cases(commands):
    game = reckon.game_of(P, 2)
    for number, data in enumerate(plays()):
        answer = reckon.play_answer(game, data)
        if 'judge' in commands:
            yield case(f'play {number}', 'judge 2 t', P, data, answer)
        if 'tidy' in commands and answer[0] == 12:
            yield case(f'play {number} to tidy', 'tidy 2 t', P, data, answer)
    limit = 20_000_000
    if 'judge' in commands:
        yield case('a play up to the limit', 'judge 2 t', P, (b'load 0\n' * ((limit - 22) // 7) + b'compute 1\nstore 1\nend\n'),
                   (0, b'play complete cost %d\n' % ((limit - 22) // 7 + 1)))
        yield case('more bytes than a play may have', 'judge 2 t', P, b';'.ljust(limit, b'x') + b'\n', (12, b'play fault line 0\n'))


# ---- all

def cases(commands):
    """The cases for a program with these commands."""
    yield from itertools.chain(word_cases(commands), kernel_cases(commands), code_cases(), values_cases(), table_cases(commands))
    if 'covercheck' in commands:
        yield from cover_cases()
    yield from play_cases(commands)


# ---- the largest runs

def two_rounds(count):
    """A kernel that makes `count` values from one, and then needs them again in the other order, so that few slots cannot keep them."""
    names = [f'T[{k % 64}][{k // 64}]' for k in range(count)]
    lines = ['kernel two_rounds {', 'in x;', 'out y;', 'tmp T[64][4];', f'{names[0]} = x + 1;']
    lines += [f'{after} = {before} * {k + 2};' for k, (before, after) in enumerate(zip(names, names[1:]))]
    lines += [f'y = {names[-1]};'] + [f'y = y + {name};' for name in reversed(names[:-1])]
    return '\n'.join(lines + ['}', '']).encode()


def far_back(statements):
    """A kernel of 16 inputs whose statements read the vertex before them and one far back."""
    def name(k):
        return f'x[{k}]' if k < 16 else f't[{(k - 16) % 64}][{(k - 16) // 64}]'
    lines = ['kernel far_back {', 'in x[16];', 'out y;', 'tmp t[64][4];']
    lines += [f'{name(16 + k)} = {name((7 * k + statements) % (16 + k))} {"+*"[k % 2]} {name(15 + k)};' for k in range(statements)]
    return '\n'.join(lines + [f'y = {name(15 + statements)};', '}', '']).encode()


def one_chain(count):
    """A kernel with a chain of `count` values, whose last result reads an input that nothing read before."""
    names = [f'T[{k % 64}][{k // 64}]' for k in range(count)]
    lines = ['kernel one_chain {', 'in x;', 'in z;', 'out y;', 'tmp T[64][4];', f'{names[0]} = x + 1;']
    lines += [f'{after} = {before} * {k + 2};' for k, (before, after) in enumerate(zip(names, names[1:]))]
    return '\n'.join(lines + [f'y = {names[-1]} + {names[0]};', 'y = y + z;', '}', '']).encode()


def crowded_rows(count):
    """Rows of a table for 256 vertices of which two are inputs: 62 of the vertices from 64 on are red, so that each of them may go."""
    rows = []
    for number in range(1, count + 1):
        fill = 2 ** (62 - bin(number).count('1')) - 1
        rows.append(bytes(12) + number.to_bytes(8, 'big') + fill.to_bytes(8, 'big') + bytes(8) + (3).to_bytes(8, 'big') + bytes(24))
    return b''.join(rows)


def rising_rows(count):
    """Rows of a table for 256 vertices of which the first is the input: red are the bits of a number that rises, at no cost."""
    rows, number = [], 0
    while len(rows) < count:
        number += 1
        rows.append(bytes(4) + bytes(8) + (number << 1).to_bytes(8, 'big') + bytes(16) + (1).to_bytes(8, 'big') + bytes(24))
    return b''.join(rows)


def largest():
    """Runs at the limits, each with the statuses that it may have."""
    limit, rounds = 20_000_000, two_rounds(128)
    code = b'slots 1\nwords 1\nin x\nout y 0\nload 0 0\n' + b'neg 0 s0\n' * 2_222_217 + b'end\n'
    mads = b'slots 64\nwords 256\nin x\nout y 255\n' + b''.join(b'load %d 0\n' % k for k in range(64))
    mads += b''.join(b'mad %d s%d #-9223372036854775807 s%d\n' % (k % 64, (k * 7 + 3) % 64,
                                                                  (k * 5 + 1) % 64) for k in range(150_000)) + b'store 0 255\nend\n'
    yield Large('the least plan', 'plan 2 t', P, OLD, (0,))
    yield Large('a text of 65,536 bytes', 'plan 64 t 0', b'kernel e { }'.ljust(65536), OLD, (0,))
    yield Large('256 vertices, 64 slots, no search', 'plan 64 t 0', rounds, OLD, (0, 5))
    yield Large('256 vertices, 64 slots, 150,000 rows', 'plan 64 t 150000', rounds, OLD, (0, 5))
    yield Large('256 vertices, 6 slots, 150,000 rows', 'plan 6 t 150000', rounds, OLD, (0, 5))
    yield Large('the table of these rows', 'check 6 t', rounds, AS_LEFT, (0,))
    yield Large('100 vertices, 6 slots, 150,000 rows', 'plan 6 t 150000', far_back(84), OLD, (0, 5))
    yield Large('the largest trial', 'trial 200 6 t', b'', OLD, (0,))
    yield Large('a table of 294,000 rows, of bound 0', 'check 64 t', rounds, table(256, 64, 0, count=294_000) + rising_rows(294_000),
                (0, 1))
    crowded = table(256, 64, 2, count=5_000) + crowded_rows(5_000)
    yield Large('5,000 rows whose steps all need a floor', 'check 64 t', one_chain(252), crowded, (0,))
    yield Large('a file of the limit that is no table', 'check 64 t', rounds, bytes(limit), (1,))
    yield Large('the most lines of a code', 'exec t', code, b'5', (0,))
    yield Large('150,000 operations', 'exec t', mads, b'5', (0,))
    yield Large('comments up to the limit', 'exec t', b';\n' * (limit // 2), b'5', (9,))
    yield Large('500,000 values', 'exec t', GOOD, b'1 ' * 500_000, (10,))
    yield Large('65,533 turns', 'run t', b'kernel t { in x; out y; y = x; for i in 0..65528 { } }', b'5', (0,))
    yield Large('covered, 256 vertices, 64 slots', 'cover 64 t 8000', rounds, OLD, (0, 5))
    yield Large('parts, 256 vertices', 'parts 64 16 t 8000', rounds, OLD, (0,))
    yield Large('a cache beside a plan', 'cache 64 t 0', rounds, OLD, (0, 5))
    yield Large('improved, 256 vertices, 64 slots', 'improve 64 t 200', rounds, OLD, (0, 5))
    yield Large('improved, 256 vertices, 6 slots', 'improve 6 t 200', rounds, OLD, (0, 5))
    yield Large('its certificate', 'confirm 6 t', rounds, AS_LEFT, (0,))
    yield Large('improved, 100 vertices, 6 slots', 'improve 6 t 200', far_back(84), OLD, (0, 5))
    yield Large('the same with the usual effort', 'improve 6 t', far_back(84), OLD, (0, 5))
    moves = b'load 0\n' * ((limit - 30) // 7) + b'compute 1\nstore 1\nend\n'
    yield Large('the longest play', 'judge 2 t', P, moves, (0,))
    yield Large('the longest play, tidied', 'tidy 2 t', P, moves, (0,))


if __name__ == '__main__':
    count = Counter(found.words.split(' ')[0] if isinstance(found.words, str) else 'words' for found in cases(ALL_COMMANDS))
    print(sum(count.values()), 'cases:', dict(count))
