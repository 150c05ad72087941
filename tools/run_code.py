#!/usr/bin/env python3
"""An evaluator of kernels and of scratch code that shares no line with the planner.

  run_code.py check KERNEL OUTPUT TABLE SLOTS STATUS
      checks what `pebble plan SLOTS TABLE 0` made of a kernel: its output, its table file and its exit status
  run_code.py values KERNEL FOLDER
      writes ten values files for a kernel, 0 to 9, into a folder that is there
  run_code.py outputs KERNEL VALUES OUTPUT STATUS
      checks what `pebble run VALUES` printed of a kernel, and its exit status
  run_code.py graph KERNEL OUTPUT STATUS
      checks what `pebble graph` printed of a kernel, and its exit status
  run_code.py slots KERNEL
      prints three numbers of slots: the fewest that the kernel can do with, one more, and eight
  run_code.py facts KERNEL..
      prints each kernel's row of the table of graphs and plans in docs/KERNELS.md
  run_code.py document DOCUMENT KERNEL..
      checks that the document has each kernel's row, and that its rows of outputs are right
  run_code.py gallery FOLDER KERNEL..
      checks that the sources in the folder, which are tests, have the text of each kernel and no other, with the right numbers

KERNEL, OUTPUT, TABLE, VALUES and DOCUMENT are files. Only Python 3 is needed. The exit status is 0 if all agrees, 1 if something
does not (one line says what), and 2 for other words.

The kernels may use the whole language. The evaluator is for kernels without a fault: it stops at some of the faults, and tells none by
its code.
"""
import operator
import os
import re
import struct
import subprocess
import sys
from collections import namedtuple

sys.dont_write_bytecode = True
sys.path.insert(0, os.path.join(os.path.dirname(os.path.dirname(os.path.realpath(__file__))), 'python'))
from pebbletools.texts import GREATEST, LEAST, TextError as Disagrees, demand, read_code_lines

Kernel = namedtuple('Kernel', 'name declarations body')
Declaration = namedtuple('Declaration', 'kind name sizes')
Assign = namedtuple('Assign', 'target value')
Loop = namedtuple('Loop', 'name first end step body')
Branch = namedtuple('Branch', 'left relation right taken other')
Place = namedtuple('Place', 'name indices')
Call = namedtuple('Call', 'word operands')                      # an operator is a call of its operation; a number is an int
Trace = namedtuple('Trace', 'preds inputs outputs results lines')  # a graph, the numbers of the outputs, and the printed operations
Facts = namedtuple('Facts', 'vertices inputs degree bound')

RESERVED = set('kernel in out tmp for min max sel mad if else by'.split())
OPERATIONS = {                                                  # how many operands, and the result before it is wrapped
    'neg': (1, lambda a: -a),
    'add': (2, lambda a, b: a + b), 'sub': (2, lambda a, b: a - b), 'mul': (2, lambda a, b: a * b),
    'and': (2, lambda a, b: a & b), 'or': (2, lambda a, b: a | b), 'xor': (2, lambda a, b: a ^ b),
    'min': (2, min), 'max': (2, max),
    'sel': (3, lambda c, a, b: a if c != 0 else b), 'mad': (3, lambda a, b, c: a * b + c),
}
WORD_OF_SIGN = {'+': 'add', '-': 'sub', '*': 'mul', '&': 'and', '|': 'or', '^': 'xor'}
RELATIONS = {'==': operator.eq, '!=': operator.ne, '<': operator.lt, '<=': operator.le, '>': operator.gt, '>=': operator.ge}


def program():
    """The program that PEBBLE names, or else the one that ./pebble runs."""
    if 'PEBBLE' in os.environ:
        return os.environ['PEBBLE']
    done = subprocess.run([os.path.join(os.path.dirname(os.path.realpath(__file__)), 'current_program')], stdout=subprocess.PIPE, check=False)
    if done.returncode:
        sys.exit(done.returncode)
    return os.fsdecode(done.stdout.rstrip(b'\n'))


def wrapped(number):
    """What is left of a number in 64 bits of two's complement."""
    return (number + 2 ** 63) % 2 ** 64 - 2 ** 63


def result_of(word, numbers):
    return wrapped(OPERATIONS[word][1](*numbers))


# ---- texts of kernels

SPACE = re.compile(r'(?:[ \t\r\n]|//[^\n]*)*')
NUMBER = re.compile(r'[0-9]+')
SIGN = re.compile(r'\.\.|==|!=|<=|>=|[{}\[\]();,=+\-*&|^<>]')


def name_end(text, at):
    """Where the name that begins at this place ends; the place itself if none begins."""
    if not text[at].isidentifier():
        return at
    while at < len(text) and ('a' + text[at]).isidentifier():
        at += 1
    return at


def tokens_of(data):
    demand(len(data) <= 65536, 'the kernel has more than 65536 bytes')
    text = data.decode('utf-8')
    tokens, at = [], SPACE.match(text).end()
    while at < len(text):
        end, number, sign = name_end(text, at), NUMBER.match(text, at), SIGN.match(text, at)
        demand(end > at or number or sign, f'no token begins at character {at} of the kernel')
        if number:
            end = number.end()
            demand(int(number.group()) <= GREATEST, 'a number is too great')
        elif sign:
            end = sign.end()
        tokens.append(int(text[at:end]) if number else text[at:end])
        demand(number or len(tokens[-1].encode()) <= 64, 'a name has more than 64 bytes')
        at = SPACE.match(text, end).end()
    return tokens


def is_name(token):
    return isinstance(token, str) and token.isidentifier() and token not in RESERVED


class Reader:
    """Goes through the tokens of a kernel, and reads one part after the other by the grammar of docs/LANGUAGE.md."""

    def __init__(self, tokens):
        self.tokens = list(reversed(tokens))

    def sees(self, *signs):
        return bool(self.tokens) and self.tokens[-1] in signs

    def next(self, test, wanted):
        token = self.tokens.pop() if self.tokens else None
        demand(test(token), f'expected {wanted}, got {token!r}')
        return token

    def any(self):
        return self.next(lambda token: token is not None, 'a token')

    def sign(self, sign):
        return self.next(lambda token: token == sign, sign)

    def name(self):
        return self.next(is_name, 'a name')

    def number(self):
        return self.next(lambda token: isinstance(token, int), 'a number')

    def chain(self, levels, atom):
        """Operators of these levels, of which the first binds least; each chain is read from the left."""
        if not levels:
            return self.unary(atom)
        left = self.chain(levels[1:], atom)
        while self.sees(*levels[0]):
            left = Call(WORD_OF_SIGN[self.any()], [left, self.chain(levels[1:], atom)])
        return left

    def unary(self, atom):
        if not self.sees('-'):
            return atom()
        self.sign('-')
        return Call('neg', [self.unary(atom)])

    def index(self):
        return self.chain(['+-', '*'], self.index_atom)

    def index_atom(self):
        if self.sees('('):
            return self.group(self.index)
        token = self.next(lambda token: is_name(token) or isinstance(token, int), 'a name or a number')
        return token if isinstance(token, int) else Place(token, [])

    def expression(self):
        return self.chain(['|', '^', '&', '+-', '*'], self.atom)

    def atom(self):
        if self.sees('('):
            return self.group(self.expression)
        if self.sees('min', 'max', 'sel', 'mad'):
            return self.call()
        return self.number() if self.tokens and isinstance(self.tokens[-1], int) else self.place()

    def group(self, part):
        self.sign('(')
        inside = part()
        self.sign(')')
        return inside

    def call(self):
        word = self.any()
        self.sign('(')
        operands = [self.expression()]
        for _ in range(OPERATIONS[word][0] - 1):
            self.sign(',')
            operands.append(self.expression())
        self.sign(')')
        return Call(word, operands)

    def brackets(self, part):
        found = []
        while self.sees('[') and len(found) < 2:
            self.sign('[')
            found.append(part())
            self.sign(']')
        return found

    def place(self):
        return Place(self.name(), self.brackets(self.index))

    def declaration(self):
        declaration = Declaration(self.any(), self.name(), self.brackets(self.number))
        self.sign(';')
        demand(all(1 <= size <= 64 for size in declaration.sizes), f'{declaration.name} has a size out of range')
        return declaration

    def statement(self):
        if self.sees('for'):
            return self.loop()
        if self.sees('if'):
            return self.branch()
        target = self.place()
        self.sign('=')
        value = self.expression()
        self.sign(';')
        return Assign(target, value)

    def loop(self):
        self.sign('for')
        name = self.name()
        self.sign('in')
        first = self.index()
        self.sign('..')
        end, step = self.index(), 1
        if self.sees('by'):
            self.sign('by')
            step = self.index()
        return Loop(name, first, end, step, self.block())

    def branch(self):
        self.sign('if')
        left = self.index()
        relation = self.next(lambda token: token in RELATIONS, 'a relation')
        right, taken, other = self.index(), self.block(), []
        if self.sees('else'):
            self.sign('else')
            other = self.block()
        return Branch(left, relation, right, taken, other)

    def block(self):
        self.sign('{')
        return self.body()

    def body(self):
        body = []
        while not self.sees('}'):
            body.append(self.statement())
        self.sign('}')
        return body

    def kernel(self):
        self.sign('kernel')
        name, declarations = self.name(), []
        self.sign('{')
        while self.sees('in', 'out', 'tmp'):
            declarations.append(self.declaration())
        kernel = Kernel(name, declarations, self.body())
        demand(not self.tokens, 'tokens follow the kernel')
        return kernel


def kernel_of(data):
    kernel = Reader(tokens_of(data)).kernel()
    names = [declaration.name for declaration in kernel.declarations]
    demand(len(set(names)) == len(names), 'a name is declared twice')
    return kernel


def read_kernel(path):
    with open(path, 'rb') as file:
        return kernel_of(file.read())


# ---- runs of kernels

def elements_of(kernel, kind):
    """The labels of the elements of a kind, in order of declaration and row by row."""
    labels = []
    for declaration in kernel.declarations:
        if declaration.kind == kind:
            indices = ['']
            for size in declaration.sizes:
                indices = [before + f'[{k}]' for before in indices for k in range(size)]
            labels += [declaration.name + index for index in indices]
    return labels


class Run:
    """Executes a kernel on the values of its inputs. An element holds a number and its origin, a vertex or None for a constant."""

    def __init__(self, kernel, values):
        self.kinds = {declaration.name: declaration for declaration in kernel.declarations}
        labels = elements_of(kernel, 'in')
        self.preds = [set() for _ in labels]
        self.lines = [f'in {label}' for label in labels]
        self.held = {label: (value, vertex) for vertex, (label, value) in enumerate(zip(labels, values))}
        self.open = {}
        self.execute(kernel.body)

    def execute(self, body):
        for statement in body:
            if isinstance(statement, Loop):
                demand(statement.name not in self.open and statement.name not in self.kinds, f'{statement.name} is not new')
                first, end, step = map(self.index, (statement.first, statement.end, statement.step))
                demand(step >= 1, f'a loop has the step {step}')
                for turn in range(first, end, step):
                    self.open[statement.name] = turn
                    self.execute(statement.body)
                self.open.pop(statement.name, None)
            elif isinstance(statement, Branch):
                holds = RELATIONS[statement.relation](self.index(statement.left), self.index(statement.right))
                self.execute(statement.taken if holds else statement.other)
            else:
                value = self.value(statement.value)
                demand(statement.target.name in self.kinds, f'{statement.target.name} is not declared')
                demand(self.kinds[statement.target.name].kind != 'in', 'an input is assigned')
                self.held[self.label(statement.target)] = value

    def index(self, index):
        """The number of an index, a bound, a step or a side, which are made of numbers and open loops."""
        if isinstance(index, int):
            number = index
        elif isinstance(index, Place):
            demand(index.name in self.open, f'{index.name} is no open loop')
            return self.open[index.name]
        else:
            number = OPERATIONS[index.word][1](*map(self.index, index.operands))
        demand(-1000000 <= number <= 1000000, f'{number} is too great for an index')
        return number

    def label(self, place):
        demand(place.name in self.kinds, f'{place.name} is not declared')
        sizes, numbers = self.kinds[place.name].sizes, [self.index(index) for index in place.indices]
        demand(len(sizes) == len(numbers), f'{place.name} has another number of indices')
        demand(all(0 <= number < size for number, size in zip(numbers, sizes)), f'an index of {place.name} is out of range')
        return place.name + ''.join(f'[{number}]' for number in numbers)

    def value(self, value):
        if isinstance(value, int):
            return value, None
        if isinstance(value, Place):
            if value.name in self.open and not value.indices:
                return self.open[value.name], None
            label = self.label(value)
            demand(label in self.held, f'{label} is read before it is assigned')
            return self.held[label]
        operands = [self.value(operand) for operand in value.operands]
        result = result_of(value.word, [number for number, _ in operands])
        return result, None if all(origin is None for _, origin in operands) else self.vertex(value.word, operands)

    def vertex(self, word, operands):
        """A new vertex with this operation on operands, each a number and its origin."""
        arguments = [f'#{number}' if origin is None else f'v{origin}' for number, origin in operands]
        self.lines.append(' '.join([word] + arguments))
        self.preds.append({origin for _, origin in operands} - {None})
        return len(self.preds) - 1


def trace_of(kernel, values=None):
    """The graph of a kernel, and the numbers of its outputs on these values; the graph is the same for all values."""
    inputs = len(elements_of(kernel, 'in'))
    run = Run(kernel, [0] * inputs if values is None else values)
    labels = elements_of(kernel, 'out')
    demand(all(label in run.held for label in labels), 'an output is not assigned')
    held = [run.held[label] for label in labels]
    outputs = [run.vertex('set', [(number, None)]) if origin is None else origin for number, origin in held]
    demand(len(run.preds) <= 256, 'there are more than 256 vertices')
    return Trace(run.preds, inputs, outputs, [number for number, _ in held], run.lines)


def live_of(trace):
    """The vertices that are outputs, and those from which a path leads to one."""
    live = set(trace.outputs)
    for v in reversed(range(len(trace.preds))):
        if v in live:
            live |= trace.preds[v]
    return live


def facts_of(kernel):
    """The numbers of a graph that the report has to print, by their definitions."""
    trace = trace_of(kernel)
    preds, inputs, live = trace.preds, trace.inputs, live_of(trace)
    read = {u for v in live for u in preds[v] if u < inputs}
    return Facts(
        vertices=len(preds),
        inputs=inputs,
        degree=max((len(preds[v]) for v in live), default=0),
        bound=len({v for v in trace.outputs if v >= inputs}) + len(read))


def first_cost(kernel, slots):
    """The cost of the first plan by the rules of docs/PLAN.md."""
    trace = trace_of(kernel)
    preds, outputs, never = trace.preds, set(trace.outputs), len(trace.preds)
    ahead = sorted(v for v in live_of(trace) if v >= trace.inputs)
    red, blue, cost = set(), set(range(trace.inputs)), 0
    while ahead:
        v = ahead.pop(0)

        def next_use(u):
            return min((w for w in ahead if u in preds[w]), default=never)

        while len(red | preds[v] | {v}) > slots:
            victim = max(red - preds[v], key=lambda u: (next_use(u), u))
            red.remove(victim)
            if victim not in blue and (next_use(victim) != never or victim in outputs):
                blue.add(victim)
                cost += 1
        demand(preds[v] <= red | blue, f'an operand of vertex {v} is lost')
        cost += len(preds[v] - red)
        red |= preds[v] | {v}
    demand(outputs <= red | blue, 'an output is lost')
    return cost + len(outputs - blue)


def slots_of(facts):
    return facts.degree + 1, facts.degree + 2, 8


def verdict_of(cost, bound):
    return 'Optimal' if cost == bound else 'Open'


# ---- scratch code

def run(code, values):
    """The outputs and the number of transfers; reading an empty slot or word is a fault."""
    slots, words, transfers = {}, dict(enumerate(values)), 0

    def read(operand):
        kind, value = operand
        demand(kind == 'constant' or value in slots, f'slot {value} is empty')
        return value if kind == 'constant' else slots[value]

    for word, slot, rest in code.instructions:
        if word == 'load':
            demand(rest in words, f'word {rest} is empty')
            slots[slot], transfers = words[rest], transfers + 1
        elif word == 'store':
            words[rest], transfers = read(('slot', slot)), transfers + 1
        elif word == 'set':
            slots[slot] = read(rest[0])
        else:
            slots[slot] = result_of(word, [read(operand) for operand in rest])
    demand(all(word in words for _, word in code.outputs), "an output's word is empty")
    return [words[word] for _, word in code.outputs], transfers


# ---- checks

def input_vectors(count):
    """Ten lists of inputs: five of extremes and five of pseudo-random numbers, the same at each run."""
    extremes = [0, -1, GREATEST, LEAST]
    vectors = [[value] * count for value in extremes] + [[extremes[k % 4] for k in range(2, count + 2)]]
    state = 1
    for _ in range(5):
        vector = []
        for _ in range(count):
            state = (state * 6364136223846793005 + 1442695040888963407) % 2 ** 64
            vector.append(wrapped(state ^ (state >> 29)))
        vectors.append(vector)
    return vectors


def check_report(lines, kernel, facts, cost, slots, status):
    wanted = [
        ('kernel', kernel.name), ('vertices', facts.vertices), ('inputs', facts.inputs), ('degree', facts.degree),
        ('slots', slots), ('first', cost), ('cost', cost), ('bound', facts.bound), ('expanded', 0),
        ('budget', 0), ('verdict', verdict_of(cost, facts.bound))]
    for line, (word, value) in zip(lines, wanted):
        demand(line == f'; {word} {value}', f'the report has "{line}" in place of "; {word} {value}"')
    demand(len(lines) == len(wanted), f'the report has {len(lines)} lines')
    demand(status == (0 if cost == facts.bound else 5), f'the exit status is {status}')


def check_code(code, kernel, facts, cost, slots):
    demand(code.slots == slots, f'the code has {code.slots} slots')
    demand(code.inputs == elements_of(kernel, 'in'), 'the code has other inputs')
    demand([label for label, _ in code.outputs] == elements_of(kernel, 'out'), 'the code has other outputs')
    for vector in input_vectors(facts.inputs):
        outputs, transfers = run(code, vector)
        demand(outputs == trace_of(kernel, vector).results, f'other outputs on {vector}')
        demand(transfers == cost, f'{transfers} transfers, and {cost} are printed')


def check(kernel_path, output_path, table_path, slots, status):
    kernel, slots = read_kernel(kernel_path), int(slots)
    facts, cost = facts_of(kernel), first_cost(kernel, slots)
    with open(output_path, encoding='utf-8', newline='') as file:
        text = file.read()
    demand(text.endswith('\n'), 'the output does not end with a line feed')
    lines = text[:-1].split('\n')
    report = [line for line in lines if line.startswith(';')]
    demand(lines[:len(report)] == report, 'the report does not come first')
    check_report(report, kernel, facts, cost, slots, int(status))
    check_code(read_code_lines(lines[len(report):]), kernel, facts, cost, slots)
    with open(table_path, 'rb') as file:
        table = file.read()
    wanted = b'RBPT' + struct.pack('>HHHII', 1, facts.vertices, slots, facts.bound, 0)
    demand(table == wanted, f'the table is {table.hex()} instead of {wanted.hex()}')
    print(f'{kernel.name}: {slots} slots, cost {cost}, bound {facts.bound}, {verdict_of(cost, facts.bound)}: agrees')


def read_text(path):
    with open(path, encoding='utf-8', newline='') as file:
        return file.read()


def check_outputs(kernel_path, values_path, output_path, status):
    kernel = read_kernel(kernel_path)
    results = trace_of(kernel, list(map(int, read_text(values_path).split()))).results
    wanted = ''.join(f'{label} = {number}\n' for label, number in zip(elements_of(kernel, 'out'), results))
    demand(read_text(output_path) == wanted, f'{kernel.name}: other outputs are printed')
    demand(int(status) == 0, f'the exit status of run is {status}')


def check_graph(kernel_path, output_path, status):
    kernel = read_kernel(kernel_path)
    facts, trace = facts_of(kernel), trace_of(kernel)
    lines = [f'vertices {facts.vertices}', f'inputs {facts.inputs}', f'degree {facts.degree}']
    lines += [f'{vertex} {line}' for vertex, line in enumerate(trace.lines)]
    lines += [f'out {label} v{vertex}' for label, vertex in zip(elements_of(kernel, 'out'), trace.outputs)]
    demand(read_text(output_path) == '\n'.join(lines) + '\n', f'{kernel.name}: another graph is printed')
    demand(int(status) == 0, f'the exit status of graph is {status}')


def row_of(kernel):
    facts = facts_of(kernel)
    enough = next(slots for slots in range(facts.degree + 1, 65) if first_cost(kernel, slots) == facts.bound)
    numbers = [facts.vertices, facts.inputs, facts.degree, facts.bound, facts.degree + 1]
    numbers += [first_cost(kernel, slots) for slots in slots_of(facts)] + [enough]
    return f'| `{kernel.name}` | ' + ' | '.join(map(str, numbers)) + ' |'


def document(path, kernel_paths):
    with open(path, encoding='utf-8') as file:
        lines = file.read().split('\n')
    kernels = {kernel.name: kernel for kernel in map(read_kernel, kernel_paths)}
    for kernel in kernels.values():
        demand(row_of(kernel) in lines, f'{path} lacks the row {row_of(kernel)}')
    found = [re.fullmatch(r'\| `(\w+)` \| `([-0-9 ]+)` \| `([-0-9 ]+)` \|', line) for line in lines]
    rows = [row.groups() for row in found if row]
    for name, inputs, outputs in rows:
        demand(name in kernels, f'{path} names the unknown kernel {name}')
        values = list(map(int, inputs.split()))
        demand(len(values) == facts_of(kernels[name]).inputs, f'{path}: {name} has another number of inputs')
        given = trace_of(kernels[name], values).results
        demand(given == list(map(int, outputs.split())), f'{path}: {name} on {inputs} gives {given}')
    print(f'{path}: {len(kernels)} kernels and {len(rows)} rows of outputs: agrees')


TEXT = re.compile(r'const (\w+): &str =\s*"([^"\\]*)";')
KNOWN = re.compile(r'text: (\w+),\s*vertices: (\d+),\s*inputs: (\d+),\s*degree: (\d+),\s*bound: (\d+),\s*costs: \[(.*?)\],\s*runs: \[(.*?)\n    \}',
                   re.DOTALL)
COST = re.compile(r'Cost\((\d+), (\d+)\)')
RUN = re.compile(r'Run\(\s*"([^"]*)",\s*"([^"]*)",?\s*\)')


def check_known(kernel, facts, costs, runs):
    demand(facts_of(kernel) == Facts(*map(int, facts)), f'{kernel.name}: other numbers of the graph')
    found = [(int(slots), int(cost)) for slots, cost in COST.findall(costs)]
    demand([slots for slots, _ in found] == list(slots_of(facts_of(kernel))), f'{kernel.name}: other numbers of slots')
    demand(all(first_cost(kernel, slots) == cost for slots, cost in found), f'{kernel.name}: other costs')
    rows = RUN.findall(runs)
    demand(len(rows) == 2, f'{kernel.name}: {len(rows)} runs')
    for values, printed in rows:
        results = trace_of(kernel, list(map(int, values.split()))).results
        wanted = ''.join(f'{label} = {number}\\n' for label, number in zip(elements_of(kernel, 'out'), results))
        demand(printed == wanted, f'{kernel.name}: other outputs on {values}')


def gallery(folder, kernel_paths):
    source = ''.join(read_text(os.path.join(folder, name)) for name in sorted(os.listdir(folder)))
    texts = dict(TEXT.findall(source))
    for path in kernel_paths:
        demand(read_text(path) in texts.values(), f'{folder} lacks the text of {path}')
    demand(len(texts) == len(kernel_paths), f'{folder} has {len(texts)} texts of kernels')
    rows = KNOWN.findall(source)
    demand(sorted(row[0] for row in rows) == sorted(texts), f'{folder} has a row for other texts')
    for name, *facts, costs, runs in rows:
        check_known(kernel_of(texts[name].encode()), facts, costs, runs)
    print(f'{folder}: {len(texts)} kernels: agrees')


def main(words):
    try:
        if len(words) == 6 and words[0] == 'check':
            check(*words[1:])
        elif len(words) == 3 and words[0] == 'values':
            for k, vector in enumerate(input_vectors(facts_of(read_kernel(words[1])).inputs)):
                with open(os.path.join(words[2], str(k)), 'w', encoding='ascii') as values:
                    print(' '.join(map(str, vector)), file=values)
        elif len(words) == 5 and words[0] == 'outputs':
            check_outputs(*words[1:])
        elif len(words) == 4 and words[0] == 'graph':
            check_graph(*words[1:])
        elif len(words) == 2 and words[0] == 'slots':
            print(*slots_of(facts_of(read_kernel(words[1]))))
        elif len(words) >= 2 and words[0] == 'facts':
            print('\n'.join(row_of(read_kernel(path)) for path in words[1:]))
        elif len(words) >= 3 and words[0] == 'document':
            document(words[1], words[2:])
        elif len(words) >= 3 and words[0] == 'gallery':
            gallery(words[1], words[2:])
        else:
            print(__doc__, file=sys.stderr)
            return 2
    except (Disagrees, OSError, UnicodeError) as error:
        print(f'{" ".join(words[1:2])}: {error}')
        return 1
    return 0


if __name__ == '__main__':
    sys.exit(main(sys.argv[1:]))
