"""What `exec`, `run`, `check`, `covercheck` and `judge` have to answer, by the rules of docs/FORMATS.md and docs/PLAN.md alone.

It shares no line with the program. Each answer is a pair of the exit status and the printed bytes. tools/hostile_corpus.py and
tools/harden compare the program with it, on texts and bytes that nobody would write. Kernels are read by tools/run_code.py, so they have
to have no fault.
"""
import re
from collections import namedtuple

from run_code import OPERATIONS, LEAST, GREATEST, kernel_of, live_of, result_of, trace_of

CODE_LIMIT = TABLE_LIMIT = 20_000_000
VALUES_LIMIT = 1_000_000

Code = namedtuple('Code', 'slots words inputs outputs instructions')
Game = namedtuple('Game', 'vertices inputs preds outputs live degree slots load store')
Row = namedtuple('Row', 'red blue cost names')
Table = namedtuple('Table', 'vertices slots load store bound rows')


# ---- numbers, lines and values

def plain(word, low, high):
    """The number of plain decimal from low to high that these bytes spell, or None."""
    if not re.fullmatch(rb'0|[1-9][0-9]*', word) or len(word) > 20:
        return None
    return int(word) if low <= int(word) <= high else None


def constant(word):
    """The constant that these bytes spell, or None."""
    if not re.fullmatch(rb'0|-?[1-9][0-9]*', word) or len(word) > 20:
        return None
    return int(word) if LEAST <= int(word) <= GREATEST else None


def values_of(data):
    """The numbers of a values file, or None."""
    if len(data) > VALUES_LIMIT:
        return None
    numbers = []
    for word in re.split(rb'[ \t\r\n]+', data.strip(b' \t\r\n')) if data.strip(b' \t\r\n') else []:
        if not re.fullmatch(rb'-?[0-9]+', word):
            return None
        digits = word.lstrip(b'-').lstrip(b'0') or b'0'
        if len(digits) > 20:
            return None
        number = -int(digits) if word.startswith(b'-') else int(digits)
        if not LEAST <= number <= GREATEST:
            return None
        numbers.append(number)
    return numbers


def read_lines(data, reader):
    """Goes through a text's lines by a reader with take(words), which says whether a line is allowed, and is_done. The bad line, or None."""
    *lines, last = data.split(b'\n')
    for number, line in enumerate(lines, 1):
        if not line.startswith(b';') and not reader.take(line.split(b' ')):
            return number
    return len(lines) + 1 if last or not reader.is_done() else None


# ---- codes

LABEL = re.compile(r'([^\[\]]*)((?:\[(?:0|[1-9][0-9]?)\]){0,2})')


def is_label(word):
    try:
        found = LABEL.fullmatch(word.decode('utf-8'))
    except UnicodeDecodeError:
        return False
    if not found or not found[1].isidentifier() or len(found[1].encode()) > 64:
        return False
    return all(int(index) <= 63 for index in re.findall(r'[0-9]+', found[2]))


class CodeReader:
    """The lines of a code, one after another."""

    def __init__(self):
        self.stage, self.slots, self.words = 'slots', 0, 0
        self.inputs, self.outputs, self.instructions = [], [], []

    def is_done(self):
        return self.stage == 'done'

    def take(self, words):
        stages = {'slots': [self.first], 'words': [self.second], 'in': [self.input, self.output, self.instruction, self.end],
                  'out': [self.output, self.instruction, self.end], 'instructions': [self.instruction, self.end], 'done': []}
        return any(rule(words) for rule in stages[self.stage])

    def number_line(self, words, name, low, high, stage):
        number = plain(words[1], low, high) if len(words) == 2 and words[0] == name else None
        if number is not None:
            self.stage = stage
        return number

    def first(self, words):
        self.slots = self.number_line(words, b'slots', 1, 64, 'words')
        return self.slots is not None

    def second(self, words):
        self.words = self.number_line(words, b'words', 0, 256, 'in')
        return self.words is not None

    def input(self, words):
        if len(words) != 2 or words[0] != b'in' or not is_label(words[1]) or len(self.inputs) == self.words:
            return False
        self.inputs.append(words[1])
        return True

    def output(self, words):
        if len(words) != 3 or words[0] != b'out' or not is_label(words[1]) or plain(words[2], 0, self.words - 1) is None:
            return False
        self.outputs.append((words[1], int(words[2])))
        self.stage = 'out'
        return True

    def operand(self, word):
        if word[:1] == b's':
            slot = plain(word[1:], 0, self.slots - 1)
            return None if slot is None else ('slot', slot)
        number = constant(word[1:]) if word[:1] == b'#' else None
        return None if number is None else ('constant', number)

    def instruction(self, words):
        name = words[0].decode('latin-1')
        slot = plain(words[1], 0, self.slots - 1) if len(words) >= 3 else None
        if slot is None:
            return False
        if name in ('load', 'store'):
            rest = plain(words[2], 0, self.words - 1) if len(words) == 3 else None
        elif name == 'set' or name in OPERATIONS:
            rest = [self.operand(word) for word in words[2:]]
            if len(rest) != (1 if name == 'set' else OPERATIONS[name][0]) or None in rest or (name == 'set' and rest[0][0] == 'slot'):
                return False
        else:
            return False
        if rest is None:
            return False
        self.instructions.append((name, slot, rest))
        self.stage = 'instructions'
        return True

    def end(self, words):
        if words != [b'end']:
            return False
        self.stage = 'done'
        return True


class Empty(Exception):
    """What is empty was read."""


def run_code(code, values):
    """The outputs and the transfers of a code on these values, or the place of its fault."""
    slots, words, transfers = {}, dict(enumerate(values)), 0

    def read(held, key):
        if key not in held:
            raise Empty
        return held[key]

    def number(operand):
        return operand[1] if operand[0] == 'constant' else read(slots, operand[1])

    at = 0
    try:
        for name, slot, rest in code.instructions:
            if name == 'load':
                slots[slot], transfers = read(words, rest), transfers + 1
            elif name == 'store':
                words[rest], transfers = read(slots, slot), transfers + 1
            elif name == 'set':
                slots[slot] = rest[0][1]
            else:
                slots[slot] = result_of(name, [number(operand) for operand in rest])
            at += 1
        results = []
        for _, word in code.outputs:
            results.append(read(words, word))
            at += 1
    except Empty:
        return at, None
    return None, (results, transfers)


def outputs_text(labels, numbers):
    return b''.join(b'%s = %d\n' % (label, number) for label, number in zip(labels, numbers))


def exec_answer(text, data):
    """The answer of `exec` to this code text and this values file."""
    code = CodeReader()
    line = 0 if len(text) > CODE_LIMIT else read_lines(text, code)
    if line is not None:
        return 9, b'code fault line %d\n' % line
    values = values_of(data)
    if values is None or len(values) != len(code.inputs):
        return 10, b'values fault\n'
    fault, ran = run_code(code, values)
    if ran is None:
        return 11, b'exec fault at %d\n' % fault
    return 0, outputs_text([label for label, _ in code.outputs], ran[0]) + b'; transfers %d\n' % ran[1]


def run_answer(kernel, data):
    """The answer of `run` to this kernel without a fault and this values file."""
    trace, values = trace_of(kernel_of(kernel)), values_of(data)
    if values is None or len(values) != trace.inputs:
        return 10, b'values fault\n'
    labels = [label.encode() for label in labels_of(kernel)]
    return 0, outputs_text(labels, trace_of(kernel_of(kernel), values).results)


def labels_of(kernel):
    tree = kernel_of(kernel)
    labels = []
    for declaration in tree.declarations:
        if declaration.kind == 'out':
            names = [declaration.name]
            for size in declaration.sizes:
                names = [f'{name}[{k}]' for name in names for k in range(size)]
            labels += names
    return labels


def graph_answer(kernel):
    """The answer of `graph` to this kernel without a fault."""
    trace = trace_of(kernel_of(kernel))
    live = live_of(trace)
    lines = [f'vertices {len(trace.preds)}', f'inputs {trace.inputs}', f'degree {max((len(trace.preds[v]) for v in live), default=0)}']
    lines += [f'{vertex} {line}' for vertex, line in enumerate(trace.lines)]
    lines += [f'out {label} v{vertex}' for label, vertex in zip(labels_of(kernel), trace.outputs)]
    return 0, ''.join(line + '\n' for line in lines).encode()


# ---- games: a set of vertices is a number whose bit v is vertex v

def bits(vertices):
    return sum(1 << v for v in set(vertices))


def members(number):
    return [v for v in range(number.bit_length()) if number >> v & 1]


def size(number):
    return bin(number).count('1')


def game_of(kernel, slots, load=1, store=1):
    trace = trace_of(kernel_of(kernel))
    live = live_of(trace)
    return Game(len(trace.preds), (1 << trace.inputs) - 1, [bits(preds) for preds in trace.preds], bits(trace.outputs), bits(live),
                max((len(trace.preds[v]) for v in live), default=0), slots, load, store)


def steps_of(game, red, blue):
    """The legal steps in their order, each as whether it drops, its cost, and the position that it leads to."""
    steps = []
    for v in members(game.live & ~game.inputs & ~red):
        after = red | game.preds[v] | 1 << v
        if game.preds[v] & ~(red | blue) == 0 and size(after) <= game.slots:
            steps.append((False, game.load * size(game.preds[v] & ~red), after, blue))
    if size(red) + game.degree + 1 > game.slots:
        steps += [(True, 0, red & ~(1 << u), blue) for u in members(red)]
        steps += [(False, game.store, red & ~(1 << u), blue | 1 << u) for u in members(red & ~blue)]
    return steps


def finish_of(game, red, blue):
    """The cost of the finish, or None if some output has no pebble."""
    return None if game.outputs & ~(red | blue) else game.store * size(game.outputs & ~blue)


def floor_of(game, red, blue):
    """The floor of a position, by docs/PLAN.md."""
    pebbled, needed = red | blue, game.outputs & ~(red | blue)
    while True:
        more = needed
        for v in members(needed):
            more |= game.preds[v] & ~pebbled
        if more == needed:
            break
        needed = more
    wanted = needed
    for v in members(needed):
        wanted |= game.preds[v] & ~red
    computable = red
    for v in range(game.vertices):
        if not game.inputs >> v & 1 and game.preds[v] & ~computable == 0:
            computable |= 1 << v
    taken, covered = 0, 0
    for z in members(wanted & ~computable):
        cone = 1 << z
        for v in range(z, -1, -1):
            if cone >> v & 1:
                cone |= game.preds[v] & ~computable
        if cone & covered == 0:
            taken, covered = taken + 1, covered | cone
    return game.store * size(game.outputs & ~blue) + game.load * taken


# ---- tables and covered tables

def number_at(data, at, count):
    return int.from_bytes(data[at:at + count], 'big')


def header_of(data, covered):
    """The numbers before the rows and the place of the first row, or None."""
    if len(data) < 18 or data[:4] != (b'RBPC' if covered else b'RBPT'):
        return None
    version, vertices, slots, load, store, at = number_at(data, 4, 2), number_at(data, 6, 2), number_at(data, 8, 2), 1, 1, 10
    if version not in ((1,) if covered else (1, 2)) or vertices > 256 or not 1 <= slots <= 64:
        return None
    if covered or version == 2:
        if len(data) < 20:
            return None
        load, store, at = data[10], data[11], 12
        if not (1 <= load <= 16 and 1 <= store <= 16) or (not covered and load == store == 1):
            return None
    return Table(vertices, slots, load, store, number_at(data, at, 4), number_at(data, at + 4, 4)), at + 8


def table_of(data, covered=False):
    """The table that these bytes spell, or None."""
    found = header_of(data, covered)
    if len(data) > TABLE_LIMIT or found is None:
        return None
    table, at = found
    words, rows = (table.vertices + 63) // 64, []
    wide = 8 * words
    if not covered and len(data) != at + table.rows * (4 + 2 * wide):
        return None
    for _ in range(table.rows):
        end = at + 4 + 2 * wide + (2 if covered else 0)
        if end > len(data):
            return None
        sets = [sum(number_at(data, at + from_ + 8 * k, 8) << 64 * k for k in range(words)) for from_ in (4, 4 + wide)]
        names = []
        if covered:
            count = number_at(data, end - 2, 2)
            if end + 6 * count > len(data):
                return None
            names = [(number_at(data, end + 6 * k, 2), number_at(data, end + 6 * k + 2, 4)) for k in range(count)]
        rows.append(Row(*sets, number_at(data, at, 4), names))
        at = end + 6 * len(names)
    return table._replace(rows=rows) if at == len(data) else None


def order_of(row):
    """The numbers by which rows are put in order."""
    return [number >> 64 * k & 2 ** 64 - 1 for number in (row.red, row.blue) for k in range(4)]


def is_position(game, row):
    return (row.red | row.blue) >> game.vertices == 0 and game.inputs & ~row.blue == 0 and size(row.red) <= game.slots


def covers(game, row, red, blue):
    return (red & game.live) & ~row.red == 0 and (blue & game.live) & ~row.blue == 0


def is_named_well(game, rows, row):
    """Whether a row's names rise, are of legal steps and of rows, and their rows cover where the steps lead and cost no more."""
    places = [place for place, _ in row.names]
    steps = steps_of(game, row.red, row.blue)
    if any(first >= second for first, second in zip(places, places[1:])):
        return False
    if any(place >= len(steps) or number >= len(rows) for place, number in row.names):
        return False
    for place, number in row.names:
        drops, cost, red, blue = steps[place]
        if drops or not covers(game, rows[number], red, blue) or rows[number].cost > row.cost + cost:
            return False
    return True


def refusal_of(game, table, covered=False):
    """The first reason against a table and the least row for it, or None."""
    rows, bound = table.rows, table.bound
    for reason, holds in ((2, table.vertices == game.vertices), (3, table.slots == game.slots),
                          (9, (table.load, table.store) == (game.load, game.store))):
        if not holds:
            return reason, 0
    for k in range(1, len(rows)):
        if order_of(rows[k - 1]) >= order_of(rows[k]):
            return 4, k
    for k, row in enumerate(rows):
        if not is_position(game, row):
            return 5, k
    costs = {(row.red, row.blue): row.cost for row in rows}
    starts = any(row.cost == 0 for row in rows) if covered else costs.get((0, game.inputs)) == 0
    if bound > floor_of(game, 0, game.inputs) and not starts:
        return 6, 0
    for k, row in enumerate(rows):
        if covered and not is_named_well(game, rows, row):
            return 10, k
    for k, row in enumerate(rows):
        named = {place for place, _ in row.names}
        for place, (_, cost, red, blue) in enumerate(steps_of(game, row.red, row.blue)):
            paid = row.cost + cost
            if place not in named and costs.get((red, blue), paid + 1) > paid and bound > paid + floor_of(game, red, blue):
                return 7, k
    for k, row in enumerate(rows):
        ends = finish_of(game, row.red, row.blue)
        if ends is not None and bound > row.cost + ends:
            return 8, k
    return None


def check_answer(game, data, covered=False, confirmed=False):
    """The answer of `check`, or of `covercheck` or `confirm`, to a file for a game."""
    table = table_of(data, covered)
    reason = (1, 0) if table is None else refusal_of(game, table, covered)
    if reason is None:
        return 0, b'%s bound %d\n' % (b'confirmed' if confirmed else b'accepted', table.bound)
    return 1, b'refused reason %d row %d\n' % reason


# ---- plays

class PlayReader:
    """The lines of a play, one after another."""

    def __init__(self, vertices):
        self.vertices, self.moves, self.ended = vertices, [], False

    def is_done(self):
        return self.ended

    def take(self, words):
        if self.ended:
            return False
        if words == [b'end']:
            self.ended = True
            return True
        vertex = plain(words[1], 0, self.vertices - 1) if len(words) == 2 else None
        if vertex is None or words[0] not in (b'load', b'store', b'compute', b'drop', b'unblue'):
            return False
        self.moves.append((words[0], vertex))
        return True


def moved(game, red, blue, name, v):
    """The position after a move, and 0; or no position, and the rule that the move breaks."""
    bit = 1 << v
    if name == b'load':
        needs, rule, red = blue & bit, 1, red | bit
    elif name == b'store':
        needs, rule, blue = red & bit, 2, blue | bit
    elif name == b'compute':
        needs, rule, red = not game.inputs & bit and game.preds[v] & ~red == 0, 3, red | bit
    elif name == b'drop':
        needs, rule, red = red & bit, 4, red & ~bit
    else:
        needs, rule, blue = blue & bit, 4, blue & ~bit
    if not needs:
        return None, rule
    return (None, 5) if size(red) > game.slots else ((red, blue), 0)


def play_answer(game, data):
    """The answer of `judge` to a file for a game: of `tidy` too, if it is a fault."""
    play = PlayReader(game.vertices)
    line = 0 if len(data) > TABLE_LIMIT else read_lines(data, play)
    if line is not None:
        return 12, b'play fault line %d\n' % line
    red, blue, cost = 0, game.inputs, 0
    for at, (name, vertex) in enumerate(play.moves):
        position, rule = moved(game, red, blue, name, vertex)
        if position is None:
            return 12, b'play fault move %d rule %d vertex %d\n' % (at, rule, vertex)
        red, blue = position
        cost += {b'load': game.load, b'store': game.store}.get(name, 0)
    left = members(game.outputs & ~blue)
    if left:
        return 12, b'play incomplete vertex %d\n' % left[0]
    return 0, b'play complete cost %d\n' % cost
