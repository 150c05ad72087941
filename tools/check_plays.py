#!/usr/bin/env python3
"""Checks `pebble judge` and `pebble tidy` against the rules of docs/GAME.md and docs/FORMATS.md, which are written here a second time.

  check_plays.py [COUNT [SEED]]
      makes COUNT plays (1000 if it is left out) of small kernels, and has each judged and tidied: complete ones with moves that are
      for nothing, ones that stop too early, ones with a move that is not allowed, and texts with a line that is none. What `judge` prints
      and its status are to be what the rules say. `tidy` is to say the same of a play that is not complete. Of one that is, its code is to
      have the kernel's outputs on random values, to cost what it says and no more than the play, and to be a complete pebbling that
      computes some of the vertices of the play in the play's order. The plays are the same for the same SEED. Before them come some
      fixed ones, with their answers written here.

The kernels are those of kernels/ with at most 24 vertices, the first trial kernels, and ones that are made up with the plays. What they
compute is worked out by tools/run_code.py, and the plays are made with the help of tools/play. Only Python 3 is needed. The exit status is
0 if all agrees, 1 if something does not (it is printed), and 2 for other words. PEBBLE names another program than the one at the top
of the repository.
"""
import glob
import os
import random
import re
import subprocess
import sys
import tempfile
from collections import Counter, namedtuple
from importlib.machinery import SourceFileLoader
from importlib.util import module_from_spec, spec_from_loader

sys.dont_write_bytecode = True
TOP = os.path.dirname(os.path.dirname(os.path.abspath(__file__)))
sys.path.insert(0, os.path.join(TOP, 'tools'))
import run_code
from check_trials import trial_text
from pebbletools.texts import Graph, Vertex  # run_code has set the path

PEBBLE = run_code.program()
DONE, KERNEL, TOO_SMALL, READ_FAULT, PLAY = 0, 3, 4, 6, 12  # statuses
WORDS = ('load', 'store', 'compute', 'drop', 'unblue')
LONGEST = 20_000_000
MOST_SHOWN = 5

Case = namedtuple('Case', 'source kernel trace graph')
Answer = namedtuple('Answer', 'status text')


def tool(name):
    """A script of tools/ whose name has no ending."""
    loader = SourceFileLoader(name, os.path.join(TOP, 'tools', name))
    module = module_from_spec(spec_from_loader(name, loader))
    loader.exec_module(module)
    return module


play = tool('play')


# ---- the rules

class NotAllowed(Exception):
    """The number of the rule that a move breaks."""


class Position:
    """Where the pebbles are, and what it cost."""

    def __init__(self, trace, slots):
        self.trace, self.slots, self.cost = trace, slots, 0
        self.red, self.blue = set(), set(range(trace.inputs))

    def move(self, word, vertex):
        colour = {'load': self.blue, 'store': self.red, 'drop': self.red, 'unblue': self.blue}.get(word)
        if word == 'compute':
            allowed = vertex >= self.trace.inputs and self.trace.preds[vertex] <= self.red
        else:
            allowed = vertex in colour
        if not allowed:
            raise NotAllowed({'load': 1, 'store': 2, 'compute': 3}.get(word, 4))
        if word in ('drop', 'unblue'):
            colour.remove(vertex)
            return
        if word != 'store' and len(self.red | {vertex}) > self.slots:
            raise NotAllowed(5)
        (self.blue if word == 'store' else self.red).add(vertex)
        self.cost += word != 'compute'

    def allowed(self):
        """The moves that are allowed here."""
        moves = []
        for word in WORDS:
            for vertex in range(len(self.trace.preds)):
                other = Position(self.trace, self.slots)
                other.red, other.blue = set(self.red), set(self.blue)
                try:
                    other.move(word, vertex)
                except NotAllowed:
                    continue
                moves.append((word, vertex))
        return moves


def position_after(case, slots, moves):
    """Where allowed moves lead."""
    position = Position(case.trace, slots)
    for move in moves:
        position.move(*move)
    return position


def judged(case, slots, moves):
    """What `judge` has to answer to moves."""
    position = Position(case.trace, slots)
    for at, (word, vertex) in enumerate(moves):
        try:
            position.move(word, vertex)
        except NotAllowed as rule:
            return Answer(PLAY, f'play fault move {at} rule {rule} vertex {vertex}\n')
    missing = set(case.trace.outputs) - position.blue
    if missing:
        return Answer(PLAY, f'play incomplete vertex {min(missing)}\n')
    return Answer(DONE, f'play complete cost {position.cost}\n')


def is_complete(case, slots, moves):
    return judged(case, slots, moves).status == DONE


def read_play(data, count):
    """The moves of a text for so many vertices, or the number of its bad line."""
    *lines, rest = data.split(b'\n')
    moves, ended = [], False
    for number, line in enumerate(lines, 1):
        if line[:1] == b';':
            continue
        found = re.fullmatch(rb'(load|store|compute|drop|unblue) (0|[1-9][0-9]{0,8})', line)
        if ended or line != b'end' and not (found and int(found.group(2)) < count):
            return number
        ended = line == b'end'
        moves += [] if ended else [(found.group(1).decode(), int(found.group(2)))]
    return moves if ended and not rest else len(lines) + 1


def answer_to(case, slots, data):
    """What `judge` has to answer to a text."""
    moves = read_play(data, len(case.trace.preds))
    return judged(case, slots, moves) if isinstance(moves, list) else Answer(PLAY, f'play fault line {moves}\n')


# ---- kernels

def case_of(source):
    """A kernel with its graph, for the rules and for tools/play."""
    kernel = run_code.kernel_of(source.encode())
    trace = run_code.trace_of(kernel)
    outputs = list(zip(run_code.elements_of(kernel, 'out'), trace.outputs))
    return Case(source, kernel, trace, Graph([Vertex(words[0], words[1:]) for words in map(str.split, trace.lines)], outputs))


def made_up(dice):
    """A kernel of a few statements. Outputs may be inputs or constants, operations may be equal, and some vertices are for nothing."""
    pool = [f'x[{k}]' for k in range(dice.randint(1, 3))]
    heads = [f'kernel made_up {{ in x[{len(pool)}];']
    body = []
    for k in range(dice.randint(1, 7)):
        some = [dice.choice(pool)] + [dice.choice(pool + ['7']) for _ in range(2)]
        dice.shuffle(some)
        form = dice.choice(['{} + {}'] * 2 + ['{} - {}', '{} * {}', '{} & {}', '{} | {}', '{} ^ {}', '-{}', 'min({}, {})', 'max({}, {})',
                                              'sel({}, {}, {})', 'mad({}, {}, {})'])
        body.append(f't[{k}] = {form.format(*some)};')
        pool.append(f't[{k}]')
    outputs = dice.randint(1, 3)
    body += [f'y[{k}] = {dice.choice(pool[-4:] + pool[:1] + ["5"])};' for k in range(outputs)]
    return ' '.join([*heads, f'out y[{outputs}];', f'tmp t[{len(pool)}];', *body, '}\n'])


def kept_kernels():
    """The small kernels of the repository."""
    cases = []
    for path in sorted(glob.glob(os.path.join(TOP, 'kernels', '*.kernel'))):
        with open(path, encoding='utf-8') as file:
            cases.append(case_of(file.read()))
    return [case for case in cases if len(case.trace.preds) <= 24] + [case_of(trial_text(statements)) for statements in range(1, 9)]


# ---- plays

def some_order(case, slots, dice):
    """The vertices that are no inputs, or the live ones of them, in an order that is possible, some of them twice."""
    order, ready = [], set(range(case.trace.inputs))
    all_fit = max(map(len, case.trace.preds)) < slots
    wanted = set(range(len(case.trace.preds))) if all_fit and dice.random() < 0.3 else run_code.live_of(case.trace)
    while wanted - ready:
        vertex = dice.choice(sorted(v for v in wanted - ready if case.trace.preds[v] <= ready))
        ready.add(vertex)
        order.append(vertex)
        if dice.random() < 0.15:
            order.append(dice.choice(order))
    return order


def complete_play(case, slots, dice):
    """A complete play with moves that are for nothing."""
    order = play.depth_first(case.graph) if dice.random() < 0.2 else some_order(case, slots, dice)
    moves = play.Schedule(case.graph, slots, order).moves
    for _ in range(dice.randint(0, 6)):
        at = dice.randint(0, len(moves))
        more = dice.choice(position_after(case, slots, moves[:at]).allowed() or [('load', 0)])
        longer = [*moves[:at], more, *moves[at:]]
        moves = longer if is_complete(case, slots, longer) else moves
    return moves


def broken_play(case, slots, dice):
    """A complete play with some moves that are changed, left out, put in or repeated."""
    moves = complete_play(case, slots, dice)
    for _ in range(dice.randint(1, 3)):
        at, other = dice.randrange(len(moves) + 1), dice.randrange(len(moves) + 1)
        any_move = (dice.choice(WORDS), dice.randrange(len(case.trace.preds)))
        moves = dice.choice([
            [*moves[:at], any_move, *moves[at:]], [*moves[:at], any_move, *moves[at + 1:]], [*moves[:at], *moves[at + 1:]],
            [*moves[:at], *moves[other:other + 1], *moves[at:]]])
    return moves


def short_play(case, slots, dice):
    """The beginning of a complete play, or any moves that are allowed."""
    if dice.random() < 0.5:
        moves = complete_play(case, slots, dice)
        return moves[:dice.randint(0, len(moves))]
    moves, position = [], Position(case.trace, slots)
    for _ in range(dice.randint(0, 30)):
        choices = position.allowed()
        if not choices:
            break
        moves.append(dice.choice(choices))
        position.move(*moves[-1])
    return moves


def text_of(moves, dice):
    """The text of moves, with some comments."""
    lines = [f'{word} {vertex}'.encode() for word, vertex in moves] + [b'end']
    for _ in range(dice.choice([0, 0, 1, 3])):
        lines.insert(dice.randint(0, len(lines)), dice.choice([b';', b'; a comment', b';\xff\x00', b';end', b'; load 0\r']))
    return b'\n'.join(lines) + b'\n'


def spoilt(data, count, dice):
    """A text with one thing changed, which most often leaves it without a reading."""
    lines = data.split(b'\n')
    at = dice.randrange(len(lines))
    line = dice.choice([
        b'', b' ', b'load', b'load ', b'load  0', b' load 0', b'load 0 ', b'load\t0', b'load 0\r', b'load 00', b'load 01', b'load +0', b'load -0',
        b'Load 0', b'spill 0', b'work 0', b'load v0', b'load 0 0', b'load 0;', b'0', b'end ', b'END', b'end', b'; end', b' ; a', b'\t;', b'\xff',
        b'load 0', b'load %d' % count, b'unblue %d' % count, b'drop 65536', b'compute 4294967296', b'load 99999999999999999999'])
    return b'\n'.join(dice.choice([
        lines[:at] + [line] + lines[at:], lines[:at] + [line] + lines[at + 1:], lines[:at] + lines[at + 1:], lines[:-1], lines + [line],
        [data[:dice.randint(0, len(data))]]]))


def some_text(case, slots, dice):
    """A play of one of four kinds."""
    kind = dice.random()
    if kind < 0.4:
        return text_of(complete_play(case, slots, dice), dice)
    if kind < 0.6:
        return text_of(broken_play(case, slots, dice), dice)
    if kind < 0.75:
        return text_of(short_play(case, slots, dice), dice)
    return spoilt(text_of(complete_play(case, slots, dice), dice), len(case.trace.preds), dice)


# ---- what is compared

def ask(words, source):
    """What the program answers to these words on a kernel."""
    quiet = dict(os.environ, PEBBLE_QUIET='1')
    done = subprocess.run([PEBBLE, *words], input=source.encode(), stdout=subprocess.PIPE, env=quiet, check=False)
    return Answer(done.returncode, done.stdout.decode('utf-8', 'replace'))


def kinds_of(trace):
    """For each vertex the least one with the same operation on the same kinds of operands: code cannot tell one from the other."""
    kinds, first = [], {}
    for vertex, line in enumerate(trace.lines):
        form = tuple(f'v{kinds[int(word[1:])]}' if re.fullmatch(r'v\d+', word) and not line.startswith('in ') else word for word in line.split())
        kinds.append(first.setdefault(form, vertex))
    return kinds


def is_subsequence(some, others):
    rest = iter(others)
    return all(any(one == other for other in rest) for one in some)


def demand_tidied(case, slots, moves, cost, text):
    """Checks the text of the tidied plan of moves that cost so much."""
    found = re.fullmatch(rf'; play {cost}\n; cost (0|[1-9][0-9]*)\n(slots .*)\n', text, re.DOTALL)
    run_code.demand(found and int(found.group(1)) <= cost, f'the play costs {cost}, and the first two lines are others')
    code = run_code.read_code_lines(found.group(2).split('\n'))
    run_code.demand(code.slots == slots, f'the code has {code.slots} slots')
    dice = random.Random(text)
    values = [dice.randint(run_code.LEAST, run_code.GREATEST) for _ in code.inputs]
    outputs, transfers = run_code.run(code, values)
    run_code.demand(outputs == run_code.trace_of(case.kernel, values).results, f'the code has other outputs on {values}')
    run_code.demand(transfers == int(found.group(1)), f'the code makes {transfers} transfers')
    again = play.moves_of_code(case.graph, code)
    verdict = judged(case, slots, again)
    run_code.demand(verdict == Answer(DONE, f'play complete cost {transfers}\n'), f'of the play of the code the rules say {verdict}')
    kinds = kinds_of(case.trace)
    computed = [[kinds[vertex] for word, vertex in some if word == 'compute'] for some in (again, moves)]
    run_code.demand(is_subsequence(*computed), 'the code computes in another order than the play')


def faults(case, slots, data, path):
    """What does not agree for a text of a play."""
    with open(path, 'wb') as file:
        file.write(data)
    wanted = answer_to(case, slots, data)
    given = ask(['judge', str(slots), path], case.source)
    if given != wanted:
        yield f'judge: expected {wanted}, got {given}'
    given = ask(['tidy', str(slots), path], case.source)
    if wanted.status != DONE:
        if given != wanted:
            yield f'tidy: expected {wanted}, got {given}'
        return
    try:
        run_code.demand(given.status == DONE, f'the status is {given.status}')
        moves = read_play(data, len(case.trace.preds))
        demand_tidied(case, slots, moves, int(wanted.text.split()[-1]), given.text)
    except (run_code.Disagrees, play.Fails) as why:
        yield f'tidy: {why}: {given.text}'


ONE = 'kernel p { in x; out y; y = x + 1; }'
FIXED = [  # kernel, slots, text of the play, status, output of judge
    (ONE, 2, b'load 0\nload 0\ncompute 1\nstore 1\nstore 1\nend\n', DONE, 'play complete cost 4\n'),
    (ONE, 2, b'compute 1\nend\n', PLAY, 'play fault move 0 rule 3 vertex 1\n'),
    (ONE, 2, b'end\n', PLAY, 'play incomplete vertex 1\n'),
    (ONE, 2, b'load 2\nend\n', PLAY, 'play fault line 1\n'),
    (ONE, 2, b'load 0\nend', PLAY, 'play fault line 2\n'),
    (ONE, 2, b'load 1\nend\n', PLAY, 'play fault move 0 rule 1 vertex 1\n'),
    (ONE, 2, b'load 0\nunblue 0\nload 0\nend\n', PLAY, 'play fault move 2 rule 1 vertex 0\n'),
    (ONE, 2, b'store 0\nend\n', PLAY, 'play fault move 0 rule 2 vertex 0\n'),
    (ONE, 2, b'load 0\ncompute 0\nend\n', PLAY, 'play fault move 1 rule 3 vertex 0\n'),
    (ONE, 2, b'drop 0\nend\n', PLAY, 'play fault move 0 rule 4 vertex 0\n'),
    ('kernel q { in x; in z; in w; out y; y = x + 1; }', 2, b'load 0\nload 1\nload 2\nend\n', PLAY, 'play fault move 2 rule 5 vertex 2\n'),
    (ONE, 2, b'; ' + b'x' * (LONGEST - 7) + b'\nend\n', PLAY, 'play incomplete vertex 1\n'),
    (ONE, 2, b'; ' + b'x' * (LONGEST - 6) + b'\nend\n', PLAY, 'play fault line 0\n'),
    (ONE, 1, b'load 2\n', TOO_SMALL, 'too small needs 2\n'),
    (ONE, 2, None, READ_FAULT, ''),
    ('kernel p { in x; out y; }', 2, None, KERNEL, 'kernel fault K10 at 21\n'),
]


def fixed_faults(folder):
    """What does not agree for the fixed plays; one without a text has no file."""
    path = os.path.join(folder, 'fixed')
    for source, slots, data, status, text in FIXED:
        if os.path.exists(path):
            os.remove(path)
        if data is not None:
            with open(path, 'wb') as file:
                file.write(data)
        for command in ('judge', 'tidy'):
            given, wanted = ask([command, str(slots), path], source), Answer(status, text)
            if command == 'tidy' and status == DONE:
                wanted = Answer(DONE, '; play 4\n; cost 2\nslots 2\nwords 2\nin x\nout y 1\nload 0 0\nadd 1 s0 #1\nstore 1 1\nend\n')
            if given != wanted:
                yield f'{source} with {slots} slots, {data if data is None else data[:60]}: {command}: expected {wanted}, got {given}'


def sort_of(answer):
    """What a play is, in words."""
    second, third = answer.text.split()[1:3]
    return {'line': 'with a bad line', 'move': 'with a bad move'}.get(third, second)


def main(words):
    if len(words) > 2 or not all(word.isdecimal() for word in words):
        print(__doc__, file=sys.stderr)
        return 2
    count, seed = map(int, [*words, *['1000', '1981'][len(words):]])
    dice, kept, sorts, wrong = random.Random(seed), kept_kernels(), Counter(), 0
    with tempfile.TemporaryDirectory() as folder:
        for fault in fixed_faults(folder):
            wrong += 1
            print(fault)
        for number in range(count):
            case = dice.choice(kept) if dice.random() < 0.5 else case_of(made_up(dice))
            slots = min(run_code.facts_of(case.kernel).degree + dice.choice([1, 1, 1, 2, 3, 4]), 64)
            data = some_text(case, slots, dice)
            sorts[sort_of(answer_to(case, slots, data))] += 1
            for fault in faults(case, slots, data, os.path.join(folder, 'play')):
                wrong += 1
                if wrong <= MOST_SHOWN:
                    print(f'play {number}, {slots} slots:\n{case.source}{data.decode("utf-8", "replace")}{fault}')
    made = ', '.join(f'{sorts[sort]} {sort}' for sort in sorted(sorts))
    result = f'{wrong} differ' if wrong else 'none differs'
    print(f'check_plays: {len(FIXED)} fixed plays and {count} others, of these {made}: {result}')
    return 1 if wrong else 0


if __name__ == '__main__':
    sys.exit(main(sys.argv[1:]))
