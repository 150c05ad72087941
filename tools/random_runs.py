"""Kernels that are made at random, and what all commands answer to them, compared with the rules and with the cheapest pebbling.

The cheapest pebbling of a small kernel is found over the rules of the game alone: by Dijkstra's way through all positions, with all moves, and
with no normal step, floor or table. So this is a look from outside at what the report says: no pebbling is cheaper than the bound, and none
than the cost if the verdict is Optimal. The kernels are those of a number, the same at each run.
"""
import heapq
import random
import re

import reckon

EXPRESSIONS = ['{} + {}', '{} * {}', '{} - {}', 'min({}, {})', 'sel({}, {}, {})', 'mad({}, {}, {})', '-{}', '{}', '{} & {}', '{} ^ {} | {}']
WEIGHTS = [(1, 1), (1, 1), (2, 3), (1, 5), (4, 1), (16, 16)]
BUDGETS = [0, 1, 3, 20, 20000]
NUMBERS = [0, 1, -1, 5, 2 ** 63 - 1, -2 ** 63, 77, -12]
MOST = 7                               # vertices of a kernel


def made_kernel(chance, times=1):
    """A kernel of a few statements, or of as many times more."""
    inputs, outputs, others = ([f'{letter}{k}' for k in range(chance.randint(*limits) * times)] for letter,
                               limits in (('i', (0, 3)), ('o', (1, 2)), ('t', (0, 3))))
    known, body = list(inputs), []

    def operand(_):
        return chance.choice(known + [str(chance.randint(0, 3))])

    for _ in range(chance.randint(1, 6) * times):
        target = chance.choice(others + outputs)
        body.append(f'{target} = {re.sub("{}", operand, chance.choice(EXPRESSIONS))};')
        known += [target] if target not in known else []
    body += [f'{output} = {operand(None)} + 1;' for output in outputs if output not in known]
    declared = [f'{kind} {name};' for kind, names in (('in', inputs), ('out', outputs), ('tmp', others)) for name in names]
    return ' '.join(['kernel k {'] + declared + body + ['}']).encode()


def moves_from(game, red, blue):
    """The positions after each move of the game that changes something, with its cost. To remove a blue pebble never helps."""
    for v in range(game.vertices):
        bit = 1 << v
        if red & bit:
            yield red & ~bit, blue, 0
            yield red, blue | bit, game.store
        else:
            if blue & bit:
                yield red | bit, blue, game.load
            if not game.inputs & bit and game.preds[v] & ~red == 0:
                yield red | bit, blue, 0


def cheapest(game):
    """The cost of a cheapest complete pebbling."""
    costs, waiting = {(0, game.inputs): 0}, [(0, 0, game.inputs)]
    while waiting:
        cost, red, blue = heapq.heappop(waiting)
        if game.outputs & ~blue == 0:
            return cost
        if cost > costs[red, blue]:
            continue
        for after_red, after_blue, more in moves_from(game, red, blue):
            if reckon.size(after_red) <= game.slots and cost + more < costs.get((after_red, after_blue), cost + more + 1):
                costs[after_red, after_blue] = cost + more
                heapq.heappush(waiting, (cost + more, after_red, after_blue))
    return None


def spoiled_tables(chance, table):
    """The table with some bytes changed, some without a row."""
    head = 18 if table[5] == 1 else 20
    for _ in range(6):
        data = bytearray(table)
        if len(data) > head and chance.random() < 0.3:
            row = head + 20 * chance.randrange((len(data) - head) // 20)
            del data[row:row + 20]
            data[head - 4:head] = ((len(data) - head) // 20).to_bytes(4, 'big')
        for _ in range(chance.randint(1, 3)):
            at = chance.randrange(len(data))
            data[at] = chance.choice([0, 1, 2, 3, chance.randrange(256), data[at] ^ 1 << chance.randrange(8), (data[at] + 1) % 256])
        yield bytes(data)


def faults_of_plan(kernel, game, words, planned):
    """What is wrong with the report of a plan."""
    facts = dict(line[2:].split(' ') for line in planned.output.decode().split('\n') if line.startswith('; '))
    cost, bound, least = int(facts['cost']), int(facts['bound']), cheapest(game)
    if planned.status != (0 if cost == bound else 5) or not bound <= least <= cost:
        yield f'{words} on {kernel}: status {planned.status}, cost {cost}, bound {bound}, and the cheapest pebbling costs {least}'


def wrong(ran, answer):
    return (ran.status, ran.output) != answer


def differences(number, runner):
    """The kernel of a number by all commands. How many runs were made, and what was wrong with them."""
    chance = random.Random(number)
    kernel = made_kernel(chance)
    game = reckon.game_of(kernel, 64)
    if game.vertices > MOST:
        return 0, []
    (load, store), budget = chance.choice(WEIGHTS), chance.choice(BUDGETS)
    game = game._replace(slots=game.degree + chance.randint(1, 2), load=load, store=store)
    plan, check = f'plan {game.slots} t {budget} {load} {store}', f'check {game.slots} t {load} {store}'
    values = ' '.join(str(chance.choice(NUMBERS)) for _ in reckon.members(game.inputs)).encode()
    planned = runner.run(plan, kernel, None)
    if planned.status not in (0, 5):
        return 1, [f'{plan} on {kernel}: status {planned.status}']
    found = list(faults_of_plan(kernel, game, plan, planned))
    tries = [('graph', kernel, values, reckon.graph_answer(kernel)), ('run t', kernel, values, reckon.run_answer(kernel, values)),
             ('exec t', planned.output, values, reckon.exec_answer(planned.output, values))]
    tables = [planned.held, *spoiled_tables(chance, planned.held)]
    tries += [(check, kernel, table, reckon.check_answer(game, table)) for table in tables]
    for words, given, held, answer in tries:
        ran = runner.run(words, given, held)
        if wrong(ran, answer):
            found.append(f'{words} on {given}, file {held}: status {ran.status}, output {ran.output}; expected: {answer}')
    return 1 + len(tries), found


# ---- improve and confirm

EFFORTS = [0, 1, 1, 2]
TIMES = [1, 1, 2, 4, 8]                # how many times more statements than those of a small kernel


def faults_of_improved(game, first, ran):
    """What is wrong with the report and the code of an improved plan, whose first plan costs `first`."""
    facts = dict(line[2:].split(' ') for line in ran.output.decode().split('\n') if line.startswith('; '))
    cost, bound = int(facts['cost']), int(facts['bound'])
    lines = ran.output.split(b'\n')
    made = sum(game.load * line.startswith(b'load ') + game.store * line.startswith(b'store ') for line in lines)
    if int(facts['first']) != first or not bound <= cost <= first:
        yield f'first {facts["first"]}, which `plan` says is {first}, cost {cost}, bound {bound}'
    if ran.status != (0 if cost == bound else 5) or (facts['verdict'] == 'Optimal') != (cost == bound):
        yield f'status {ran.status}, verdict {facts["verdict"]}, cost {cost}, bound {bound}'
    if made != cost or b'slots %d' % game.slots not in lines:
        yield f'the transfers of the code cost {made}, and the report says {cost}'
    if game.vertices <= MOST and not bound <= cheapest(game) <= cost:
        yield f'cost {cost}, bound {bound}, and the cheapest pebbling costs {cheapest(game)}'


def improved_differences(number, runner):
    """The kernel of a number by improve and confirm. How many runs were made, and what was wrong with them."""
    chance = random.Random(-number - 1)
    kernel = made_kernel(chance, chance.choice(TIMES))
    game = reckon.game_of(kernel, 64)
    (load, store), effort = chance.choice(WEIGHTS), chance.choice(EFFORTS)
    game = game._replace(slots=game.degree + chance.randint(1, 3), load=load, store=store)
    words, confirm = f'improve {game.slots} t {effort} {load} {store}', f'confirm {game.slots} t {load} {store}'
    values = ' '.join(str(chance.choice(NUMBERS)) for _ in reckon.members(game.inputs)).encode()
    planned = runner.run(f'plan {game.slots} t 0 {load} {store}', kernel, None)
    ran = runner.run(words, kernel, None)
    if ran.status not in (0, 5) or planned.status not in (0, 5):
        return 2, [f'{words} on {kernel}: status {ran.status}, and that of plan is {planned.status}']
    first = int(planned.output.split(b'; first ')[1].split(b'\n')[0])
    found = list(faults_of_improved(game, first, ran))
    outputs, transfers = runner.run('run t', kernel, values), ran.output.count(b'\nload ') + ran.output.count(b'\nstore ')
    wanted = outputs.status, outputs.output + b'; transfers %d\n' % transfers
    if wanted != reckon.exec_answer(ran.output, values) or wanted[0]:
        found.append(f'the code gives {reckon.exec_answer(ran.output, values)}, and the source {outputs.output}')
    tables = [ran.held, *spoiled_tables(chance, ran.held)] if game.vertices <= 64 else []
    for table in tables:
        answer = reckon.check_answer(game, table, confirmed=True)
        confirmed = runner.run(confirm, kernel, table)
        if wrong(confirmed, answer):
            found.append(f'{confirm}, file {table}: status {confirmed.status}, output {confirmed.output}; expected: {answer}')
    return 3 + len(tables), [f'{words} on {kernel}: {fault}' for fault in found]
