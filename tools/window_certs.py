#!/usr/bin/env python3
"""Checks certificates by windows against the definitions of docs/WINDOWS.md, which are written here a second time, and makes small ones.

  window_certs.py check S FILE [A B] < kernel-graph
      checks the bytes in FILE for S slots and the weights A of a load and B of a store (1 if they are left out). It prints `confirmed
      bound L`, or `refused: ` and the first reason, with the window and the row, both counted from 0.
  window_certs.py make S FILE [A B] [--rows N] [--each K] [--by values|works] [--plain] < kernel-graph
      makes a certificate and prints its bound. There is one window, the whole graph, or with --each K one for each K vertices in order: it
      charges the loads and stores of these vertices, or with `--by works` their stores and the loads by their Works. No table has more
      than N rows (1000 if it is left out). With --plain no automorphisms are looked for.
  window_certs.py from-windows S TEXT FILE [A B] [--rows N] < kernel-graph
      the same for the windows that the file TEXT lists. A line `window` begins one; then come in any order `values V ..`, which charges all
      loads of these values; `load U V` for each other charged load, of U by Work V; `stores V ..`; `required V ..`;
      and if wanted `tracked V ..` (otherwise the values with a charge are tracked). A line `bound L` says that the table is listed too: a line
      `row COST red V .. blue V ..` for each row, and a line `renaming V ..` for each automorphism.
  window_certs.py alter S FILE MOST COUNT [SEED] [A B] < kernel-graph
      alters the certificate in FILE at random, COUNT times, and checks each: every other time the bytes, otherwise bounds, sets, renamings
      and rows. It prints how many were confirmed and the greatest bound, and which reasons were given how often. A bound above MOST is a
      failure.

The kernel-graph is what `./pebble graph` prints. The exit status is 0 if all is well, 1 if a certificate is refused or a bound is above MOST,
and 2 for other words or files that cannot be read. Only Python 3 is needed.
"""
import argparse
import heapq
import random
import sys
from collections import Counter, namedtuple

MOST_ROUNDS = 256
WORD = (1 << 64) - 1

Graph = namedtuple('Graph', 'count preds inputs outputs live degree')
Game = namedtuple('Game', 'graph slots load store')
Part = namedtuple('Part', 'form charged stores tracked required renamings bound rows')
Cert = namedtuple('Cert', 'vertices slots load store bound parts')
Row = namedtuple('Row', 'red blue cost')
Group = namedtuple('Group', 'members loads least')


class Refused(Exception):
    """Why a certificate is refused."""


# ---- sets of vertices, which are numbers: vertex v is the bit of value 2^v

def members(a_set):
    """The members, by rising number."""
    while a_set:
        least = a_set & -a_set
        yield least.bit_length() - 1
        a_set ^= least


def size(a_set):
    """How many members there are."""
    return bin(a_set).count('1')


def set_of(vertices):
    """The set of these vertices."""
    result = 0
    for vertex in vertices:
        result |= 1 << vertex
    return result


def order(position):
    """What positions are compared by: the words of the red set from word 0 on, and then those of the blue set."""
    red, blue = position
    return (red & WORD, red >> 64 & WORD, red >> 128 & WORD, red >> 192, blue & WORD, blue >> 64 & WORD, blue >> 128 & WORD, blue >> 192)


# ---- the graph

def read_graph(text):
    """The graph that `./pebble graph` prints."""
    preds, inputs, outputs = [], 0, 0
    for line in text.splitlines():
        words = line.split()
        if not words or words[0] in ('vertices', 'inputs', 'degree'):
            continue
        if words[0] == 'out':
            if words[-1][0] == 'v':
                outputs |= 1 << int(words[-1][1:])
            continue
        if int(words[0]) != len(preds):
            raise ValueError('vertex %d expected: %s' % (len(preds), line))
        if words[1] == 'in':
            inputs |= 1 << len(preds)
            preds.append(0)
        else:
            preds.append(set_of(int(word[1:]) for word in words[2:] if word[0] == 'v'))
    live = outputs
    for vertex in reversed(range(len(preds))):
        if live >> vertex & 1:
            live |= preds[vertex]
    degree = max([size(preds[v]) for v in members(live)], default=0)
    return Graph(len(preds), preds, inputs, outputs, live, degree)


# ---- the bytes

class Reader:
    """Reads the parts of bytes one after another."""

    def __init__(self, data):
        self.data, self.at = data, 0

    def bytes(self, count, what):
        """The next bytes."""
        if self.at + count > len(self.data):
            raise Refused('bytes at %d: %s cut off' % (self.at, what))
        self.at += count
        return self.data[self.at - count:self.at]

    def number(self, count, what):
        """A number of so many bytes."""
        return int.from_bytes(self.bytes(count, what), 'big')

    def set(self, vertices, what):
        """A set of so many vertices."""
        begins = self.at
        result = int.from_bytes(self.bytes((vertices + 7) // 8, what), 'little')
        if result >> vertices:
            raise Refused('bytes at %d: %s has a bit that is no vertex' % (begins, what))
        return result


def read_part(reader, vertices):
    """The window that comes next."""
    begins = reader.at
    form = reader.number(1, 'form of charged loads')
    if form > 2:
        raise Refused('bytes at %d: form of charged loads' % begins)
    charged = [reader.set(vertices, 'charged loads') for _ in range((vertices, 0, 1)[form])]
    stores, tracked, required = [reader.set(vertices, what) for what in ('charged stores', 'tracked set', 'required set')]
    renamings = [list(reader.bytes(vertices, 'renaming')) for _ in range(reader.number(4, 'number of renamings'))]
    bound = reader.number(4, 'bound of a window')
    begins = reader.at
    rows = []
    for _ in range(reader.number(4, 'number of rows')):
        rows.append(Row(reader.set(vertices, 'red set'), reader.set(vertices, 'blue set'), reader.number(4, 'cost')))
    keys = [order(row[:2]) for row in rows]
    if any(not one < other for one, other in zip(keys, keys[1:])):
        raise Refused('bytes at %d: rows do not rise' % begins)
    return Part(form, charged, stores, tracked, required, renamings, bound, rows)


def read_cert(data):
    """The certificate that the bytes spell."""
    if len(data) < 16 or data[:6] != b'RBPW\0\1':
        raise Refused('bytes at 0: no mark or version')
    reader = Reader(data)
    reader.at = 6
    vertices, slots, load, store, bound = [reader.number(count, 'number') for count in (2, 2, 1, 1, 4)]
    if not (1 <= vertices <= 256 and 1 <= slots <= 64 and 1 <= load <= 16 and 1 <= store <= 16):
        raise Refused('bytes at 0: a number is out of its range')
    parts = [read_part(reader, vertices) for _ in range(reader.number(4, 'number of windows'))]
    if reader.at != len(data):
        raise Refused('bytes at %d: more bytes follow' % reader.at)
    return Cert(vertices, slots, load, store, bound, parts)


def bytes_of(cert):
    """The bytes that spell the certificate."""
    def spelled(a_set):
        return a_set.to_bytes((cert.vertices + 7) // 8, 'little')

    def number(value, count=4):
        return value.to_bytes(count, 'big')
    data = [b'RBPW\0\1', number(cert.vertices, 2), number(cert.slots, 2), number(cert.load, 1), number(cert.store, 1),
            number(cert.bound), number(len(cert.parts))]
    for part in cert.parts:
        data += [number(part.form, 1)] + [spelled(a_set) for a_set in part.charged]
        data += [spelled(part.stores), spelled(part.tracked), spelled(part.required), number(len(part.renamings))]
        data += [bytes(images) for images in part.renamings] + [number(part.bound), number(len(part.rows))]
        for row in part.rows:
            data += [spelled(row.red), spelled(row.blue), number(row.cost)]
    return b''.join(data)


# ---- windows and their steps

class Window:
    """A window of a game: its sets, its legal steps, its groups and its floor."""

    def __init__(self, game, loads, stores, tracked, required):
        graph = game.graph
        self.game, self.loads, self.stores, self.tracked, self.required = game, loads, stores, tracked, required
        self.known = tracked | required
        self.kept = required | tracked & ~stores
        self.held = [graph.preds[v] | 1 << v for v in range(graph.count)]
        self.operands = [graph.preds[v] & self.known for v in range(graph.count)]
        self.goals = graph.outputs & tracked | required
        self.shown = set_of(v for v in members(graph.live & ~graph.inputs) if self.known >> v & 1 or graph.preds[v] & tracked)
        self.workers = set_of(v for v in members(self.shown) if size(self.held[v]) <= game.slots)
        self.free = 0
        for v in members(self.workers):
            self.free |= graph.preds[v] & ~loads[v]
        self.free &= tracked
        self.groups = [group for group in map(self.group_of, members(self.workers)) if group]
        self.start = (0, graph.inputs & tracked)

    def fault(self):
        """Why the sets are no window, or None."""
        graph = self.game.graph
        for v in range(graph.count):
            if self.loads[v] & ~(graph.preds[v] & self.tracked):
                return 'a charged load by Work %d is of no tracked operand' % v
        if self.stores & ~self.tracked:
            return 'a charged store is of no tracked vertex'
        if self.required & (~graph.live | graph.inputs | self.stores):
            return 'a required vertex is not live, is an input, or has a charged store'
        return None

    def group_of(self, v):
        """The group whose first member is v, or None."""
        loads = self.loads[v]
        alike = set_of(u for u in members(self.workers) if self.loads[u] == loads)
        if alike & -alike != 1 << v:
            return None
        least = size(loads)
        for u in members(self.workers & ~alike):
            least = min(least, max(0, size(loads | self.held[u]) - self.game.slots))
        return Group(alike, loads, least) if least else None

    def steps(self, position):
        """The legal steps at a position: the name of each, the position after it, and its cost."""
        red, blue = position
        game, preds = self.game, self.game.graph.preds
        for v in members(self.shown):
            if self.operands[v] & ~(red | blue) or size(red | self.held[v]) > game.slots:
                continue
            if not ((self.tracked & ~red | self.kept & ~blue) >> v & 1 or preds[v] & self.tracked & ~(self.loads[v] | red)):
                continue
            after = (red | self.held[v]) & self.tracked, blue | self.kept & 1 << v
            yield 'Work %d' % v, after, game.load * size(self.loads[v] & ~red)
        if size(red) + game.graph.degree + 1 <= game.slots:
            return
        for u in members(red):
            yield 'Drop %d' % u, (red & ~(1 << u), blue), 0
            if (self.stores & ~blue) >> u & 1:
                yield 'Spill %d' % u, (red & ~(1 << u), blue | 1 << u), game.store

    def finish(self, position):
        """The cost of the finish, or None if the play cannot finish there."""
        red, blue = position
        if self.game.graph.outputs & self.tracked & ~(red | blue) or self.required & ~blue:
            return None
        return self.last_stores(blue)

    def last_stores(self, blue):
        """What the outputs cost that are not blue and whose store is charged."""
        return self.game.store * size(self.game.graph.outputs & self.stores & ~blue)

    # ---- the floor

    def needed(self, red, blue):
        """The vertices without a pebble from which a path of such vertices leads to a tracked output or a required vertex."""
        result = self.goals & ~(red | blue)
        for v in reversed(range(self.game.graph.count)):
            if result >> v & 1:
                result |= self.operands[v] & ~(red | blue)
        return result

    def entries(self, red, blue, needed):
        """What the entries of the counted groups cost, the most that one saves, and the values of these groups."""
        game, cost, saved, counted, claimed = self.game, 0, 0, 0, 0
        for group in self.groups:
            if not group.members & needed:
                continue
            unsaved = group.loads & self.stores & ~(blue | game.graph.outputs | claimed)
            others = size(group.loads & ~unsaved)
            entry = game.load * group.least
            if others < group.least:
                entry += game.store * (group.least - others)
                claimed |= unsaved
            cost += entry
            saved = max(saved, entry - game.load * size(group.loads & ~red))
            counted |= group.loads
        return cost, saved, counted

    def cheap(self, red, blue):
        """The set that one pass finds: what needs no charged load."""
        result = red | blue & ~self.tracked | self.free
        for v in members(self.workers):
            if not self.operands[v] & ~result:
                result |= 1 << v
        return result

    def cones(self, wanted, cheap, avoid):
        """How many cones the wanted vertices have that miss one another and the vertices to avoid."""
        taken = 0
        for v in members(wanted):
            cone = left = 1 << v
            while left:
                u = left.bit_length() - 1
                more = self.operands[u] & ~cheap & ~cone
                cone |= more
                left = left & ~(1 << u) | more
            if not cone & avoid:
                avoid |= cone
                taken += 1
        return taken

    def floor(self, position):
        """A number that each play from the position costs at least: the greater of two floors with cones."""
        red, blue = position
        needed = self.needed(red, blue)
        wanted = needed
        for v in members(needed):
            wanted |= self.operands[v] & ~red
        cheap = self.cheap(red, blue)
        wanted &= ~cheap
        cost, saved, counted = self.entries(red, blue, needed)
        without = self.game.load * self.cones(wanted, cheap, 0)
        with_groups = cost + self.game.load * self.cones(wanted, cheap, counted) - saved
        last = self.last_stores(blue)
        return max(last + without, last + with_groups)


# ---- images

class Renaming:
    """A permutation of the vertices, given by the list of their images."""

    def __init__(self, images):
        self.images, self.seen = images, {}

    def set(self, a_set):
        """The image of a set."""
        if a_set not in self.seen:
            self.seen[a_set] = set_of(self.images[v] for v in members(a_set))
        return self.seen[a_set]

    def fault(self, window):
        """Why this is no automorphism of the window, or None."""
        graph, workers = window.game.graph, window.workers
        sets = ('tracked set', window.tracked), ('required set', window.required), ('charged stores', window.stores), \
            ('tracked inputs', graph.inputs & window.tracked), ('tracked outputs', graph.outputs & window.tracked)
        for what, a_set in sets:
            if self.set(a_set) != a_set:
                return 'it does not keep the %s' % what
        for v in members(workers):
            image = self.images[v]
            if not workers >> image & 1:
                return 'worker %d goes to %d, which is no worker' % (v, image)
            if self.set(window.operands[v]) != window.operands[image] or self.set(window.loads[v]) != window.loads[image]:
                return 'operands or charged loads of %d do not go to those of %d' % (v, image)
            if size(window.held[v] & ~window.tracked) != size(window.held[image] & ~window.tracked):
                return 'Work %d and Work %d do not take as many slots' % (v, image)
        return None


def least_image(renamings, position):
    """The image under which a position is looked up."""
    for _ in range(MOST_ROUNDS if renamings else 0):
        best, best_words = position, order(position)
        for renaming in renamings:
            red = renaming.set(position[0])
            if order((red, 0))[:4] <= best_words[:4]:
                image = red, renaming.set(position[1])
                if order(image) < best_words:
                    best, best_words = image, order(image)
        if best == position:
            break
        position = best
    return position


# ---- the check

def load_sets(game, part):
    """The charged loads by the Work of each vertex."""
    if part.form == 0:
        return part.charged
    works = part.charged[0] if part.form == 2 else (1 << game.graph.count) - 1
    return [game.graph.preds[v] & part.tracked if works >> v & 1 else 0 for v in range(game.graph.count)]


def check_renamings(window, lists, place):
    """The renamings, if each is an automorphism of the window."""
    renamings = []
    for number, images in enumerate(lists):
        if sorted(images) != list(range(len(images))):
            raise Refused('%s renaming %d: no permutation' % (place, number))
        renamings.append(Renaming(images))
        fault = renamings[-1].fault(window)
        if fault:
            raise Refused('%s renaming %d: %s' % (place, number, fault))
    return renamings


def check_part(game, part, place):
    """The window of the part, if all of it is valid."""
    window = Window(game, load_sets(game, part), part.stores, part.tracked, part.required)
    if window.fault():
        raise Refused('%s: %s' % (place, window.fault()))
    renamings = check_renamings(window, part.renamings, place)
    costs = {(row.red, row.blue): row.cost for row in part.rows}

    def settled(position, paid):
        image = least_image(renamings, position)
        return image in costs and costs[image] <= paid or part.bound <= paid + window.floor(image)
    if not settled(window.start, 0):
        raise Refused('%s: the start is not settled' % place)
    for number, row in enumerate(part.rows):
        for name, after, cost in window.steps(row[:2]):
            if not settled(after, row.cost + cost):
                raise Refused('%s row %d: %s is not settled' % (place, number, name))
        finish = window.finish(row[:2])
        if finish is not None and row.cost + finish < part.bound:
            raise Refused('%s row %d: the finish does not reach the bound' % (place, number))
    return window


def check(game, data):
    """The bound that the bytes prove for the game, or Refused."""
    cert = read_cert(data)
    for what, is_there, wanted in (('vertices', cert.vertices, game.graph.count), ('slots', cert.slots, game.slots),
                                   ('weight of a load', cert.load, game.load), ('weight of a store', cert.store, game.store)):
        if is_there != wanted:
            raise Refused('%s: %d instead of %d' % (what, is_there, wanted))
    windows = []
    for number, part in enumerate(cert.parts):
        window = check_part(game, part, 'window %d' % number)
        for earlier, other in enumerate(windows):
            if window.stores & other.stores or any(one & two for one, two in zip(window.loads, other.loads)):
                raise Refused('window %d: something is charged in window %d as well' % (number, earlier))
        windows.append(window)
    if cert.bound != sum(part.bound for part in cert.parts):
        raise Refused('the bound is not the sum of those of the windows')
    return cert.bound


# ---- automorphisms

class Symmetry:
    """Looks for automorphisms of a window by refining colours."""

    def __init__(self, window):
        graph = window.game.graph
        self.places = list(members(window.known | window.workers))
        self.numbers = {}
        self.edges = {v: [] for v in self.places}
        self.colours = {}
        for v in self.places:
            worker = window.workers >> v & 1
            sets = (window.tracked, window.required, window.stores, graph.inputs & window.tracked, graph.outputs & window.tracked)
            rest = size(window.held[v] & ~window.tracked) if worker else -1
            self.colours[v] = self.number((rest,) + tuple(a_set >> v & 1 for a_set in sets))
            for u in members(window.operands[v] if worker else 0):
                charged = window.loads[v] >> u & 1
                self.edges[v].append((charged, u))
                self.edges[u].append((2 + charged, v))
        self.tries = 0

    def number(self, key):
        """The number of a colour, the same for equal keys."""
        return self.numbers.setdefault(key, len(self.numbers))

    def refine(self, colours):
        """Colours that tell apart what neighbours of other colours tell apart."""
        count = 0
        while count != len(set(colours.values())):
            count = len(set(colours.values()))
            colours = {v: self.number((colours[v], tuple(sorted((kind, colours[u]) for kind, u in self.edges[v])))) for v in self.places}
        return colours

    def match(self, one, other):
        """A renaming from one colouring to another, or None."""
        self.tries -= 1
        one, other = self.refine(one), self.refine(other)
        if self.tries < 0 or sorted(one.values()) != sorted(other.values()):
            return None
        sizes = Counter(one.values())
        twins = [v for v in self.places if sizes[one[v]] > 1]
        if not twins:
            at = {colour: v for v, colour in other.items()}
            return {v: at[colour] for v, colour in one.items()}
        v = twins[0]
        for u in sorted((u for u in self.places if other[u] == one[v]), key=lambda u: (u != v, u)):
            mark = self.number(('marked', one[v]))
            found = self.match({**one, v: mark}, {**other, u: mark})
            if found:
                return found
        return None

    def find(self, window, most):
        """Lists of images of some automorphisms: for each of a chain of vertices one for each vertex to which it can go."""
        result, colours = [], self.refine(self.colours)
        for v in self.places:
            for u in [u for u in self.places if u != v and colours[u] == colours[v]]:
                self.tries = 24
                mark = self.number(('marked', colours[v]))
                found = self.match({**colours, v: mark}, {**colours, u: mark}) if len(result) < most else None
                images = [(found or {}).get(k, k) for k in range(window.game.graph.count)]
                if found and not Renaming(images).fault(window):
                    result.append(images)
            colours = self.refine({**colours, v: self.number(('alone', v))})
        return result


# ---- making tables

class Tables:
    """Makes tables of a window for one bound after another."""

    def __init__(self, window, renamings, most_rows):
        self.window, self.renamings, self.most_rows = window, renamings, most_rows
        self.floors, self.successors, self.images = {}, {}, {}

    def floor(self, position):
        """The floor of a position, worked out once."""
        if position not in self.floors:
            self.floors[position] = self.window.floor(position)
        return self.floors[position]

    def image(self, position):
        """The image under which a position is looked up, worked out once."""
        if position not in self.images:
            self.images[position] = least_image(self.renamings, position)
        return self.images[position]

    def steps(self, position):
        """The images of the positions after the steps, each with its least cost, worked out once."""
        if position not in self.successors:
            costs = {}
            for _, after, cost in self.window.steps(position):
                image = self.image(after)
                costs[image] = min(cost, costs.get(image, cost))
            self.successors[position] = list(costs.items())
        return self.successors[position]

    def rows(self, bound):
        """The rows that support a bound, or None if a play is cheaper or there are too many rows: cheapest positions first."""
        start = self.image(self.window.start)
        costs, heap = {}, []
        if self.floor(start) < bound:
            heap.append((0, start))
        while heap:
            cost, position = heapq.heappop(heap)
            if position in costs:
                continue
            finish = self.window.finish(position)
            if len(costs) == self.most_rows or finish is not None and cost + finish < bound:
                return None
            costs[position] = cost
            for after, more in self.steps(position):
                if after not in costs and cost + more + self.floor(after) < bound:
                    heapq.heappush(heap, (cost + more, after))
        return [Row(red, blue, cost) for (red, blue), cost in sorted(costs.items(), key=lambda row: order(row[0]))]

    def best(self):
        """The greatest bound within the rows, and its rows."""
        bound, rows = self.floor(self.image(self.window.start)), []
        while True:
            more = self.rows(bound + 1)
            if more is None:
                return bound, rows
            bound, rows = bound + 1, more


def make_part(game, loads, stores, required, tracked, options, with_table=True):
    """A window, if wanted with a table that proves as much as the rows allow."""
    window = Window(game, loads, stores, tracked, required)
    if window.fault():
        raise ValueError(window.fault())
    lists = Symmetry(window).find(window, 64) if with_table and not options.plain else []
    bound, rows = Tables(window, [Renaming(images) for images in lists], options.rows).best() if with_table else (0, [])
    all_tracked = [game.graph.preds[v] & tracked for v in range(game.graph.count)]
    works = set_of(v for v in range(game.graph.count) if loads[v])
    by_works = [a_set if works >> v & 1 else 0 for v, a_set in enumerate(all_tracked)]
    form, charged = (1, []) if loads == all_tracked else (2, [works]) if loads == by_works else (0, loads)
    return Part(form, charged, stores, tracked, required, lists, bound, rows)


def cert_of(game, parts):
    """The certificate of the windows."""
    return Cert(game.graph.count, game.slots, game.load, game.store, sum(part.bound for part in parts), parts)


def window_of_values(game, values):
    """The loads, the stores and the required vertices of the window that charges all of these values."""
    graph = game.graph
    loads = [graph.preds[v] & values if graph.live >> v & 1 else 0 for v in range(graph.count)]
    return loads, values, set_of(v for v in range(graph.count) if loads[v]) & ~values


def window_of_works(game, works):
    """The same for the window that charges the loads by these Works and the stores of these vertices."""
    graph = game.graph
    loads = [graph.preds[v] if works >> v & 1 else 0 for v in range(graph.count)]
    return loads, works & ~graph.inputs, 0


def make_parts(game, options):
    """The windows: the whole graph, or intervals of its live vertices."""
    live = list(members(game.graph.live))
    length = options.each or len(live) or 1
    make_window = window_of_works if options.by == 'works' and options.each else window_of_values
    parts = []
    for begins in range(0, len(live), length):
        loads, stores, required = make_window(game, set_of(live[begins:begins + length]))
        tracked = stores
        for a_set in loads:
            tracked |= a_set
        parts.append(make_part(game, loads, stores, required, tracked, options))
    return parts


Listed = namedtuple('Listed', 'loads sets renamings rows bounds')


def listed_windows(game, text):
    """The windows that a text lists."""
    windows, graph = [], game.graph
    for words in map(str.split, text.splitlines()):
        if not words or words[0].startswith('#'):
            continue
        if words[0] == 'window':
            windows.append(Listed([0] * graph.count, {'stores': 0, 'required': 0, 'tracked': 0}, [], [], []))
            continue
        window, numbers = windows[-1], [int(word) for word in words[1:] if word.isdigit()]
        if words[0] == 'values':
            for v in members(graph.live):
                window.loads[v] |= graph.preds[v] & set_of(numbers)
        elif words[0] == 'load':
            window.loads[numbers[1]] |= 1 << numbers[0]
        elif words[0] == 'row':
            red = words.index('blue') - words.index('red') - 1
            window.rows.append(Row(set_of(numbers[1:1 + red]), set_of(numbers[1 + red:]), numbers[0]))
        elif words[0] == 'renaming':
            window.renamings.append(numbers)
        elif words[0] == 'bound':
            window.bounds.append(numbers[0])
        else:
            window.sets[words[0]] |= set_of(numbers)
    return windows


def listed_part(game, window, options):
    """The window with its table as listed, or with one that is made."""
    tracked = window.sets['tracked'] | window.sets['stores']
    for a_set in window.loads:
        tracked |= a_set
    part = make_part(game, window.loads, window.sets['stores'], window.sets['required'], tracked, options, not window.bounds)
    if not window.bounds:
        return part
    rows = sorted(window.rows, key=lambda row: order(row[:2]))
    return part._replace(renamings=window.renamings, bound=window.bounds[0], rows=rows)


def altered(data, chance):
    """The bytes after one to three changes at random: a byte, some bytes taken out or doubled, or a number raised."""
    data = bytearray(data)
    for _ in range(chance.choice((1, 1, 1, 2, 3))):
        at, kind = chance.randrange(len(data)), chance.randrange(8)
        if kind < 3:
            data[at] ^= 1 << chance.randrange(8)
        elif kind < 5:
            data[at] = (data[at] + chance.choice((1, 255))) % 256
        elif kind == 5:
            data[at] = chance.randrange(256)
        elif kind == 6:
            del data[at:at + chance.choice((1, 2, 4, 8))]
        else:
            data[at:at] = data[at:at + chance.choice((1, 2, 4, 8))]
        if not data:
            data = bytearray(1)
    return bytes(data)


def altered_part(part, vertices, chance):
    """A window after one change that the bytes can spell."""
    bit, kind = 1 << chance.randrange(vertices), chance.randrange(9)
    rows, lists = list(part.rows), [list(images) for images in part.renamings]
    if kind == 0:
        return part._replace(bound=part.bound + chance.choice((1, 1, 2)))
    if kind < 4:
        name = ('stores', 'tracked', 'required')[kind - 1]
        return part._replace(**{name: getattr(part, name) ^ bit})
    if kind == 4 and part.charged:
        at = chance.randrange(len(part.charged))
        return part._replace(charged=[a_set ^ bit if k == at else a_set for k, a_set in enumerate(part.charged)])
    if kind == 5 and lists:
        images = chance.choice(lists)
        one, other = chance.randrange(vertices), chance.randrange(vertices)
        images[one], images[other] = images[other], images[one]
        return part._replace(renamings=lists)
    if rows:
        at = chance.randrange(len(rows))
        row = rows.pop(at)
        changes = {6: row._replace(cost=row.cost + 1), 7: row._replace(red=row.red ^ bit), 8: row._replace(blue=row.blue ^ bit)}
        rows += [changes[kind]] if kind in changes else []
    keyed = {order(row[:2]): row for row in rows}
    return part._replace(rows=[keyed[key] for key in sorted(keyed)])


def altered_cert(cert, chance):
    """The certificate after one to three changes that the bytes can spell; its bound is the sum again."""
    parts = list(cert.parts)
    for _ in range(chance.choice((1, 1, 2, 3))):
        at = chance.randrange(len(parts))
        if chance.randrange(10):
            parts[at] = altered_part(parts[at], cert.vertices, chance)
        else:
            parts.append(parts[at])
    return cert._replace(parts=parts, bound=sum(part.bound for part in parts))


# ---- the commands

def run_alter(game, options):
    """Alters and checks, and says whether each bound is at most what it may be."""
    with open(options.file, 'rb') as file:
        data = file.read()
    chance, reasons, bounds, cert = random.Random(options.seed), Counter(), [], read_cert(data)
    for number in range(options.count):
        changed = bytes_of(altered_cert(cert, chance)) if number % 2 and cert.parts else altered(data, chance)
        try:
            bounds.append(check(game, changed))
        except Refused as refused:
            reasons[' '.join(''.join(c for c in word if not c.isdigit()) for word in str(refused).split())] += 1
    lines = ['confirmed %d of %d, greatest bound %s' % (len(bounds), options.count, max(bounds, default='none'))]
    lines += ['%7d %s' % (count, reason) for reason, count in reasons.most_common()]
    sys.stdout.write('\n'.join(lines) + '\n')
    return 1 if max(bounds, default=0) > options.most else 0


def run(options):
    """Runs one command, and gives the exit status."""
    game = Game(read_graph(sys.stdin.read()), options.slots, options.load, options.store)
    if options.command == 'alter':
        return run_alter(game, options)
    if options.command == 'check':
        with open(options.file, 'rb') as file:
            data = file.read()
        try:
            print('confirmed bound %d' % check(game, data))
        except Refused as refused:
            print('refused: %s' % refused)
            return 1
        return 0
    if options.command == 'make':
        parts = make_parts(game, options)
    else:
        with open(options.text, encoding='utf-8') as file:
            parts = [listed_part(game, window, options) for window in listed_windows(game, file.read())]
    cert = cert_of(game, parts)
    with open(options.file, 'wb') as file:
        file.write(bytes_of(cert))
    print('made bound %d: windows %d, rows %d' % (cert.bound, len(parts), sum(len(part.rows) for part in parts)))
    return 0


def main():
    """Reads the words of the command line."""
    parser = argparse.ArgumentParser(usage=__doc__, add_help=False)
    commands = parser.add_subparsers(dest='command', required=True)
    for name, words in (('check', ()), ('make', ()), ('from-windows', ('text',)), ('alter', ())):
        command = commands.add_parser(name)
        command.add_argument('slots', type=int)
        for word in words + ('file',):
            command.add_argument(word)
        if name == 'alter':
            command.add_argument('most', type=int)
            command.add_argument('count', type=int)
            command.add_argument('seed', type=int, nargs='?', default=1)
        command.add_argument('load', type=int, nargs='?', default=1)
        command.add_argument('store', type=int, nargs='?', default=1)
        if name in ('make', 'from-windows'):
            command.add_argument('--rows', type=int, default=1000)
            command.add_argument('--plain', action='store_true')
        if name == 'make':
            command.add_argument('--each', type=int, default=0)
            command.add_argument('--by', choices=('values', 'works'), default='values')
    try:
        return run(parser.parse_args())
    except (OSError, ValueError, IndexError) as fault:
        print('window_certs.py: %s' % fault, file=sys.stderr)
        return 2


if __name__ == '__main__':
    sys.exit(main())
