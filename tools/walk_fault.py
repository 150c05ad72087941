#!/usr/bin/env python3
"""Says which element is asked for at a fault K7 of a kernel, in which turn of the loops, and which sizes there are.

  walk_fault.py PLACE <KERNEL     prints a line such as: x[4] at i = 3, and x has the size 4

PLACE is the place of the fault in bytes, as `pebble` prints it: that of the name. tools/explain shows the line. The kernel is read and run by
tools/run_code.py. Only Python 3 is needed. Ends with 0, and with 1 and no line if there is no such fault.
"""
import sys

sys.dont_write_bytecode = True
from run_code import NUMBER, SIGN, SPACE, Disagrees, Place, Reader, Run, name_end


class Spot(str):
    """A token that knows its place in bytes."""
    place = -1


def spots_of(data):
    """The tokens of a kernel without a fault of its tokens."""
    text = data.decode('utf-8')
    tokens, at = [], SPACE.match(text).end()
    while at < len(text):
        match = NUMBER.match(text, at) or SIGN.match(text, at)
        end = max(name_end(text, at), match.end() if match else at + 1)
        if NUMBER.match(text, at):
            tokens.append(int(text[at:end]))
        else:
            tokens.append(Spot(text[at:end]))
            tokens[-1].place = len(text[:at].encode())
        at = SPACE.match(text, end).end()
    return tokens


class Found(Exception):
    """The element that is asked for, and does not exist."""


class Walk(Run):
    """Goes through the places of a run in their order, without values, up to the one that is looked for."""

    def __init__(self, kernel, wanted):
        self.wanted = wanted
        super().__init__(kernel, [])

    def label(self, place):
        sizes, numbers = self.kinds[place.name].sizes, [self.index(index) for index in place.indices]
        if place.name.place == self.wanted and not all(0 <= number < size for number, size in zip(numbers, sizes)):
            element = place.name + ''.join(f'[{number}]' for number in numbers)
            turn = ', '.join(f'{name} = {number}' for name, number in self.open.items())
            named = f'the size {sizes[0]}' if len(sizes) == 1 else f'the sizes {sizes[0]} and {sizes[1]}'
            raise Found(f'{element}{" at " + turn if turn else ""}, and {place.name} has {named}')
        return place.name

    def value(self, value):
        if isinstance(value, Place):
            if value.indices or value.name not in self.open:
                self.label(value)
        elif not isinstance(value, int):
            for operand in value.operands:
                self.value(operand)
        return 0, None


def main(words):
    if len(words) != 1 or not words[0].isdigit():
        print(__doc__, file=sys.stderr)
        return 2
    try:
        Walk(Reader(spots_of(sys.stdin.buffer.read())).kernel(), int(words[0]))
    except Found as found:
        print(found)
        return 0
    except (Disagrees, UnicodeError, KeyError, RecursionError):
        pass
    return 1


if __name__ == '__main__':
    sys.exit(main(sys.argv[1:]))
