"""`python3 -m pebbletools c ..` and `python3 -m pebbletools study ..` are pebble-c and pebble-study."""
from __future__ import annotations

import sys

from . import command_c, command_study

COMMANDS = {'c': command_c.run, 'study': command_study.run}


def main() -> int:
    if len(sys.argv) < 2 or sys.argv[1] not in COMMANDS:
        print('usage: python3 -m pebbletools c | study ..', file=sys.stderr)
        return 2
    return COMMANDS[sys.argv[1]](sys.argv[2:])


if __name__ == '__main__':
    sys.exit(main())
