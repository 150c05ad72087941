"""Plans C functions and Python functions for a scratchpad of S words. `bin/pebble-c` and `bin/pebble-study` are its commands."""
