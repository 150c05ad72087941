#!/usr/bin/env python3
"""The bound of each kernel beside the sums of bounds over parts, which docs/BOUNDS.md has as a table.

parts_table.py table   prints the table
parts_table.py check   compares it with docs/BOUNDS.md; status 1 if they differ

The program is crates/pebble/out/pebble, or what PEBBLE names. Each kernel has the fewest slots that it can do with, each search the budget
8000, and there are 1 to 8 parts. Takes about ten seconds.
"""

import os
import re
import subprocess
import sys
import tempfile

TOP = os.path.dirname(os.path.dirname(os.path.abspath(__file__)))
PEBBLE = os.environ.get("PEBBLE", os.path.join(TOP, "crates", "pebble", "out", "pebble"))
KERNELS = os.path.join(TOP, "kernels")
PAGE = os.path.join(TOP, "docs", "BOUNDS.md")
BUDGET = "8000"
PARTS = range(1, 9)
HEAD = "| Kernel | S | cost | bound | " + " | ".join(f"K = {k}" for k in PARTS) + " |"


def asked(words, kernel):
    """What the program prints to these words and the kernel."""
    with open(os.path.join(KERNELS, kernel + ".kernel"), "rb") as source:
        ran = subprocess.run([PEBBLE, *words], stdin=source, stdout=subprocess.PIPE, check=False)
    if ran.returncode not in (0, 5):
        sys.exit(f"parts_table.py: {PEBBLE} {' '.join(words)} on {kernel}: status {ran.returncode}")
    return ran.stdout.decode()


def number(pattern, text):
    return int(re.search(pattern, text, re.M).group(1))


def row(kernel, file):
    """The row of a kernel, or None if its plan is Optimal."""
    slots = str(number(r"^degree (\d+)$", asked(["graph"], kernel)) + 1)
    plan = asked(["plan", slots, file, BUDGET], kernel)
    if "; verdict Optimal" in plan:
        return None
    bound = number(r"^; bound (\d+)$", plan)
    sums = [number(r"^sum (\d+)$", asked(["parts", slots, str(k), file, BUDGET], kernel)) for k in PARTS]
    shown = [f"**{s}**" if s > bound else str(s) for s in sums]
    cost = number(r"^; cost (\d+)$", plan)
    return f"| `{kernel}` | {slots} | {cost} | {bound} | " + " | ".join(shown) + " |"


def table():
    names = sorted(name[: -len(".kernel")] for name in os.listdir(KERNELS) if name.endswith(".kernel"))
    with tempfile.TemporaryDirectory() as folder:
        rows = [row(name, os.path.join(folder, "tables")) for name in names]
    return [HEAD, "|---" * (4 + len(PARTS)) + "|", *[r for r in rows if r is not None]]


def main():
    if sys.argv[1:] == ["table"]:
        print("\n".join(table()))
    elif sys.argv[1:] == ["check"]:
        with open(PAGE, encoding="utf-8") as page:
            lines = page.read().split("\n")
        begin = lines.index(HEAD)
        made = table()
        if lines[begin : begin + len(made)] != made:
            sys.exit("parts_table.py: docs/BOUNDS.md has another table")
        print(f"parts_table.py: {len(made) - 2} rows agree")
    else:
        sys.exit(__doc__)


main()
