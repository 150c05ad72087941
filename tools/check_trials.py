#!/usr/bin/env python3
"""Checks `pebble trial` against `pebble graph` and `pebble plan` on the texts of the trial kernels.

  check_trials.py [FROM TO]
      makes the trial kernel of each number of statements from FROM to TO (1 and 200 if they are left out) from its description in
      docs/KERNELS.md, and plans it with 3 and with 6 slots: by `trial`, and as a text by `plan` with the budget 2000. The numbers, the verdict
      and the bytes of the table are to be the same, the graph is to have 16 inputs and a vertex more for each statement, and with as many slots
      as its degree `trial` is to ask for one more.

The texts share no line with the program. Only Python 3 is needed. The exit status is 0 if all agrees, 1 if something does not (one
line says what), and 2 for other words. PEBBLE names another program than the one at the top of the repository.
"""
import os
import subprocess
import sys
import tempfile

HERE = os.path.dirname(os.path.dirname(os.path.abspath(__file__)))
PEBBLE = os.environ.get("PEBBLE", os.path.join(HERE, "pebble"))
MOST = 200


def pool(number):
    """The element of the pool with this number: the 16 inputs, and after them the temporaries."""
    if number < 16:
        return f"x[{number}]"
    row, column = (number - 16) % 64, (number - 16) // 64
    return f"t[{row}][{column}]"


def trial_text(statements):
    """The text of the trial kernel with this many statements."""
    lines = ["kernel trial {", "in x[16];", "out y;", "tmp t[64][4];"]
    for k in range(statements):
        left = pool((7 * k + statements) % (16 + k))
        sign = "+*"[k % 2]
        lines.append(f"{pool(16 + k)} = {left} {sign} {pool(15 + k)};")
    lines += [f"y = {pool(15 + statements)};", "}"]
    return "".join(line + "\n" for line in lines)


def run(words, text=""):
    """The status and the output of the program on these words and this input."""
    done = subprocess.run([PEBBLE, *words], input=text.encode(), stdout=subprocess.PIPE, check=False)
    return done.returncode, done.stdout.decode()


def taken(table):
    """The bytes of a file, which is then gone."""
    with open(table, "rb") as file:
        held = file.read()
    os.remove(table)
    return held


def lines_of_report(statements, report):
    """The five lines of a trial by the report of its plan."""
    facts = dict(line[2:].split(" ") for line in report.splitlines() if line.startswith("; "))
    return (
        f"trial {statements}\nvertices {facts['vertices']}\nfirst {facts['first']}\n"
        f"cost {facts['cost']} bound {facts['bound']}\nexpanded {facts['expanded']} {facts['verdict']}\n"
    )


def faults(statements, table):
    """What does not agree at this number of statements."""
    text = trial_text(statements)
    status, graph = run(["graph"], text)
    vertices, inputs, degree = (graph.splitlines() + [""] * 3)[:3]
    if status != 0 or (vertices, inputs) != (f"vertices {16 + statements}", "inputs 16"):
        yield f"the graph has other numbers, or ends with {status}"
        return
    few = int(degree.split(" ")[1])
    if run(["trial", str(statements), str(few), table]) != (4, f"too small needs {few + 1}\n") or os.path.exists(table):
        yield f"{few} slots are not refused"
    for slots in ("3", "6"):
        planned, report = run(["plan", slots, table, "2000"], text)
        plan_table = taken(table)
        tried, lines = run(["trial", str(statements), slots, table])
        trial_table = taken(table)
        if planned not in (0, 5) or tried != 0:
            yield f"{slots} slots: plan ends with {planned}, trial with {tried}"
        if lines != lines_of_report(statements, report):
            yield f"{slots} slots: trial prints {lines!r}"
        if plan_table != trial_table:
            yield f"{slots} slots: another table"


def main(words):
    if len(words) not in (0, 2) or not all(word.isdecimal() for word in words):
        print(__doc__)
        return 2
    first, last = map(int, words or ("1", str(MOST)))
    result = 0
    with tempfile.TemporaryDirectory() as folder:
        for statements in range(first, last + 1):
            for fault in faults(statements, os.path.join(folder, "table")):
                print(f"trial {statements}: {fault}")
                result = 1
    if not result:
        print(f"check_trials: the trial kernels {first} to {last} agree")
    return result


if __name__ == "__main__":
    sys.exit(main(sys.argv[1:]))
