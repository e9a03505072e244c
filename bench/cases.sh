#!/usr/bin/env bash
# How long the built program takes to read programs with as many cases, edges and coefficients as there may be, and to make their
# cases, and how much memory. The best of 5 runs, in which its start and the reading of its input are counted, the least time of a processor
# that one of them took, which other work on the machine changes less, and the best time of reading alone.
# Build it first: (cd crates/timing && rt run)
set -eu
cd "$(dirname "$0")/.."
PYTHONPATH=bench exec python3 -B - crates/timing/out/timing <<'END_OF_PROGRAM'
import sys
from measure import best_over

LIMIT = 8_000_000


def one_edge(commands):
    return f"START: 0;\nFROM: 0; {commands} TO: 0;\n"


def unequal(variables, times):
    """So many assumptions, each over all the variables and with two lists."""
    total = " + ".join(f"v{number}" for number in range(variables))
    return one_edge(f"assume({total} != 0); " * times)


def unequal_at_once(variables, times):
    """The same as one assumption."""
    total = " + ".join(f"v{number}" for number in range(variables))
    return one_edge("assume(" + " && ".join([f"{total} != 0"] * times) + ");")


def many_edges(edges, variables, rows):
    """So many edges around the locations, over so many variables, with so many rows in all: a guard first, and then updates."""
    made = ["START: 0;\n"]
    for edge in range(edges):
        share = rows * (edge + 1) // edges - rows * edge // edges
        first = edge % variables
        names = [f"v{(first + place) % variables}" for place in range(share)]
        commands = [f"assume({names[0]} > 0);"]
        commands += [f"{name} := {name} - {names[0]} + 1;" for name in names[1:]]
        made.append(f"FROM: {edge % 1024}; {' '.join(commands)} TO: {(edge + 1) % 1024};\n")
    return "".join(made)


TEXTS = [
    ("8,192 cases of an edge, 1 variable", unequal(1, 13)),
    ("16,384 lists of an edge", unequal(1, 14)),
    ("8,192 cases of an edge, 75 variables", unequal(75, 13)),
    ("8,192 cases of an edge, 76 variables", unequal(76, 13)),
    ("8,192 cases of one assumption", unequal_at_once(75, 13)),
    ("4,096 edges, 512 variables, 4,096 rows", many_edges(4096, 512, 4096)),
    ("4,096 edges, 512 variables, 15,625 rows", many_edges(4096, 512, LIMIT // 512)),
    ("4,096 edges, 512 variables, 15,626 rows", many_edges(4096, 512, LIMIT // 512 + 1)),
]

for name, text in TEXTS:
    reading = best_over([sys.argv[1], "program"], text, 5).seconds
    one = best_over([sys.argv[1], "cases"], text, 5)
    print(
        f"{name:40s} {one.lines[0]:54s} {one.seconds * 1000:7.1f} ms, {one.processor * 1000:6.1f} ms of a processor  {one.memory:4d} MB"
        f"  (reading {reading * 1000:5.1f} ms)",
        flush=True,
    )
END_OF_PROGRAM
