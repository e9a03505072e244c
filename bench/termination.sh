#!/usr/bin/env bash
# How long the built program takes to prove that every run ends, of a processor, and how much memory: the worked programs and chains of
# loops, of which each counts down and then draws a number for the next. The best of 10 runs, in which its start and the reading of the
# text are counted. Where z3 is installed, it looks for linear ranks of each loop of the chains, by the same multipliers, in one query a loop.
# Build it first: (cd crates/t2verdict && rt run)
set -eu
cd "$(dirname "$0")/.."
PYTHONPATH=bench exec python3 -B - crates/t2verdict/out/t2verdict <<'END_OF_PROGRAM'
import shutil, sys
from measure import best_over, ranking_query

PROGRAM = sys.argv[1]


def chain(loops):
    """Loops that count down, one after the other."""
    text = "START: 0;\n"
    for loop in range(loops):
        text += f"FROM: {loop};\nassume(a > 0);\na := a - 1;\nTO: {loop};\n"
        text += f"FROM: {loop};\nassume(a <= 0);\na := nondet();\nTO: {loop + 1};\n"
    return text


WORKED = ["countdown", "nested-counters", "falling-sum", "wide-system"]
PROGRAMS = [(f"examples/{name}.t2", open(f"examples/{name}.t2").read(), 0) for name in WORKED]
PROGRAMS += [(f"{loops:,} loops", chain(loops), loops) for loops in (1, 10, 100, 300, 1000)]
for name, text, loops in PROGRAMS:
    one = best_over([PROGRAM, "--termination"], text)
    line = f"{name:32s} {one.lines[0]:18s} {one.seconds * 1000:8.1f} ms, {one.processor * 1000:8.1f} ms of a processor  {one.memory:5d} MB"
    if loops and shutil.which("z3"):
        other = best_over(["z3", "-in"], ranking_query(loops))
        line += f"  z3 {other.processor * 1000:8.1f} ms of a processor, {other.memory:5d} MB, ratio {one.processor / other.processor:6.2f}"
    print(line, flush=True)
END_OF_PROGRAM
