#!/usr/bin/env bash
# How long the built program takes for formulas over paths, of a processor, and how much memory: the worked questions, and chains of 5 to 20
# locations on which each run counts down and then goes on. The best of 10 runs, in which its start and the reading of the text are counted.
# Build it first: (cd crates/t2verdict && rt run)
set -eu
cd "$(dirname "$0")/.."
PYTHONPATH=bench exec python3 -B - crates/t2verdict/out/t2verdict <<'END_OF_PROGRAM'
import sys
from measure import best_over

PROGRAM = sys.argv[1]
COUNTDOWN = "START: 0; FROM: 0; TO: 1; FROM: 1; assume(x > 0); x := x - 1; TO: 1;"
LOOP = "START: 0; FROM: 0; assume(x > 0); x := x - 1; TO: 0;"
DRAW = "START: 0; FROM: 0; x := x; y := nondet(); TO: 1;"
STEP = "START: 0; FROM: 0; x := x; TO: 1;"
DRAWN = "START: 0; FROM: 0; x := nondet(); TO: 1; FROM: 1; assume(x > 0); x := x - 1; TO: 1;"
QUESTIONS = [
    ("countdown", COUNTDOWN, "[AG](x >= 0)"), ("countdown", COUNTDOWN, "[AF](x <= 0)"), ("loop", LOOP, "[AF](x < 0)"),
    ("draw", DRAW, "[EX](y == x + 5)"), ("step", STEP, "[EX](x == 1 || x == 3)"), ("drawn countdown", DRAWN, "[EF](x == 7)"),
    ("drawn countdown", DRAWN, "[AF](x < 0)"),
]


def chain(locations):
    """Locations on which a run counts down, and then goes on to the next."""
    text = "START: 0;\n"
    for here in range(locations):
        text += f"FROM: {here};\nassume(x > 0);\nx := x - 1;\nTO: {here};\nFROM: {here};\nassume(x <= 0);\nx := y;\nTO: {here + 1};\n"
    return text


for locations in (5, 10, 15, 20):
    QUESTIONS.append((f"chain of {locations}", chain(locations), f"[AF](at({locations}))"))
    QUESTIONS.append((f"chain of {locations}", chain(locations), f"[EF](at({locations}))"))
    QUESTIONS.append((f"chain of {locations}", chain(locations), f"[AG](at({locations}) || [EX](true))"))


for name, text, formula in QUESTIONS:
    one = best_over([PROGRAM, "--ctl", formula], text)
    answer = " ".join(one.lines[:2])
    print(f"{name:18s} {formula:28s} {answer:36s} {one.processor * 1000:8.1f} ms of a processor  {one.memory:5d} MB", flush=True)
END_OF_PROGRAM
