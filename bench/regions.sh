#!/usr/bin/env bash
# How many pieces the rounds of fixed points have, and how long they take, over small programs and a chain of 20 branches: some run reaches a
# piece, each run does, and no run leaves the states from which some run does.
# Build it first: (cd crates/timing && rt run)
set -eu
cd "$(dirname "$0")/.."
exec python3 - crates/timing/out/timing <<'END_OF_PROGRAM'
import subprocess, sys, time

PROGRAM = sys.argv[1]
BASES = "100000"
BRANCHES = 20


def chain(count):
    """From each location but the last two branches lead to the next one."""
    edges = ["START: 0;"]
    for at in range(count):
        edges.append(f"FROM: {at}; assume(x >= {at}); y := y + x; TO: {at + 1};")
        edges.append(f"FROM: {at}; assume(x < {at}); y := y - 1; TO: {at + 1};")
    return " ".join(edges)


def ladder(count):
    """The same, where each branch asks for another variable."""
    edges = ["START: 0;"]
    for at in range(count):
        edges.append(f"FROM: {at}; assume(v{at} > 0); s := s + 1; TO: {at + 1};")
        edges.append(f"FROM: {at}; assume(v{at} <= 0); TO: {at + 1};")
    return " ".join(edges)


COUNTDOWN = "START: 0; FROM: 0; assume(x > 0); x := x - 1; TO: 0;"
CLIMBER = "START: 0; FROM: 0; TO: 1; FROM: 1; assume(x > 0); x := x + 1; TO: 1;"
COUNTER = "START: 0; FROM: 0; x := 0; TO: 1; FROM: 1; assume(x < 5); x := x + 1; TO: 1; FROM: 1; assume(x > 5); TO: 2;"
PAIR = "START: 0; FROM: 0; x := 0; y := 0; TO: 1; FROM: 1; x := x + 1; y := y + 2; TO: 1; FROM: 1; assume(x == 3); assume(y != 6); TO: 2;"
RACE = "START: 0; FROM: 0; assume(x > y); x := x - 1; TO: 0; FROM: 0; assume(x > 0 && y > 0); y := y - 1; TO: 0;"

# a name, the program, and the piece: its location and its rows
QUESTIONS = [
    ("countdown to x == 0", COUNTDOWN, 0, [[1, 0], [-1, 0]]),
    ("countdown to x <= 3", COUNTDOWN, 0, [[1, -3]]),
    ("climber to x >= 9", CLIMBER, 1, [[-1, 9]]),
    ("counter to x == 5", COUNTER, 1, [[1, -5], [-1, 5]]),
    ("pair to the last location", PAIR, 2, []),
    ("race to x <= y", RACE, 0, [[1, -1, 0]]),
    ("race to x <= 0", RACE, 0, [[1, 0, 0]]),
    (f"chain of {BRANCHES} branches to y >= 1", chain(BRANCHES), BRANCHES, [[0, -1, 1]]),
    ("ladder of 6 branches to s >= 4", ladder(6), 6, [[0, -1, 0, 0, 0, 0, 0, 4]]),
]


def text_of(program, location, rows):
    numbers = [location, len(rows)]
    for row in rows:
        numbers.extend(row)
    return " ".join(map(str, numbers)) + "\n" + program


def asked(task, text):
    before = time.monotonic()
    try:
        told = subprocess.run([PROGRAM, task, BASES], input=text, capture_output=True, text=True, timeout=60).stdout.strip()
    except subprocess.TimeoutExpired:
        told = "not done"
    return told, (time.monotonic() - before) * 1000


for name, program, location, rows in QUESTIONS:
    for task in ("some", "every", "always"):
        told, took = asked(task, text_of(program, location, rows))
        print(f"{name:36s} {task:7s} {told:36s} {took:9.1f} ms", flush=True)
END_OF_PROGRAM
