#!/usr/bin/env bash
# What the further searches settle: questions that ranks, rows and rounds leave open, and some that stay open. For each: the answer, how long the
# built program takes for it, of a processor (the best of 5 runs, in which its start and the reading of the text are counted), and which search
# settles it, with how many states and how many calls of the solver. Then for each search how many questions it settles, and how many calls
# are enough for 90 in 100 of all that is settled.
# Build both first: (cd crates/t2verdict && rt run) and (cd crates/timing && rt run)
set -eu
cd "$(dirname "$0")/.."
PYTHONPATH=bench exec python3 -B - crates/t2verdict/out/t2verdict crates/timing/out/timing <<'END_OF_PROGRAM'
import sys
from measure import best_over

PROGRAM, TIMING = sys.argv[1:]
COUNTED = "START: 0; FROM: 0; x := 0; TO: 1; FROM: 1; x := x + 1; TO: 1; FROM: 1; assume(x == {}); TO: 2;"
SERVER = ("START: 0; FROM: 0; work := nondet(); TO: 1; FROM: 1; assume(work > 0); work := work - 1; TO: 1; "
          "FROM: 1; assume(work <= 0); TO: 0;")
DRAWN = "START: 0; FROM: 0; x := nondet(); TO: 1; FROM: 1; assume(x > 0); x := x - 1; TO: 1; FROM: 1; assume(x <= 0); TO: 2; FROM: 2; TO: 2;"
CONTROLLER = ("START: wait; FROM: wait; t := nondet(); TO: run; FROM: run; assume(t > 0); t := t - 1; TO: run; "
              "FROM: run; assume(t <= 0); TO: reset; FROM: run; TO: stop; FROM: stop; TO: reset; FROM: reset; TO: wait;")
LOCK = ("START: 0; FROM: 0; l := 0; f := 0; TO: 1; FROM: 1; assume(l == 0); l := 1; f := 1; TO: 2; FROM: 1; f := 0; TO: 2; "
        "FROM: 2; n := n + 1; TO: 2; FROM: 2; assume(f == 1); TO: 3; FROM: 2; assume(f != 1); TO: 1; "
        "FROM: 3; assume(l != 1); TO: bad; FROM: 3; assume(l == 1); l := 0; TO: 1; FROM: bad; TO: bad;")
LOOPS = ("START: 0; FROM: 0; assume(x > 0); x := x - 1; TO: 0; FROM: 0; assume(x <= 0); TO: 1; "
         "FROM: 1; assume(y > 0); y := y - 1; TO: 1;")
LIFT = ("START: idle; FROM: idle; way := nondet(); TO: moving; FROM: moving; assume(way > 0 && floor < 9); floor := floor + 1; TO: moving; "
        "FROM: moving; assume(way <= 0 && floor > 0); floor := floor - 1; TO: moving; FROM: moving; assume(way > 0 && floor >= 9); TO: open; "
        "FROM: moving; assume(way <= 0 && floor <= 0); TO: open; FROM: open; TO: idle;")
TOWARDS = open("examples/towards.t2").read()
MEETING = "START: 0; FROM: 0; i := 0; TO: 1; FROM: 1; assume(i != n && n >= 0); i := i + 1; TO: 1;"
ENDING = "START: 0; FROM: 0; assume(x > 0); x := x + y; y := y - 1; TO: 0; FROM: 0; assume(x <= 0); TO: 1;"
CHAIN = "START: 0; " + " ".join(f"FROM: {here}; assume(x > 0); x := x - 1; TO: {here}; FROM: {here}; assume(x <= 0); x := y; TO: {here + 1};"
                                for here in range(10))
SPENDING = "START: 0; FROM: 0; assume(n > 0); n := n - 1; x := x - 1; TO: 0;"
BURNING = ("START: 0; FROM: 0; assume(f > 0); f := f - 1; h := h - 1; TO: 0; FROM: 0; assume(f > 0); f := f - 1; TO: 0; "
           "FROM: 0; assume(f <= 0); TO: 1; FROM: 1; TO: 1;")
RING = "START: 0; " + " ".join(f"FROM: {here}; assume(v{here % 7} >= v{here % 5}); v{here % 7} := v{here % 5}; TO: {(here + 1) % 30};"
                               for here in range(30))
WAITERS = ("START: free; FROM: free; w := w + 1; TO: free; FROM: free; TO: held; FROM: held; w := w + 1; TO: held; "
           "FROM: held; assume(w > 0); w := w - 1; TO: free; FROM: held; assume(w <= 0); TO: free;")
QUESTIONS = [
    ("grows by y", "START: 0; FROM: 0; assume(x > 0); x := x + y; TO: 0;", ["--termination"]),
    ("falls by two", "START: 0; FROM: 0; assume(x != 0); x := x - 2; TO: 0;", ["--termination"]),
    ("doubles or resets", "START: 0; FROM: 0; assume(x < 5); x := 2*x; TO: 0; FROM: 0; assume(x >= 5); x := 1; TO: 0;", ["--termination"]),
    ("hands back and forth", "START: 0; FROM: 0; TO: 1; FROM: 1; n := n + 1; TO: 0;", ["--termination"]),
    ("a draw keeps it alive", "START: 0; FROM: 0; assume(x > 0); x := nondet(); TO: 0;", ["--termination"]),
    ("towards 0 from either side", TOWARDS, ["--termination"]),
    ("counts until it meets a number", MEETING, ["--termination"]),
    ("after 12 steps", COUNTED.format(10), ["--safety", "2"]),
    ("after 40 steps", COUNTED.format(38), ["--safety", "2"]),
    ("after 60 steps", COUNTED.format(58), ["--safety", "2"]),
    ("a server is idle again", SERVER, ["--ctl", "[AG]([AF](at(0)))"]),
    ("a server stays idle", SERVER, ["--ctl", "[EF]([AG](at(0)))"]),
    ("falling sum", open("examples/falling-sum.t2").read(), ["--termination"]),
    ("falling sum", open("examples/falling-sum.t2").read(), ["--ctl", "[AF](x <= 0)"]),
    ("two counters", open("examples/two-counters.t2").read(), ["--safety", "2"]),
    ("a draw and a countdown", DRAWN, ["--ctl", "[EF](at(1) && [EG](x <= 3))"]),
    ("a controller resets", CONTROLLER, ["--ctl", "[AG]([EF](at(reset)))"]),
    ("a controller at 3", CONTROLLER, ["--ctl", "[AG]([EF](at(reset) && t == 3))"]),
    ("a controller may stop", CONTROLLER, ["--ctl", "[EU](!at(reset))(at(stop))"]),
    ("a controller comes back", CONTROLLER, ["--ctl", "[AG](!at(stop) || [AF](at(wait)))"]),
    ("a lock with a flag", LOCK, ["--safety", "bad"]),
    ("both loops end", LOOPS, ["--ctl", "[AG]([EF](y <= 0))"]),
    ("from any number to 0", open("examples/countdown.t2").read(), ["--ctl", "[EF](x <= 0)"]),
    ("a lift opens", LIFT, ["--ctl", "[AG](!at(moving) || [AF](at(open)))"]),
    ("a sum falls in the end", ENDING, ["--ctl", "[EF](at(1))"]),
    ("a number spent with the steps", SPENDING, ["--ctl", "[AG](x < n || x < 0 || [AG](x >= 0))"]),
    ("a number spent by some steps", BURNING, ["--ctl", "[AG](f < 0 || h < f || [AG](h >= 0))"]),
    ("a lock comes free of waiters", WAITERS, ["--ctl", "[AG]([EF](w == 0 && at(free)))"]),
    ("thirty locations in a ring", RING, ["--termination"]),
    ("ten loops in a row", CHAIN, ["--ctl", "[EF](at(10))"]),
]




def formula_of(words):
    """The formula that the words name."""
    return {"--termination": "term", "--safety": f"[AG](!at({words[-1]}))", "--ctl": words[-1]}[words[0]]


found = {}
for name, text, words in QUESTIONS:
    one = best_over([PROGRAM, *words], text, 5)
    answer = ", ".join(one.lines[:2])
    said = best_over([TIMING, "further"], formula_of(words) + "\n" + text, 1).lines[0]
    if one.lines[0] in ("Proved", "Disproved") and " by " in said:
        search, states, calls = said.split(" by ")[1].split(", ")
        found.setdefault(search, []).append((int(states.split()[1]), int(calls.split()[1]), one.processor))
    print(f"{name:24s} {' '.join(words):32s} {answer:28s} {one.processor * 1000:8.1f} ms of a processor  {one.memory:4d} MB  {said}", flush=True)

print()
for search, rows in found.items():
    states, calls, times = zip(*rows)
    print(f"{search:16s} settles {len(rows):3d}, at most {max(states)} states, {max(calls)} calls, {max(times) * 1000:.1f} ms of a processor")
every = sorted(calls for rows in found.values() for _, calls, _ in rows)
if every:
    print(f"90 in 100 of what is settled takes at most {every[(len(every) * 9 + 9) // 10 - 1]} calls")
END_OF_PROGRAM
