#!/usr/bin/env bash
# How long the built program takes to show a row that terms are put in for once or twice, for 128, 256 and 512 columns: sparse, where a row
# has three numbers besides 0 and eight variables are updated, and dense, where each number of each row is one of -3 to 3 and each variable
# is updated. Known are the row that comes of it and 16 rows whose multiplier is 0. Printed are the time of one row and its ratio to a plain scan: one
# product and one sum for each number of the known rows and of the row that is shown. The word tells how many runs the best is taken of.
# Build it first: (cd crates/timing && rt run)
set -eu
cd "$(dirname "$0")/.."
exec python3 - crates/timing/out/timing "${1:-3}" <<'END_OF_PROGRAM'
import random, subprocess, sys, tempfile, time

KNOWN = 16


def drawn(columns, sparse, draw):
    """A row of numbers from -3 to 3, of which three are not 0 where it is sparse, and its constant."""
    if not sparse:
        return [draw.randint(-3, 3) for _ in range(columns + 1)]
    row = [0] * columns + [draw.randint(-3, 3)]
    for place in draw.sample(range(columns), 3):
        row[place] = draw.choice([-3, -2, -1, 1, 2, 3])
    return row


def composed(row, updates, columns):
    made = [0] * columns + [row[columns]]
    for variable in range(columns):
        if row[variable] == 0:
            continue
        if variable in updates:
            for place, number in enumerate(updates[variable]):
                made[place] += row[variable] * number
        else:
            made[variable] += row[variable]
    return made


def text_of(columns, sparse, times):
    draw = random.Random(columns)
    shown = drawn(columns, sparse, draw)
    first = [place for place in range(columns) if shown[place] != 0][:2]
    assigned = sorted(set(first + draw.sample(range(columns), 6))) if sparse else range(columns)
    updates = {variable: drawn(columns, sparse, draw) for variable in assigned}
    made = shown
    for _ in range(times):
        made = composed(made, updates, columns)
    known = [made] + [drawn(columns, sparse, draw) for _ in range(KNOWN)]
    lines = [[columns], [len(known)], *known, shown, [len(updates)]]
    lines += [[variable, *term] for variable, term in updates.items()]
    lines.append([1] + [0] * KNOWN + [1])
    return "\n".join(" ".join(map(str, line)) for line in lines) + "\n"


def run(task, times, file, runs):
    """The best time and what came of it."""
    best = None
    for _ in range(runs):
        with open(file) as given:
            before = time.monotonic()
            ended = subprocess.run([sys.argv[1], task, str(times)], stdin=given, capture_output=True, text=True)
            spent = time.monotonic() - before
        best = spent if best is None else min(best, spent)
    return best, ended.stdout.strip()


def of_one(task, file, runs):
    """The time of one row: as often as takes a fifth of a second, less the time of none."""
    none = run(task, 0, file, runs)[0]
    times = 1
    while True:
        spent, said = run(task, times, file, 1)
        if spent - none > 0.2 or times > 10**8:
            break
        times *= 4
    return (run(task, times, file, runs)[0] - none) / times, said


RUNS = int(sys.argv[2])
for columns in (128, 256, 512):
    for kind in ("sparse", "dense"):
        for task, times in (("once", 1), ("twice", 2)):
            with tempfile.NamedTemporaryFile("w") as file:
                file.write(text_of(columns, kind == "sparse", times))
                file.flush()
                scan = of_one("scan", file.name, RUNS)[0]
                one, said = of_one(task, file.name, RUNS)
            print(
                f"{columns:4d} columns  {kind:6s}  {task:5s}  {said:9s} {one * 1e6:12.1f} us  scan {scan * 1e6:8.1f} us  ratio {one / scan:10.1f}",
                flush=True,
            )
END_OF_PROGRAM
