#!/usr/bin/env bash
# How often the built program asks its solver while it covers rows by targets, and how long it takes: the worked covers, boxes cut into
# strips, and rows without a whole point. With valgrind, whose callgrind counts the calls of the solver; without it, times alone.
# Build it first: (cd crates/timing && rt run)
set -eu
cd "$(dirname "$0")/.."
exec python3 - crates/timing/out/timing <<'END_OF_PROGRAM'
import re, shutil, subprocess, sys, tempfile, time

PROGRAM = sys.argv[1]
BASES = "100000"


def text_of(columns, ambient, targets):
    lists = [ambient, *targets]
    lines = [f"{columns} {len(targets)}"]
    for rows in lines_of(lists):
        lines.append(rows)
    return "\n".join(lines) + "\n"


def lines_of(lists):
    for rows in lists:
        yield str(len(rows)) + "".join("\n" + " ".join(map(str, row)) for row in rows)


def box(columns, low, high):
    """Each column from low to high."""
    rows = []
    for column in range(columns):
        unit = [0] * columns
        rows.append([*(-1 if other == column else 0 for other in range(columns)), low])
        rows.append([*(1 if other == column else 0 for other in range(columns)), -high])
    return rows


def strips(columns, count, width, gap):
    """Targets along the sum of the columns, each so wide; perhaps one is left out."""
    targets = []
    for number in range(count):
        if number != gap:
            low, high = number * width, (number + 1) * width - 1
            targets.append([[-1] * columns + [low], [1] * columns + [-high]])
    return targets


COVERS = [
    ("no rows into x <= 0, x >= 1", 1, [], [[[1, 0]], [[-1, 1]]]),
    ("no rows into x <= 0, x >= 2", 1, [], [[[1, 0]], [[-1, 2]]]),
    ("2*x == y, 2*z + 1 == y", 3, [[2, -1, 0, 0], [-2, 1, 0, 0], [0, -1, 2, 1], [0, 1, -2, -1]], []),
    ("a square of 10 into 10 strips", 2, box(2, 0, 9), strips(2, 19, 2, None)[:10]),
    ("the same without the fifth", 2, box(2, 0, 9), strips(2, 19, 2, 4)[:9]),
    ("a cube of 8 into 22 strips", 3, box(3, 0, 7), strips(3, 22, 1, None)),
    ("the same without the last", 3, box(3, 0, 7), strips(3, 22, 1, 21)),
    ("a line of 60 into 60 points", 1, box(1, 0, 59), strips(1, 60, 1, None)),
    ("8 columns from 0 to 1 into their sums", 8, box(8, 0, 1), strips(8, 9, 1, None)),
]


def calls(given):
    """How often the solver is called."""
    with tempfile.NamedTemporaryFile("r", suffix=".out") as out, open(given) as text:
        subprocess.run(["valgrind", "--tool=callgrind", f"--callgrind-out-file={out.name}", "--compress-strings=no", "--compress-pos=no",
                        PROGRAM, "covering", BASES], stdin=text, capture_output=True, check=True)
        lines = out.read().splitlines()
    count = 0
    for at, line in enumerate(lines):
        if line.startswith("cfn=") and re.search(r"tv_simplex\W+settling\W+solve\b|solve(?!d)", line) and "settling" in line:
            count += int(re.match(r"calls=(\d+)", lines[at + 1]).group(1))
    return count


counts = shutil.which("valgrind") is not None
if not counts:
    print("valgrind is not installed: times alone")
for name, columns, ambient, targets in COVERS:
    with tempfile.NamedTemporaryFile("w") as file:
        file.write(text_of(columns, ambient, targets))
        file.flush()
        with open(file.name) as text:
            before = time.monotonic()
            answer = subprocess.run([PROGRAM, "covering", BASES], stdin=text, capture_output=True, text=True).stdout.strip()
            took = time.monotonic() - before
        line = f"{name:40s} {answer:10s} {took * 1000:8.1f} ms"
        print(line + (f"  {calls(file.name):6d} calls of the solver" if counts else ""), flush=True)
END_OF_PROGRAM
