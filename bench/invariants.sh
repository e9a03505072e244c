#!/usr/bin/env bash
# How often the built program asks its solver while it looks for rows that hold on every run, and how long it takes: the worked programs that
# need such rows, chains of counters, and a grid of variables that move together. With valgrind, whose callgrind counts the calls of the
# solver; without it, times alone.
# Build it first: (cd crates/t2verdict && rt run)
set -eu
cd "$(dirname "$0")/.."
exec python3 - "${1:-crates/t2verdict/out/t2verdict}" <<'END_OF_PROGRAM'
import re, shutil, subprocess, sys, tempfile, time

PROGRAM = sys.argv[1]


def chain(counters):
    """Counters that count up to 5, one after the other; the last location is never reached."""
    text = "START: 0;\nFROM: 0;\nx := 0;\nTO: 1;\n"
    for number in range(1, counters + 1):
        text += f"FROM: {number};\nassume(x < {5 * number});\nx := x + 1;\nTO: {number};\n"
        text += f"FROM: {number};\nassume(x >= {5 * number});\nTO: {number + 1};\n"
    return text + f"FROM: {counters + 1};\nassume(x < 0);\nTO: bad;\n"


def together(variables):
    """Variables that begin at 0 and grow by 1 together; the first is never above the last."""
    names = [f"x{number}" for number in range(variables)]
    text = "START: 0;\nFROM: 0;\n" + "".join(f"{name} := 0;\n" for name in names) + "TO: 1;\n"
    text += "FROM: 1;\n" + "".join(f"{name} := {name} + 1;\n" for name in names) + "TO: 1;\n"
    return text + f"FROM: 1;\nassume({names[0]} > {names[-1]});\nTO: bad;\n"


def worked(name):
    return open(f"examples/{name}.t2").read()


PROGRAMS = [
    ("examples/no-certificate.t2 --safety 2", ["--safety", "2"], worked("no-certificate")),
    ("examples/two-counters.t2 --safety 2", ["--safety", "2"], worked("two-counters")),
    ("examples/stepped.t2 --termination", ["--termination"], worked("stepped")),
    ("examples/parity.t2 --termination", ["--termination"], worked("parity")),
]
PROGRAMS += [(f"a chain of {count} counters", ["--safety", "bad"], chain(count)) for count in (2, 5, 10)]
PROGRAMS += [(f"{count} variables together", ["--safety", "bad"], together(count)) for count in (2, 4, 8)]


def calls(words, given):
    """How often the solver is called."""
    with tempfile.NamedTemporaryFile("r", suffix=".out") as out, open(given) as text:
        subprocess.run(["valgrind", "--tool=callgrind", f"--callgrind-out-file={out.name}", "--compress-strings=no", "--compress-pos=no",
                        PROGRAM, *words], stdin=text, capture_output=True)
        lines = out.read().splitlines()
    count = 0
    for at, line in enumerate(lines):
        if line.startswith("cfn=") and re.search(r"tv_simplex\W+settling\W+solve\b|solve(?!d)", line) and "settling" in line:
            count += int(re.match(r"calls=(\d+)", lines[at + 1]).group(1))
    return count


counts = shutil.which("valgrind") is not None
if not counts:
    print("valgrind is not installed: times alone")
for name, words, text in PROGRAMS:
    with tempfile.NamedTemporaryFile("w") as file:
        file.write(text)
        file.flush()
        with open(file.name) as given:
            before = time.monotonic()
            answer = subprocess.run([PROGRAM, *words], stdin=given, capture_output=True, text=True).stdout.split("\n")[0]
            took = time.monotonic() - before
        line = f"{name:40s} {answer:20s} {took * 1000:8.1f} ms"
        print(line + (f"  {calls(words, file.name):6d} calls of the solver" if counts else ""), flush=True)
END_OF_PROGRAM
