#!/usr/bin/env bash
# How long the built program takes to settle linear equations and to refute rows, and how much memory: systems of small whole numbers,
# dense and sparse, flows in networks, whose tableaux stay narrow, rows of differences around a cycle, systems with as many entries as there
# may be, rows that tie, and those that the program's own searches ask for: ranks of a loop of so many cases, and whether a step keeps a sum
# at 0 or above. The best of 3 runs, in which its start and the reading of the text are counted, and the least time of a processor that one of
# them took, beside that of a run that tries no basis. The word tells how many bases are tried, 4,000 if left out. Those of glpsol, QSopt_ex
# and z3 that are installed solve the same equations by exact arithmetic and are started in the same way: the least time of a processor that
# each took, and how many times this program's it is, so that above 1 this program is the faster. Each is given the entries that are not 0.
# Build it first: (cd crates/timing && rt run)
set -eu
cd "$(dirname "$0")/.."
PYTHONPATH=bench exec python3 -B - crates/timing/out/timing "${1:-4000}" <<'END_OF_PROGRAM'
import math, random, resource, shutil, signal, sys, tempfile
from multiprocessing import Process
from measure import best, run
from systems import chain_step, nested_counters, ring

PROGRAM, PIVOTS = sys.argv[1], sys.argv[2]
MOST_MEMORY = 4 << 30
ROOM = 60
resource.setrlimit(resource.RLIMIT_AS, (MOST_MEMORY, MOST_MEMORY))
# Each solver is stopped after so many seconds of a processor; this script handles the signal and goes on.
signal.signal(signal.SIGXCPU, lambda *_: None)
resource.setrlimit(resource.RLIMIT_CPU, (ROOM, resource.RLIM_INFINITY))


def product(rows, values):
    return [sum(entry * value for entry, value in zip(row, values) if entry) for row in rows]


def drawn(rows, columns, density, seed):
    """Equations of small numbers, with a solution."""
    draw = random.Random(seed)
    table = [[draw.randint(-3, 3) if draw.random() < density else 0 for _ in range(columns)] for _ in range(rows)]
    return table, product(table, [draw.randint(0, 2) for _ in range(columns)])


def flow(nodes, arcs, balanced, seed):
    """The flow into each node less the flow out of it: with a solution, or with one more at a node."""
    draw = random.Random(seed)
    table = [[0] * arcs for _ in range(nodes)]
    right = [0 if balanced else 1] + [0] * (nodes - 1)
    for arc in range(arcs):
        source, target = draw.sample(range(nodes), 2)
        table[source][arc], table[target][arc] = -1, 1
        if arc < nodes:
            right[source] -= 1
            right[target] += 1
    return table, right


def ties(rows, columns):
    """Each column is 1, as one row after another says in turn: very many rows tie."""
    return [[int(number % columns == column) for column in range(columns)] for number in range(rows)], [1] * rows


def differences(columns, closed):
    """Rows that say that each column is above the one before, and perhaps the first above the last."""
    rows = []
    for column in range(columns - (0 if closed else 1)):
        row = [0] * columns
        row[column], row[(column + 1) % columns] = 1, -1
        rows.append(row)
    return rows, [1] * len(rows)


def text_of(word, table, right):
    """The equations by their entries that are not 0, or the rows with all of them."""
    lines = [f"{len(table)} {len(table[0])}"]
    for row, last in zip(table, right):
        if word == "solving":
            there = [(column, entry) for column, entry in enumerate(row) if entry]
            row = [len(there), *(number for pair in there for number in pair)]
        lines.append(" ".join(map(str, [*row, last])))
    return "\n".join(lines) + "\n"


def best_of_three(words, given):
    """The best of three runs, or the only one where it takes long."""
    one = run([PROGRAM, *words], given)
    return one if one.seconds >= 2 else best([PROGRAM, *words], given, 3)


def term(entries):
    return " ".join(f"{entry:+d} x{number}" for number, entry in enumerate(entries) if entry) or "0 x0"


def linear_program(table, right):
    """The equations with nothing to minimize, as glpsol and QSopt_ex read them."""
    yield "Minimize\n o: 0 x0\nSubject To\n"
    for number, (row, last) in enumerate(zip(table, right)):
        yield f" r{number}: {term(row)} = {last}\n"
    yield "End\n"


def signed(number):
    return f"(- {-number})" if number < 0 else str(number)


def assertions(table, right):
    """The equations as z3 reads them."""
    yield "(set-logic QF_LRA)\n"
    for column in range(len(table[0])):
        yield f"(declare-const x{column} Real)(assert (>= x{column} 0))\n"
    for row, last in zip(table, right):
        products = " ".join(f"(* {signed(entry)} x{number})" for number, entry in enumerate(row) if entry)
        yield f"(assert (= (+ {products} 0 0) {signed(last)}))\n"
    yield "(check-sat)\n"


# A solver's name, its words before the name of the file, how the file ends, and what is written there.
OTHERS = [
    ("glpsol", ["glpsol", "--exact", "--lp"], ".lp", linear_program),
    ("QSopt_ex", ["esolver", "-L"], ".lp", linear_program),
    ("z3", ["z3"], ".smt2", assertions),
]


def write_texts(folder, word, made):
    """Writes a system as this program reads it, and as the other solvers do."""
    table, right = made()
    with open(f"{folder}/system", "w") as file:
        file.write(text_of(word, table, right))
    for _, _, ending, written in others if word == "solving" else []:
        with open(f"{folder}/system{ending}", "w") as file:
            file.writelines(written(table, right))


def processor_of(command):
    """The least time of a processor that another solver takes in three runs, or in one that takes long; None where it fails."""
    one = run(command, "/dev/null")
    if one.seconds < 2:
        one = best(command, "/dev/null", 3)
    return one.processor if one.status == 0 else None


SYSTEMS = [
    ("dense 6 x 9", "solving", lambda: drawn(6, 9, 1.0, 1)),
    ("dense 10 x 15", "solving", lambda: drawn(10, 15, 1.0, 2)),
    ("dense 20 x 30", "solving", lambda: drawn(20, 30, 1.0, 3)),
    ("sparse 20 x 30", "solving", lambda: drawn(20, 30, 0.1, 4)),
    ("sparse 60 x 90", "solving", lambda: drawn(60, 90, 0.03, 5)),
    ("flow 50 x 150", "solving", lambda: flow(50, 150, True, 6)),
    ("flow 200 x 600", "solving", lambda: flow(200, 600, True, 7)),
    ("flow 200 x 600, no solution", "solving", lambda: flow(200, 600, False, 7)),
    ("cycle of 50 differences", "refuting", lambda: differences(50, True)),
    ("chain of 50 differences", "refuting", lambda: differences(50, False)),
    ("cycle of 300 differences", "refuting", lambda: differences(300, True)),
    ("flow 200 x 20,000", "solving", lambda: flow(200, 20_000, True, 8)),
    ("flow 2,000 x 2,000", "solving", lambda: flow(2_000, 2_000, True, 9)),
    ("flow 4,000 x 1,000", "solving", lambda: flow(4_000, 1_000, True, 10)),
    ("flow 8,000 x 500", "solving", lambda: flow(8_000, 500, True, 11)),
    ("flow 100,000 x 40", "solving", lambda: flow(100_000, 40, True, 12)),
    ("ties, 5,000 x 40", "solving", lambda: ties(5_000, 40)),
    ("ties, 20,000 x 40", "solving", lambda: ties(20_000, 40)),
    ("ties, 100,000 x 40", "solving", lambda: ties(100_000, 40)),
    ("ranks of two nested counters", "solving", nested_counters),
    ("ranks of 5 cases", "solving", lambda: ring(5)),
    ("ranks of 10 cases", "solving", lambda: ring(10)),
    ("ranks of 20 cases", "solving", lambda: ring(20)),
    ("ranks of 40 cases", "solving", lambda: ring(40)),
    ("step of 10 counters", "solving", lambda: chain_step(10)),
    ("step of 50 counters", "solving", lambda: chain_step(50)),
]

others = [other for other in OTHERS if shutil.which(other[1][0])]
for name, words, *_ in OTHERS:
    if not shutil.which(words[0]):
        print(f"{name} is not installed")
ratios = {name: [] for name, *_ in others}
for name, word, made in SYSTEMS:
    with tempfile.TemporaryDirectory() as folder:
        # (another process makes the system: the memory of whoever starts a program is counted with that program's)
        making = Process(target=write_texts, args=(folder, word, made))
        making.start()
        making.join()
        reading = best_of_three([word, "0"], f"{folder}/system").processor
        one = best_of_three([word, PIVOTS], f"{folder}/system")
        took = [(other, processor_of([*words, f"{folder}/system{ending}"])) for other, words, ending, _ in others if word == "solving"]
    answer = one.lines[0] or f"status {one.status >> 8}"
    line = f"{name:28s} {answer:22s} {one.seconds * 1000:8.1f} ms, {one.processor * 1000:8.1f} ms of a processor"
    line += f" ({reading * 1000:8.1f} ms where no basis is tried)  {one.memory:5d} MB"
    for other, seconds in took:
        if seconds is None:
            line += f"  {other} fails, or takes more than {ROOM} s"
        else:
            ratios[other].append(seconds / one.processor)
            line += f"  {other} {seconds * 1000:9.1f} ms, {ratios[other][-1]:6.2f} times"
    print(line, flush=True)
for name, each in ratios.items():
    if each:
        mean = math.exp(sum(map(math.log, each)) / len(each))
        print(f"{name}: {mean:.2f} times in the geometric mean, {min(each):.2f} at least")
END_OF_PROGRAM
