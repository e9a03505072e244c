"""Linear cases: by hand as docs/certificates.md says, and against execution at many points."""
import itertools
import random

from checks import EXAMPLES, Checks
from plain import edges, execute
from t2.linear import after, are_met, cases_of
from t2.program import read_program
from t2.solving import NotSettled, whole_point

COUNTER = [(0, 1, [], {0: (0, 0)}), (1, 1, [(1, -4)], {0: (1, 1)}), (1, 2, [(-1, 6)], {})]


def shown(text: str) -> list[tuple]:
    return [(case.source, case.target, case.guards, case.updates) for case in cases_of(read_program(text))]


def guards(condition: str) -> list[list[tuple]]:
    """The guards of the cases of one assumption over x and y."""
    return [case[2] for case in shown(f"START: 0; FROM: 0; x := x; y := y; assume({condition}); TO: 0;")]


def by_hand(checks: Checks) -> None:
    checks.same("the counter of certificates.md", shown((EXAMPLES / "counter.t2").read_text()), COUNTER)
    for condition, lists in [
            ("x <= y", [[(1, -1, 0)]]),
            ("x < y", [[(1, -1, 1)]]),
            ("x >= y", [[(-1, 1, 0)]]),
            ("x > y", [[(-1, 1, 1)]]),
            ("x == y", [[(1, -1, 0), (-1, 1, 0)]]),
            ("x != y", [[(1, -1, 1)], [(-1, 1, 1)]]),
            ("true", [[]]),
            ("false", []),
            ("!(x <= y)", [[(-1, 1, 1)]]),
            ("x + x <= 1", [[(1, 0, 0)]]),
            ("2 * x + 4 * y > 1", [[(-1, -2, 1)]]),
            ("1 <= 0", [[(0, 0, 1)]]),
            ("(x < 0 || y < 0) && x > 5", [[(1, 0, 1), (-1, 0, 6)], [(0, 1, 1), (-1, 0, 6)]]),
            ("x < 0 && (y < 0 || y > 5)", [[(1, 0, 1), (0, 1, 1)], [(1, 0, 1), (0, -1, 6)]]),
            ("(x < 0 || y < 0) && !(x <= 5 && y <= 5)",
             [[(1, 0, 1), (-1, 0, 6)], [(1, 0, 1), (0, -1, 6)], [(0, 1, 1), (-1, 0, 6)], [(0, 1, 1), (0, -1, 6)]]),
            ("!(x < 0 && y < 0)", [[(-1, 0, 0)], [(0, -1, 0)]])]:
        checks.same(f"lists of {condition}", guards(condition), lists)


def draws_and_order(checks: Checks) -> None:
    text = "START: 0; FROM: 0; y := nondet(); x := y + 2; y := nondet(); assume(2 * y == x); TO: 1;"
    # columns y, x, first draw, second draw: x is the first draw plus 2, y is the second
    wanted = (0, 1, [(0, 0, -1, 2, -2), (0, 0, 1, -2, 2)], {0: (0, 0, 0, 1, 0), 1: (0, 0, 1, 0, 2)})
    checks.same("what was assigned is put in", shown(text), [wanted])
    lists = [case[2] for case in shown("START: 0; FROM: 0; assume(x < 0 || x > 9); assume(x != 5); TO: 0;")]
    checks.same("the first assumption varies slowest", lists, [[(1, 1), (1, -4)], [(1, 1), (-1, 6)], [(-1, 10), (1, -4)], [(-1, 10), (-1, 6)]])
    text = "START: 0; FROM: 0; assume(x > 0); x := x / 2; TO: 0;"
    checks.same("a quotient is an unknown", shown(text), [(0, 0, [(-1, 0, 1), (-1, 2, 0), (1, -2, -1)], {0: (0, 1, 0)})])
    numbered = cases_of(read_program("START: 0; FROM: 0; assume(false); TO: 0; FROM: 0; assume(x != 0); TO: 0; FROM: 0; TO: 1;"))
    checks.same("numbers over the edges", [(case.number, case.edge) for case in numbered], [(0, 1), (1, 1), (2, 2)])


def made_condition(random_one: random.Random, depth: int = 0) -> str:
    kind = random_one.random()
    if depth < 3 and kind < 0.4:
        return f"({made_condition(random_one, depth + 1)} {random_one.choice(['&&', '||'])} {made_condition(random_one, depth + 1)})"
    if depth < 3 and kind < 0.5:
        return f"!({made_condition(random_one, depth + 1)})"
    left, right = (f"{random_one.randint(-2, 2)} * x + {random_one.randint(0, 2)} * y + {random_one.randint(-3, 3)}" for _ in "ab")
    return f"{left} {random_one.choice(['<', '<=', '>', '>=', '==', '!='])} {right}"


def made_program(random_one: random.Random) -> str:
    commands = []
    for _ in range(random_one.randint(1, 4)):
        if random_one.random() < 0.5:
            commands.append(f"assume({made_condition(random_one)})")
        else:
            added = random_one.choice(["3", "nondet()", "x / 2", "y % 3"])
            commands.append(f"{random_one.choice('xy')} := {random_one.randint(-2, 2)} * x + y + {added}")
    return "START: 0; FROM: 0; x := x; y := y; " + "; ".join(commands) + "; TO: 0;"


def against_execution(checks: Checks) -> None:
    """The commands are executed by the other interpreter of this folder: a step with a draw is there exactly where a case is met."""
    random_one, wrong = random.Random(11), []
    for _ in range(40):
        text = made_program(random_one)
        program, commands = read_program(text), edges(text)[0][1]
        cases = cases_of(program)
        for x, y, drawn in itertools.product((-3, -1, 0, 2, 3), (-2, 0, 1, 3), (-2, 3)):
            draws = [drawn] * program.edges[0].draws
            reached = execute(commands, {"x": x, "y": y}, draws)
            wanted = None if reached is None else (reached["x"], reached["y"])
            if program.edges[0].execute((x, y), draws) != wanted or by_cases(cases, (x, y), draws) != ({wanted} - {None}):
                wrong.append((text, x, y, draws))
    checks.same("cases are met where the commands can be executed", wrong[:2], [])


def by_cases(cases: list, values: tuple[int, int], draws: list[int]) -> set[tuple[int, int]]:
    """Where the cases lead with these draws; the unknowns of quotients are found by the rows that pin them."""
    found, given = set(), values + tuple(draws)
    for case in cases:
        rows = [row[len(given):-1] + (row[-1] + sum(number * at for number, at in zip(row, given)),) for row in case.guards]
        unknowns = whole_point(rows, case.draws - len(draws))
        if unknowns is not None and are_met(case.guards, given + tuple(unknowns)):
            found.add(after(case, values, draws + unknowns))
    return found


def points(checks: Checks) -> None:
    """Whole points of rows over two columns, against trying all of a square where the rows say that it has all of them."""
    random_one, wrong = random.Random(3), []
    square = [(1, 0, -4), (-1, 0, -4), (0, 1, -4), (0, -1, -4)]
    for _ in range(100):
        rows = square + [tuple(random_one.randint(-4, 4) for _ in range(3)) for _ in range(3)]
        there = any(are_met(rows, point) for point in itertools.product(range(-4, 5), repeat=2))
        point = whole_point(rows, 2)
        if (point is not None) != there or point is not None and not are_met(rows, point):
            wrong.append(rows)
    checks.same("whole points", wrong[:2], [])
    checks.same("half of an odd number is none", whole_point([(2, -1), (-2, 1)], 1), None)
    try:
        checks.same("no even number is odd", whole_point([(2, -2, -1), (-2, 2, 1)], 2), "not settled")
    except NotSettled:
        checks.that("that is not settled by tries", True)


def run(checks: Checks) -> None:
    for part in (by_hand, draws_and_order, against_execution, points):
        part(checks)
