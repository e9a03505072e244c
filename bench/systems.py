"""Linear equations as the searches of the program hand them to its solver: those of a linear ranking, and those of a refutation.

Rows are met where they are at most 0: a row is a list of coefficients and a constant after them. Of equations the unknowns are at least 0.
"""
from collections import namedtuple

# A step from a location to a location, taken where the guards are met. An update is a row over the values before the step, and the draws after
# them; a variable without one keeps its value.
Case = namedtuple("Case", "source target guards updates draws", defaults=[0])


def refutation(rows):
    """Multipliers of the rows whose sum is the constant 1 without variables: a solution shows that no values meet all rows (Farkas)."""
    columns = len(rows[0])
    return [[row[column] for row in rows] for column in range(columns)], [0] * (columns - 1) + [1]


def after(case, variable, variables):
    """The value of a variable after the step, as a row over the values before it, the draws and the constant."""
    kept = [int(column == variable) for column in range(variables + case.draws)] + [0]
    return case.updates.get(variable, kept)


def ranking(cases, falling, variables):
    """A term for each location that grows over no case, and over one falls by at least 1 from at least 0, with the multipliers of the guards
    that show it (Podelski and Rybalchenko 2004). The numbers of the terms are differences of two unknowns."""
    locations = sorted({place for case in cases for place in (case.source, case.target)})
    places = [(location, number) for location in locations for number in range(variables + 1)]
    shown = [(case, "step") for case in cases] + [(cases[falling], "bound")]
    rows, right = [], []
    for one, (case, kind) in enumerate(shown):
        wide = variables + case.draws
        unit = lambda number: [0] * wide + [1] if number == variables else [int(column == number) for column in range(wide)] + [0]
        made = lambda number: [0] * wide + [1] if number == variables else after(case, number, variables)
        for column in range(wide + 1):
            row = []
            for location, number in places:
                entry = -unit(number)[column] if location == case.source else 0
                if kind == "step" and location == case.target:
                    entry += made(number)[column]
                row += [entry, -entry]
            for other, (owner, _) in enumerate(shown):
                row += [-guard[column] if other == one else 0 for guard in owner.guards]
                row += [int(other == one and column == wide)]
            rows.append(row)
            right.append(-1 if kind == "step" and one == falling and column == wide else 0)
    return rows, right


def nested_counters():
    """The two cases of examples/nested-counters.t2 over x and y, of which the first falls and draws y."""
    outer = Case(0, 0, [[-1, 0, 0, 1]], {0: [1, 0, 0, -1], 1: [0, 0, 1, 0]}, 1)
    inner = Case(0, 0, [[0, -1, 1]], {1: [0, 1, -1]})
    return ranking([outer, inner], 0, 2)


def ring(count):
    """One loop of so many cases and variables: each case asks that a variable is above 0, takes 1 from it and draws the next one."""
    cases = []
    for number in range(count):
        at_least_one = [-int(column == number) for column in range(count)] + [0, 1]
        less = [int(column == number) for column in range(count)] + [0, -1]
        drawn = [0] * count + [1, 0]
        cases.append(Case(0, 0, [at_least_one], {number: less, (number + 1) % count: drawn}, 1))
    return ranking(cases, 0, count)


def chain_step(counters):
    """Whether a sum of counters that were never below 0 may be below 0 after one of them grows by 1."""
    never_below = [[-int(column == counter) for column in range(counters)] + [0] for counter in range(counters)]
    return refutation(never_below + [[1] * counters + [2]])
