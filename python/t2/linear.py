"""Rows, and the linear cases of a program in the order and with the numbers that certificates use (docs/certificates.md).

A row is a tuple: a whole number for each column and then the constant. It is met where its value is at most 0.
"""
from dataclasses import dataclass
from math import gcd

from t2.alternatives import alternatives, pairs
from t2.program import Edge, Program
from t2.texts import Assign, Assume, Command
from t2.trees import Tree

Row = tuple[int, ...]


@dataclass
class Case:
    """The columns are the variables, the draws of the edge, and an unknown for each quotient and remainder."""
    number: int
    edge: int
    source: int
    target: int
    draws: int
    guards: list[Row]
    updates: dict[int, Row]


# ---- rows

def row_value(row: Row, point) -> int:
    return sum(number * at for number, at in zip(row, point)) + row[-1]


def is_met(row: Row, point) -> bool:
    return row_value(row, point) <= 0


def are_met(rows: list[Row], point) -> bool:
    return all(is_met(row, point) for row in rows)


def plus(first: Row, second: Row) -> Row:
    return tuple(one + other for one, other in zip(first, second))


def scaled(factor: int, row: Row) -> Row:
    return tuple(factor * number for number in row)


def raised(by: int, row: Row) -> Row:
    return row[:-1] + (row[-1] + by,)


def tight(row: Row) -> Row:
    """The row divided by the greatest common divisor of its coefficients, with the constant rounded up."""
    divisor = gcd(*row[:-1]) if len(row) > 1 else 0
    return row if divisor == 0 else tuple(-(-number // divisor) for number in row)


def at_most(left: Row, right: Row, by: int = 0) -> Row:
    """The row that is met where the left side is at most the right one less `by`."""
    return tight(raised(by, plus(left, scaled(-1, right))))


def compared(relation: str, left: Row, right: Row) -> list[list[Row]]:
    """The lists of rows of a comparison: it is true where all rows of one list are met."""
    if relation in ("<", "<="):
        return [[at_most(left, right, relation == "<")]]
    if relation in (">", ">="):
        return [[at_most(right, left, relation == ">")]]
    if relation == "==":
        return [[at_most(left, right), at_most(right, left)]]
    return [[at_most(left, right, 1)], [at_most(right, left, 1)]]


# ---- terms

class Terms:
    """The linear terms of the variables while the commands of an edge are executed, and the rows of its quotients."""

    def __init__(self, variables: int, draws: int, unknowns: int):
        self.variables, self.draws = variables, draws
        self.width = variables + draws + unknowns
        self.terms = [self.column(at) for at in range(variables)]
        self.used, self.rows = 0, []

    def column(self, at: int) -> Row:
        return tuple(int(at == other) for other in range(self.width)) + (0,)

    def number(self, constant: int) -> Row:
        return (0,) * self.width + (constant,)

    def quotient(self, node: Tree) -> Row:
        """The unknown u of a quotient of e by c, with the rows that say what it is; a remainder is e - c * u."""
        argument, divisor = self.term(node.parts[0]), node.parts[1].number
        unknown = self.column(self.variables + self.draws + self.used)
        self.used += 1
        multiple = scaled(divisor, unknown)
        self.rows += [at_most(multiple, argument), at_most(argument, multiple, 1 - divisor)]
        return unknown if node.kind == "quotient" else plus(argument, scaled(-divisor, unknown))

    def term(self, node: Tree) -> Row:
        """The linear term of a sum."""
        kind = node.kind
        if kind == "number":
            return self.number(node.number)
        if kind == "variable":
            return self.terms[node.number]
        if kind == "draw":
            return self.column(self.variables + node.number)
        if kind in ("quotient", "remainder"):
            return self.quotient(node)
        parts = [self.term(part) for part in node.parts]
        if kind == "minus":
            return scaled(-1, parts[0])
        total = parts[0]
        for part in parts[1:]:
            total = plus(total, part) if kind == "sum" else times(total, part)
        return total

    def lists(self, condition: Tree) -> list[list[Row]]:
        """The lists of rows of a condition."""
        return alternatives(condition, lambda relation, node: compared(relation, self.term(node.parts[0]), self.term(node.parts[1])))

    def new_rows(self) -> list[Row]:
        """The rows of the quotients since the last call."""
        rows, self.rows = self.rows, []
        return rows


def times(first: Row, second: Row) -> Row:
    """The product of two terms of which one is a number."""
    return scaled(first[-1], second) if any(second[:-1]) else scaled(second[-1], first)


def quotients(commands: list[Command]) -> int:
    """How many quotients and remainders stand in commands."""
    trees = [command.condition if isinstance(command, Assume) else command.value for command in commands]
    return sum(node.kind in ("quotient", "remainder") for tree in trees for node in tree)


# ---- cases

def edge_cases(program: Program, number: int, first: int) -> list[Case]:
    """The cases of an edge, the first of which has the number that is given."""
    edge: Edge = program.edges[number]
    terms = Terms(len(program.variables), edge.draws, quotients(edge.commands))
    lists: list[list[Row]] = [[]]
    for command in edge.commands:
        if isinstance(command, Assume):
            added = terms.lists(command.condition)
            lists = pairs(pairs(lists, [terms.new_rows()]), added)
        else:
            term = terms.term(command.value)
            lists = pairs(lists, [terms.new_rows()])
            terms.terms[command.variable.number] = term
    assigned = sorted({command.variable.number for command in edge.commands if isinstance(command, Assign)})
    updates = {variable: terms.terms[variable] for variable in assigned}
    draws = terms.width - terms.variables
    return [Case(first + at, number, edge.source, edge.target, draws, guards, updates) for at, guards in enumerate(lists)]


def cases_of(program: Program) -> list[Case]:
    """The cases of a program, edge by edge."""
    cases: list[Case] = []
    for number in range(len(program.edges)):
        cases += edge_cases(program, number, len(cases))
    return cases


def after(case: Case, values: tuple[int, ...], draws: list[int]) -> tuple[int, ...]:
    """The values after the case."""
    point = tuple(values) + tuple(draws)
    return tuple(row_value(case.updates[at], point) if at in case.updates else old for at, old in enumerate(values))
