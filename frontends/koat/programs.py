"""Program texts: their names, their limits, and how they are written."""
from __future__ import annotations

import re
from dataclasses import dataclass, field
from typing import Union

from t2 import writing
from t2.limits import BYTES, DRAWS, EDGES, LOCATIONS, VARIABLES, WIDE
from t2.tokens import NO_NAMES, is_wide

from .conditions import AT_MOST, FALSE, TRUE, Both, Comparison, Condition, conjuncts
from .faults import Refused
from .polynomials import Polynomial, number

DRAW = "nondet()"
MOST = {"locations": LOCATIONS, "edges": EDGES, "variables": VARIABLES, "draws of one edge": DRAWS, "bytes": BYTES}


@dataclass(frozen=True)
class Assume:
    condition: Condition


@dataclass(frozen=True)
class Assign:
    """A variable and its new value, in which each name that begins with `nondet()` is a draw."""
    name: str
    value: Polynomial


Command = Union[Assume, Assign]


@dataclass
class Edge:
    line: int
    source: str
    target: str
    commands: list[Command]


@dataclass
class Program:
    """The lost are what the text has otherwise than the file: the line, the words, and `value` or `guard`."""
    start: str
    edges: list[Edge] = field(default_factory=list)
    lost: list[tuple[int, str, str]] = field(default_factory=list)
    warnings: list[tuple[int, str]] = field(default_factory=list)
    notes: list[str] = field(default_factory=list)
    unchanged: str | None = None
    error: str | None = None


class Names:
    """Gives each thing a name that texts allow and that no other thing has."""

    def __init__(self, labels: bool = False):
        self.given: dict[object, str] = {}
        self.labels = labels

    def name(self, thing: object, wish: str) -> str:
        if thing not in self.given:
            self.given[thing] = self.free(self.legal(wish))
        return self.given[thing]

    def legal(self, wish: str) -> str:
        if self.labels and wish.isascii() and wish.isdigit() and not is_wide(wish):
            return wish
        name = re.sub(r"[^A-Za-z0-9_.'^$]", "_", wish)
        name = name if re.match(r"[A-Za-z_]", name) else "v" + name
        return name + "_" if name in NO_NAMES else name

    def free(self, name: str) -> str:
        taken = set(self.given.values())
        copy = 2
        found = name
        while found in taken:
            found = f"{name}.{copy}"
            copy += 1
        return found


def sum_text(value: Polynomial) -> str:
    """The sum, with what is added first and the constant after the names."""
    terms = [(factor, monomial[0] if monomial else "") for monomial, factor in value.terms.items()]
    terms.sort(key=lambda term: (term[0] < 0, term[1] == ""))
    return writing.terms_text((factor, DRAW if name.startswith(DRAW) else name) for factor, name in terms)


def comparison_text(one: Comparison) -> str:
    """The comparison with what is subtracted on the other side."""
    terms = one.polynomial.terms
    left = Polynomial({monomial: factor for monomial, factor in terms.items() if monomial and factor > 0})
    right = Polynomial({monomial: -factor for monomial, factor in terms.items() if monomial and factor < 0})
    constant, relation = one.polynomial.constant(), one.relation
    if relation == AT_MOST and constant == 1:
        constant, relation = 0, "<"
    if not left.terms:
        left, right, constant = right, left, -constant
        relation = {"<=": ">=", "<": ">"}.get(relation, relation)
    if constant > 0 and right.terms:
        left = left + number(constant)
    else:
        right = right - number(constant)
    return f"{sum_text(left)} {relation} {sum_text(right)}"


def condition_text(condition: Condition, inside: bool = False) -> str:
    if condition == TRUE or condition == FALSE:
        return "true" if condition == TRUE else "false"
    if isinstance(condition, Comparison):
        return comparison_text(condition)
    sign = " && " if isinstance(condition, Both) else " || "
    text = sign.join(condition_text(part, True) for part in condition.parts)
    return f"({text})" if inside else text


def command_lines(command: Command) -> list[str]:
    if isinstance(command, Assume):
        return [f"assume({condition_text(part)});" for part in conjuncts(command.condition)]
    return [f"{command.name} := {sum_text(command.value)};"]


def polynomials(commands: list[Command]) -> list[Polynomial]:
    def inside(condition: Condition) -> list[Polynomial]:
        if isinstance(condition, Comparison):
            return [condition.polynomial]
        return [one for part in condition.parts for one in inside(part)]
    return [one for command in commands for one in (inside(command.condition) if isinstance(command, Assume) else [command.value])]


def check_limits(program: Program) -> None:
    """The first edge with which the text passes a limit is refused."""
    labels, variables = {program.start}, set()
    for count, edge in enumerate(program.edges, 1):
        values = polynomials(edge.commands)
        if any(abs(factor) >= WIDE for value in values for factor in value.terms.values()):
            raise Refused(edge.line, "a number comes to 2^62 or more")
        names = {name for value in values for name in value.names()}
        draws = sum(name.startswith(DRAW) for value in values for name in value.names())
        labels |= {edge.source, edge.target}
        variables |= {name for name in names if not name.startswith(DRAW)}
        variables |= {command.name for command in edge.commands if isinstance(command, Assign)}
        counts = {"locations": len(labels), "edges": count, "variables": len(variables), "draws of one edge": draws}
        for what, size in counts.items():
            if size > MOST[what]:
                raise Refused(edge.line, f"there are more than {MOST[what]:,} {what}, which is a limit of program texts")


def program_text(program: Program) -> str:
    """The text, after comments that say what is otherwise than in the file."""
    if program.unchanged is not None:
        return program.unchanged
    check_limits(program)
    edges = [writing.edge_text(edge.source, [line for command in edge.commands for line in command_lines(command)], edge.target) for edge in program.edges]
    text = writing.program_text(program.notes, program.start, edges, "\n\n")
    if len(text) > MOST["bytes"]:
        raise Refused(program.edges[-1].line, f"the text is longer than {MOST['bytes']:,} bytes, which is a limit of program texts")
    return text
