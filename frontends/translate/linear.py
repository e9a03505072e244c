"""Linear terms over variables and draws, and comparisons of them with 0.

A name that begins with `#` is that of a draw of the edge on which it stands; every other name is a variable."""
from __future__ import annotations

from math import gcd

from t2.writing import terms_text


class Linear:
    """A sum of names with whole coefficients, and a constant."""

    __slots__ = ("terms", "constant", "key")

    def __init__(self, terms: dict[str, int] | None = None, constant: int = 0):
        self.terms = {name: factor for name, factor in (terms or {}).items() if factor}
        self.constant = constant
        self.key = (tuple(sorted(self.terms.items())), constant)

    def __eq__(self, other) -> bool:
        return isinstance(other, Linear) and self.key == other.key

    def __hash__(self) -> int:
        return hash(self.key)

    def __add__(self, other: Linear | int) -> Linear:
        if isinstance(other, int):
            return Linear(self.terms, self.constant + other)
        terms = dict(self.terms)
        for name, factor in other.terms.items():
            terms[name] = terms.get(name, 0) + factor
        return Linear(terms, self.constant + other.constant)

    def __neg__(self) -> Linear:
        return self.times(-1)

    def __sub__(self, other: Linear | int) -> Linear:
        return self + (-other)

    def times(self, factor: int) -> Linear:
        return Linear({name: factor * old for name, old in self.terms.items()}, factor * self.constant)

    def is_constant(self) -> bool:
        return not self.terms

    def names(self) -> set[str]:
        return set(self.terms)

    def put(self, values: dict[str, Linear]) -> Linear:
        """The same term with other terms in the place of names."""
        if not any(name in values for name in self.terms):
            return self
        result = Linear({}, self.constant)
        for name, factor in self.terms.items():
            result = result + (values[name].times(factor) if name in values else Linear({name: factor}))
        return result

    def value(self, values: dict[str, int]) -> int:
        return self.constant + sum(factor * values[name] for name, factor in self.terms.items())

    def text(self) -> str:
        return terms_text([*((factor, name) for name, factor in self.terms.items()), (self.constant, "")])


def number(value: int) -> Linear:
    return Linear({}, value)


def variable(name: str) -> Linear:
    return Linear({name: 1})


class Atom:
    """A term compared with 0 by `<=`, `==` or `!=`."""

    __slots__ = ("relation", "term", "key")

    def __init__(self, relation: str, term: Linear):
        self.relation, self.term = relation, tightened(relation, term)
        self.key = (relation, self.term.key)

    def __eq__(self, other) -> bool:
        return isinstance(other, Atom) and self.key == other.key

    def __hash__(self) -> int:
        return hash(self.key)

    def put(self, values: dict[str, Linear]) -> Atom:
        return Atom(self.relation, self.term.put(values))

    def names(self) -> set[str]:
        return self.term.names()

    def decided(self) -> bool | None:
        """Whether it holds, where no name is in it."""
        if self.term.terms:
            return True if self.relation == "!=" and self.has_no_whole_point() else \
                False if self.relation == "==" and self.has_no_whole_point() else None
        return self.holds({})

    def has_no_whole_point(self) -> bool:
        divisor = gcd(*self.term.terms.values())
        return self.term.constant % divisor != 0

    def holds(self, values: dict[str, int]) -> bool:
        value = self.term.value(values)
        return {"<=": value <= 0, "==": value == 0, "!=": value != 0}[self.relation]

    def denied(self) -> Atom:
        """The opposite. There is one atom for each relation, since numbers are whole."""
        if self.relation == "<=":
            return Atom("<=", -self.term + 1)
        return Atom("!=" if self.relation == "==" else "==", self.term)

    def text(self) -> str:
        return atom_text(self)


def tightened(relation: str, term: Linear) -> Linear:
    """Divided by the greatest common divisor of the coefficients, where whole numbers allow it."""
    if not term.terms:
        return term
    divisor = gcd(*term.terms.values())
    if divisor > 1 and (relation == "<=" or term.constant % divisor == 0):
        term = Linear({name: factor // divisor for name, factor in term.terms.items()}, -(-term.constant // divisor))
    if relation != "<=" and min(term.terms.items())[1] < 0:
        term = -term
    return term


def atom_text(atom: Atom) -> str:
    """With what has a minus sign on the other side: `x <= n + 1` for `x - n - 1 <= 0`."""
    left = Linear({name: factor for name, factor in atom.term.terms.items() if factor > 0})
    right = Linear({name: -factor for name, factor in atom.term.terms.items() if factor < 0}, -atom.term.constant)
    if atom.relation == "<=" and not left.terms:
        return f"{right.text() if right.constant == 0 else (right - right.constant).text()} >= {-right.constant}"
    return f"{left.text()} {atom.relation} {right.text()}"


def at_most(left: Linear, right: Linear) -> Atom:
    return Atom("<=", left - right)


def below(left: Linear, right: Linear) -> Atom:
    return Atom("<=", left - right + 1)


def equal(left: Linear, right: Linear) -> Atom:
    return Atom("==", left - right)


def unequal(left: Linear, right: Linear) -> Atom:
    return Atom("!=", left - right)
