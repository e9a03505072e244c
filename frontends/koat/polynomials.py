"""Polynomials with whole coefficients. A product whose expansion is too long is kept as a monomial of its own that is not linear."""
from __future__ import annotations

from itertools import count

Monomial = tuple[str, ...]
MOST_TERMS = 200
_closed = count(1)


class Polynomial:
    """A sum of monomials, each the sorted names of its factors; the one without names is the constant."""

    __slots__ = ("terms",)

    def __init__(self, terms: dict[Monomial, int]):
        self.terms = {monomial: factor for monomial, factor in terms.items() if factor}

    def __add__(self, other: Polynomial) -> Polynomial:
        terms = dict(self.terms)
        for monomial, factor in other.terms.items():
            terms[monomial] = terms.get(monomial, 0) + factor
        return Polynomial(terms)

    def __neg__(self) -> Polynomial:
        return Polynomial({monomial: -factor for monomial, factor in self.terms.items()})

    def __sub__(self, other: Polynomial) -> Polynomial:
        return self + -other

    def __mul__(self, other: Polynomial) -> Polynomial:
        if len(self.terms) * len(other.terms) > MOST_TERMS and not (self.is_constant() or other.is_constant()):
            return closed()
        terms: dict[Monomial, int] = {}
        for one, left in self.terms.items():
            for two, right in other.terms.items():
                monomial = tuple(sorted(one + two))
                terms[monomial] = terms.get(monomial, 0) + left * right
        return Polynomial(terms)

    def __eq__(self, other: object) -> bool:
        return isinstance(other, Polynomial) and self.terms == other.terms

    def __hash__(self) -> int:
        return hash(frozenset(self.terms.items()))

    def names(self) -> set[str]:
        return {name for monomial in self.terms for name in monomial}

    def is_linear(self) -> bool:
        return all(len(monomial) <= 1 for monomial in self.terms)

    def is_constant(self) -> bool:
        return not any(self.terms)

    def constant(self) -> int:
        return self.terms.get((), 0)

    def factor(self, name: str) -> int:
        """The coefficient of the name by itself."""
        return self.terms.get((name,), 0)

    def is_name(self, name: str) -> bool:
        return self.terms == {(name,): 1}

    def replace(self, values: dict[str, Polynomial]) -> Polynomial:
        """The polynomial with each name that has a value replaced by it, all at once."""
        result = number(0)
        for monomial, factor in self.terms.items():
            product = number(factor)
            for name in monomial:
                product = product * values.get(name, named(name))
            result = result + product
        return result


def number(value: int) -> Polynomial:
    return Polynomial({(): value})


def named(name: str) -> Polynomial:
    return Polynomial({(name,): 1})


def closed() -> Polynomial:
    """A value that is not linear, and of which nothing else is known."""
    name = f"?{next(_closed)}"
    return Polynomial({(name, name): 1})


def power(base: Polynomial, exponent: int) -> Polynomial:
    """The power, kept closed where it would be long."""
    if base.is_constant() and abs(base.constant()) <= 1:
        return number(base.constant() ** exponent)
    if exponent > 64:
        return closed()
    result = number(1)
    for _ in range(exponent):
        result = result * base
    return result
