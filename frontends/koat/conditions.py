"""Conditions in negation normal form: comparisons of a polynomial with 0, joined by "and" and "or"."""
from __future__ import annotations

from dataclasses import dataclass, field
from typing import Callable, Union

from .polynomials import Polynomial, number

AT_MOST, EQUAL, NOT_EQUAL = "<=", "==", "!="


@dataclass(frozen=True)
class Comparison:
    """The polynomial, the relation, and 0. The line and the words are those of the file."""
    polynomial: Polynomial
    relation: str
    line: int = field(default=0, compare=False)
    words: str = field(default="", compare=False)


@dataclass(frozen=True)
class Both:
    parts: tuple["Condition", ...]


@dataclass(frozen=True)
class Either:
    parts: tuple["Condition", ...]


Condition = Union[Comparison, Both, Either]
TRUE, FALSE = Both(()), Either(())


def compare(left: Polynomial, relation: str, right: Polynomial, line: int, words: str) -> Comparison:
    """The comparison of two sums by one of < <= > >= == !=."""
    if relation in (">", ">="):
        left, right = right, left
    difference = left - right
    if relation in ("<", ">"):
        difference = difference + number(1)
    return Comparison(difference, relation if relation in (EQUAL, NOT_EQUAL) else AT_MOST, line, words)


def negate(condition: Condition) -> Condition:
    if isinstance(condition, Both):
        return Either(tuple(negate(part) for part in condition.parts))
    if isinstance(condition, Either):
        return Both(tuple(negate(part) for part in condition.parts))
    one = condition
    if one.relation == AT_MOST:
        return Comparison(number(1) - one.polynomial, AT_MOST, one.line, one.words)
    return Comparison(one.polynomial, EQUAL if one.relation == NOT_EQUAL else NOT_EQUAL, one.line, one.words)


def both(parts: list[Condition]) -> Condition:
    """The "and" of the parts, without brackets that are not needed and without what is plainly true."""
    flat: list[Condition] = []
    for part in parts:
        flat.extend(part.parts if isinstance(part, Both) else [part])
    if FALSE in flat:
        return FALSE
    kept = tuple(dict.fromkeys(flat))
    return kept[0] if len(kept) == 1 else Both(kept)


def either(parts: list[Condition]) -> Condition:
    flat: list[Condition] = []
    for part in parts:
        flat.extend(part.parts if isinstance(part, Either) else [part])
    if TRUE in flat:
        return TRUE
    kept = tuple(dict.fromkeys(flat))
    return kept[0] if len(kept) == 1 else Either(kept)


def each(condition: Condition, change: Callable[[Comparison], Condition]) -> Condition:
    """The condition with each comparison changed."""
    if isinstance(condition, Both):
        return both([each(part, change) for part in condition.parts])
    if isinstance(condition, Either):
        return either([each(part, change) for part in condition.parts])
    return change(condition)


def settle(comparison: Comparison) -> Condition:
    """The comparison, or its truth value where it has no names."""
    if not comparison.polynomial.is_constant():
        return comparison
    value = comparison.polynomial.constant()
    holds = {AT_MOST: value <= 0, EQUAL: value == 0, NOT_EQUAL: value != 0}[comparison.relation]
    return TRUE if holds else FALSE


def replace(condition: Condition, values: dict[str, Polynomial]) -> Condition:
    return each(condition, lambda one: settle(Comparison(one.polynomial.replace(values), one.relation, one.line, one.words)))


def conjuncts(condition: Condition) -> list[Condition]:
    return list(condition.parts) if isinstance(condition, Both) else [condition]


def names(condition: Condition) -> set[str]:
    if isinstance(condition, Comparison):
        return condition.polynomial.names()
    return {name for part in condition.parts for name in names(part)}


def linear(condition: Condition, report: Callable[[Comparison], None]) -> Condition:
    """The condition with each comparison that is not linear taken as true, which is reported."""
    def change(one: Comparison) -> Condition:
        if one.polynomial.is_linear():
            return one
        report(one)
        return TRUE
    return each(condition, change)
