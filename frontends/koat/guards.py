"""Free names of a guard: those with a value by an equation, and those that some whole number always fits, are taken out. Both are exact."""
from __future__ import annotations

from .conditions import AT_MOST, EQUAL, NOT_EQUAL, Comparison, Condition, both, conjuncts, names, replace, settle
from .polynomials import Polynomial, named, number


def is_free(name: str) -> bool:
    """Names of positions and further variables begin with @, those of what is not known with ?, and draws have brackets."""
    return name[0] not in "@?" and "(" not in name


def definition(one: Condition) -> tuple[str, Polynomial] | None:
    """A free name and its value, where this is an equation that is linear and has the name with factor 1 or -1."""
    if not isinstance(one, Comparison) or one.relation != EQUAL or not one.polynomial.is_linear():
        return None
    for name in sorted(filter(is_free, one.polynomial.names())):
        factor = one.polynomial.factor(name)
        if abs(factor) == 1:
            rest = one.polynomial - (named(name) if factor == 1 else -named(name))
            return name, -rest if factor == 1 else rest
    return None


def without_definitions(guard: Condition, values: list[Polynomial]) -> tuple[Condition, list[Polynomial]]:
    """The guard and the values with each free name that an equation defines replaced."""
    parts = conjuncts(guard)
    while (found := next(filter(None, map(definition, parts)), None)) is not None:
        name, value = found
        new = {name: value}
        parts = [part if name not in names(part) else replace(part, new) for part in parts]
        parts = [one for part in parts for one in conjuncts(part)]
        values = [one if name not in one.names() else one.replace(new) for one in values]
    return both(parts), values


def without_bounds(guard: Condition, kept: set[str]) -> Condition:
    """The guard without the free names that are not kept, where what then is left says the same."""
    changed = True
    while changed:
        changed = False
        for name in sorted(filter(is_free, names(guard) - kept)):
            shadow = shadow_of(conjuncts(guard), name)
            if shadow is not None:
                guard, changed = shadow, True
    return guard


def shadow_of(parts: list[Condition], name: str) -> Condition | None:
    """That some whole number for the name meets all parts, without the name; None where this form cannot say it exactly."""
    lower, upper, other = [], [], []
    unequal = False
    for part in parts:
        if name not in names(part):
            other.append(part)
        elif not isinstance(part, Comparison) or part.relation == EQUAL:
            return None
        elif part.relation == NOT_EQUAL:
            unequal = True
        else:
            (upper if part.polynomial.factor(name) > 0 else lower).append(part)
    if not lower or not upper:
        return both(other)
    if unequal or len(lower) * len(upper) > len(lower) + len(upper):
        return None
    pairs = [(one, two) for one in lower for two in upper]
    if any(one.polynomial.factor(name) != -1 and two.polynomial.factor(name) != 1 for one, two in pairs):
        return None
    return both(other + [shadow_of_pair(one, two, name) for one, two in pairs])


def shadow_of_pair(lower: Comparison, upper: Comparison, name: str) -> Condition:
    """A number lies between the two bounds. It is exact where one of the factors is 1."""
    least, most = -lower.polynomial.factor(name), upper.polynomial.factor(name)
    total = number(most) * lower.polynomial + number(least) * upper.polynomial
    return settle(Comparison(total, AT_MOST, upper.line, upper.words))
