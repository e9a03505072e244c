"""Compares the steps of rules, or of a file of T2, with those of a program text, state by state."""
from __future__ import annotations

import random
from itertools import product
from typing import Iterable, Union

from rules import Rules
from texts import Text, Values

SMALL = range(-2, 3)
WIDE = {0: range(1), 1: range(-60, 61), 2: range(-24, 25), 3: range(-9, 10)}
RESERVED = ("START", "FROM", "TO", "at", "term")
State = tuple[str, tuple[int, ...]]


class RuleSide:
    """Steps of rules. A state is a symbol and its arguments."""

    def __init__(self, text: str):
        self.rules = Rules(text)
        self.draws = self.rules.most_free()
        self.widths = {rule.symbol: len(rule.left) for rule in self.rules.rules}

    def steps(self, state: State, numbers: Iterable[int]) -> set[State]:
        return set(self.rules.steps(state[0], state[1], numbers))


class TextSide:
    """Steps of a text. A state is a label and the values of the names; the other variables have any numbers. A label that was a reserved
    word is shown without the _ that it has been given."""

    def __init__(self, text: str, names: list[str]):
        self.text = Text(text)
        self.names = names
        self.chance = random.Random(1)
        self.draws = max((sum(draws for _, _, draws in commands) for edges in self.text.edges.values() for _, commands in edges), default=0)
        self.widths = {label: len(names) for label in self.text.edges}

    def steps(self, state: State, numbers: Iterable[int]) -> set[State]:
        values: Values = {name: self.chance.randint(-9, 9) for name in self.text.names}
        values.update(zip(self.names, state[1]))
        label = state[0] + "_" if state[0] in RESERVED else state[0]
        return {(plain(target), tuple(after.get(name, 0) for name in self.names)) for target, after in self.text.steps(label, values, numbers)}


Side = Union[RuleSide, TextSide]


def plain(label: str) -> str:
    return label[:-1] if label[:-1] in RESERVED else label


def missing(side: Side, other: Side, state: State) -> list[str]:
    """The steps of the one side, with few numbers, that the other one has not, with many."""
    steps = side.steps(state, SMALL)
    numbers = sorted(set(WIDE[min(other.draws, 3)]) | {value for _, values in steps for value in values})
    found = other.steps(state, numbers)
    return [f"{state} -> {step}" for step in sorted(steps) if not any(same(step, one) for one in found)]


def same(one: State, other: State) -> bool:
    """The same place, and the same values as far as both have them: a symbol may have fewer arguments than others."""
    width = min(len(one[1]), len(other[1]))
    return one[0] == other[0] and one[1][:width] == other[1][:width]


def differences(file: Side, text: Side, count: int, exact: bool) -> list[str]:
    """Steps that only one of the two has, from states of a small grid and those that are reached from there. Where the text may have more
    steps, only those of the file are looked for."""
    waiting = states(file.widths, count)
    seen: set[State] = set()
    while waiting and len(seen) < count:
        state = waiting.pop(0)
        if state in seen or any(abs(value) > 12 for value in state[1]):
            continue
        seen.add(state)
        found = [f"not of the text: {one}" for one in missing(file, text, state)]
        if exact:
            found += [f"not of the file: {one}" for one in missing(text, file, state)]
        if found:
            return found
        waiting += sorted(file.steps(state, SMALL))[:4]
    return []


def states(widths: dict[str, int], count: int) -> list[State]:
    """States of each symbol, with small values."""
    chance = random.Random(7)
    found: list[State] = []
    for symbol, width in widths.items():
        grid = list(product(range(-3, 5), repeat=width)) if width <= 3 else [tuple(chance.randint(-4, 5) for _ in range(width)) for _ in range(200)]
        chance.shuffle(grid)
        found += [(symbol, values) for values in grid[:max(1, count // (2 * len(widths)))]]
    return found
