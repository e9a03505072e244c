"""Runs program texts step by step, by docs/language.md alone: it shares no code with the translator."""
from __future__ import annotations

import re
from dataclasses import dataclass, field

TOKEN = re.compile(r"\s*(?:(\d+)|([A-Za-z_][\w.'^$]*)|(:=|<=|>=|==|!=|&&|\|\||[:;()+\-*<>!]))")
RELATIONS = ("<", "<=", ">", ">=", "==", "!=")


class Sum:
    """A linear term over unknown draws: numbers by draw, and a constant under None."""

    def __init__(self, parts: dict | None = None):
        self.parts = {key: value for key, value in (parts or {}).items() if value}

    def plus(self, other: Sum, factor: int = 1) -> Sum:
        parts = dict(self.parts)
        for key, value in other.parts.items():
            parts[key] = parts.get(key, 0) + factor * value
        return Sum(parts)

    def times(self, other: Sum) -> Sum:
        for one, two in ((self, other), (other, self)):
            if set(one.parts) <= {None}:
                return Sum({key: value * one.parts.get(None, 0) for key, value in two.parts.items()})
        raise ValueError("a product of two draws")

    def unknown(self) -> list[int]:
        return [key for key in self.parts if key is not None]

    def constant(self) -> int:
        return self.parts.get(None, 0)


@dataclass
class Edge:
    source: str
    target: str
    commands: list[list[str]]
    draws: int


@dataclass
class Text:
    start: str = ""
    edges: list[Edge] = field(default_factory=list)


def tokens_of(text: str) -> list[str]:
    text = re.sub(r"/\*.*?\*/|//[^\n]*", " ", text, flags=re.S).rstrip()
    found, place = [], 0
    while place < len(text):
        match = TOKEN.match(text, place)
        if not match:
            raise ValueError(f"no token at {text[place:place + 20]!r}")
        found.append(match.group().strip())
        place = match.end()
    return found


def read(text: str) -> Text:
    """Reads the text of a program."""
    words, result = tokens_of(text), Text()
    place = 0
    while place < len(words):
        if words[place] == "START":
            result.start = words[place + 2]
            place += 4
            continue
        if words[place] != "FROM":
            raise ValueError(f"{words[place]} where an edge begins")
        source, place = words[place + 2], place + 4
        commands, current = [], []
        while words[place] != "TO":
            if words[place] == ";":
                commands.append(current)
                current = []
            else:
                current.append(words[place])
            place += 1
        draws = sum(command.count("nondet") for command in commands)
        result.edges.append(Edge(source, words[place + 2], commands, draws))
        place += 4
    return result


class Execution:
    """One edge on the values before it; draws that are not given stay unknown."""

    def __init__(self, values: dict[str, int], draws: dict[int, int]):
        self.values = {name: Sum({None: value}) for name, value in values.items()}
        self.draws, self.next = draws, 0
        self.conditions: list[tuple] = []

    def run(self, edge: Edge) -> None:
        for command in edge.commands:
            if command[0] == "assume":
                self.words, self.place = command[1:], 0
                self.conditions.append(self.either())
            else:
                self.words, self.place = command[2:], 0
                self.values[command[0]] = self.sum()
            if self.place != len(self.words):
                raise ValueError(f"a command goes on: {command}")

    def peek(self) -> str:
        return self.words[self.place] if self.place < len(self.words) else ""

    def take(self) -> str:
        self.place += 1
        return self.words[self.place - 1]

    def either(self) -> tuple:
        parts = [self.both()]
        while self.peek() == "||":
            self.take()
            parts.append(self.both())
        return ("or", parts) if len(parts) > 1 else parts[0]

    def both(self) -> tuple:
        parts = [self.test()]
        while self.peek() == "&&":
            self.take()
            parts.append(self.test())
        return ("and", parts) if len(parts) > 1 else parts[0]

    def test(self) -> tuple:
        if self.peek() in ("true", "false"):
            return ("truth", self.take() == "true")
        if self.peek() == "!":
            self.take()
            return ("not", [self.test()])
        if self.peek() == "(":
            kept, drawn = self.place, self.next
            self.take()
            try:
                inner = self.either()
                if self.take() == ")" and self.peek() not in RELATIONS + ("+", "-", "*"):
                    return inner
            except (ValueError, IndexError):
                pass
            self.place, self.next = kept, drawn
        left = self.sum()
        relation = self.take()
        if relation not in RELATIONS:
            raise ValueError(f"{relation} where a comparison is wanted")
        return ("compare", relation, left.plus(self.sum(), -1))

    def sum(self) -> Sum:
        total = self.product()
        while self.peek() in ("+", "-"):
            sign = 1 if self.take() == "+" else -1
            total = total.plus(self.product(), sign)
        return total

    def product(self) -> Sum:
        total = self.factor()
        while self.peek() == "*":
            self.take()
            total = total.times(self.factor())
        return total

    def factor(self) -> Sum:
        word = self.take()
        if word.isdigit():
            return Sum({None: int(word)})
        if word == "-":
            return Sum().plus(self.factor(), -1)
        if word == "(":
            inner = self.sum()
            self.take()
            return inner
        if word == "nondet":
            self.place += 2
            self.next += 1
            given = self.draws.get(self.next - 1)
            return Sum({None: given}) if given is not None else Sum({self.next - 1: 1})
        if not re.match(r"[A-Za-z_]", word):
            raise ValueError(f"{word} where a factor is wanted")
        return self.values.get(word, Sum({None: 0}))


def holds(condition: tuple) -> bool:
    kind = condition[0]
    if kind == "truth":
        return condition[1]
    if kind == "not":
        return not holds(condition[1][0])
    if kind in ("and", "or"):
        return (all if kind == "and" else any)(holds(part) for part in condition[1])
    relation, value = condition[1], condition[2].constant()
    return {"<": value < 0, "<=": value <= 0, ">": value > 0, ">=": value >= 0, "==": value == 0, "!=": value != 0}[relation]


def comparisons(condition: tuple) -> list[tuple[str, Sum]]:
    """Those that all have to hold."""
    if condition[0] == "and":
        return [one for part in condition[1] for one in comparisons(part)]
    return [(condition[1], condition[2])] if condition[0] == "compare" else []


def bounds_of_draw(conditions: list[tuple], draw: int) -> tuple[int | None, int | None, set[int]]:
    """The least and the greatest value that comparisons of this draw alone leave, and values that are excluded."""
    low = high = None
    out: set[int] = set()
    for condition in conditions:
        for relation, term in comparisons(condition):
            if term.unknown() != [draw]:
                continue
            factor, rest = term.parts[draw], term.constant()
            sides = {"<": [(factor, rest + 1)], "<=": [(factor, rest)], ">": [(-factor, -rest + 1)], ">=": [(-factor, -rest)],
                     "==": [(factor, rest), (-factor, -rest)], "!=": []}[relation]
            if relation == "!=" and rest % factor == 0:
                out.add(-rest // factor)
            for one, constant in sides:
                limit = (-constant) // one if one > 0 else -(constant // one)
                if one > 0:
                    high = limit if high is None else min(high, limit)
                else:
                    low = limit if low is None else max(low, limit)
    return low, high, out


def step(edge: Edge, values: dict[str, int], draws: dict[int, int], choose=None) -> tuple[dict[str, int], dict[int, int]] | None:
    """The values after the edge, and its draws. Draws that are not given are solved where the comparisons leave one value, and else chosen by
    `choose`, which gets the least and the greatest value. None where the edge can't be taken with these draws."""
    draws = dict(draws)
    while True:
        run = Execution(values, draws)
        run.run(edge)
        missing = [number for number in range(run.next) if number not in draws]
        if not missing:
            if all(holds(condition) for condition in run.conditions):
                return {name: term.constant() for name, term in run.values.items()}, draws
            return None
        found = {number: bounds_of_draw(run.conditions, number) for number in missing}
        if any(low is not None and high is not None and low > high for low, high, _ in found.values()):
            return None
        pinned = next((number for number, (low, high, _) in found.items() if low is not None and low == high), None)
        if pinned is not None:
            draws[pinned] = found[pinned][0]
        elif choose is not None:
            low, high, out = found[missing[0]]
            draws[missing[0]] = choose(low, high, out)
        else:
            return None
