"""A small interpreter of program texts, and of files of T2: which states are one step from a state, if draws are among given numbers."""
from __future__ import annotations

import re
from itertools import product
from types import CodeType
from typing import Iterable, Iterator

from expressions import compiled, draws_in

EDGE = re.compile(r"FROM\s*:\s*([\w.'^$]+)\s*;(.*?)TO\s*:\s*([\w.'^$]+)\s*;", re.S)
NAME = r"[A-Za-z_](?:[\w.'^$]|!(?=\w))*"
Values = dict[str, int]


class Text:
    """The start, and for each location the edges that leave it: where to, and the commands with how many draws each has."""

    def __init__(self, text: str):
        text = re.sub(r"//[^\n]*|/\*.*?\*/", "", text, flags=re.S)
        text = re.sub(r'AT\s*\((?:"[^"]*"|[^")])*\)\s*;?|\b(?:CUTPOINT|SHADOW|ERROR)\s*:[^;]*;', "", text)
        self.start = re.search(r"START\s*:\s*([\w.'^$]+)\s*;", text).group(1)
        words = set(re.findall(NAME, " ".join(commands for _, commands, _ in EDGE.findall(text))))
        self.names = sorted(words - {"assume", "nondet", "true", "false", "skip"})
        self.edges: dict[str, list[tuple[str, list[tuple[str, CodeType, int]]]]] = {}
        for source, commands, target in EDGE.findall(text):
            self.edges.setdefault(source, []).append((target, [self.command(one) for one in commands.split(";") if one.strip() not in ("", "skip")]))

    def command(self, text: str) -> tuple[str, CodeType, int]:
        assigned = re.fullmatch(rf"\s*({NAME})\s*:=(.*)", text, re.S)
        name, value = assigned.groups() if assigned else ("", re.fullmatch(r"\s*assume\s*(\(.*\))\s*", text, re.S).group(1))
        return name, compiled(value, self.names), draws_in(value)

    def steps(self, label: str, values: Values, numbers: Iterable[int]) -> Iterator[tuple[str, Values]]:
        for target, commands in self.edges.get(label, []):
            for after in executed(commands, values, list(numbers)):
                yield target, after


def executed(commands: list[tuple[str, CodeType, int]], values: Values, numbers: list[int]) -> Iterator[Values]:
    if not commands:
        yield values
        return
    name, code, draws = commands[0]
    for drawn in product(numbers, repeat=draws):
        value = eval(code, {"v": values, "draw": iter(drawn).__next__})
        if name:
            yield from executed(commands[1:], {**values, name: value}, numbers)
        elif value:
            yield from executed(commands[1:], values, numbers)
