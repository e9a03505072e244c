"""A small interpreter of rules in KoAT's form, one rule on a line or more: which terms are one step from a term, if the names that the left
side does not give are among given numbers."""
from __future__ import annotations

import re
from dataclasses import dataclass
from itertools import product
from types import CodeType
from typing import Iterable, Iterator

from expressions import compiled

WORD = r"[A-Za-z_][\w'.$^]*"
HEAD = re.compile(rf"({WORD})\s*\(([^:|\[\]\n]*?)\)\s*(?:->|-\{{[^}}]*\}}>)", re.S)


def closing(text: str, place: int) -> int:
    """The bracket that closes the one at the place."""
    depth = 0
    for at in range(place, len(text)):
        depth += {"(": 1, ")": -1}.get(text[at], 0)
        if depth == 0:
            return at
    raise ValueError(text)


def arguments(text: str) -> list[str]:
    parts, depth = [""], 0
    for letter in text:
        depth += {"(": 1, ")": -1}.get(letter, 0)
        if letter == "," and depth == 0:
            parts.append("")
        else:
            parts[-1] += letter
    return [part.strip() for part in parts if part.strip()]


@dataclass(frozen=True)
class Rule:
    """The words are those of the left side's arguments, and the names all that the rule has."""
    symbol: str
    words: list[str]
    left: list[CodeType]
    names: list[str]
    target: str
    values: list[CodeType]
    guard: CodeType


class Rules:
    def __init__(self, text: str):
        text = re.sub(r"#[^\n]*", "", text)
        while "(COMMENT" in text:
            place = text.index("(COMMENT")
            text = text[:place] + text[closing(text, place) + 1:]
        self.starts = re.search(r"FUNCTIONSYMBOLS\s+([^)]*)\)", text).group(1).split()
        self.names = re.search(r"\(VAR\b([^)]*)\)", text).group(1).split()
        place = text.index("(RULES")
        self.rules = list(map(self.rule, self.split(text[place + len("(RULES"):closing(text, place)])))

    def split(self, body: str) -> Iterator[tuple[str, str, str]]:
        heads = list(HEAD.finditer(body))
        for head, after in zip(heads, heads[1:] + [None]):
            yield head.group(1), head.group(2), body[head.end():after.start() if after else len(body)].strip()

    def rule(self, parts: tuple[str, str, str]) -> Rule:
        symbol, left, rest = parts
        wrapped = re.match(r"Com_([01])\s*\(", rest)
        end = closing(rest, rest.index("("))
        term, guard = (rest[wrapped.end():end], rest[end + 1:]) if wrapped else (rest[:end + 1], rest[end + 1:])
        guard = re.sub(r"^\s*(:\|:|\[)|\]\s*$", "", guard).strip() or "true"
        target = re.match(rf"\s*({WORD})\s*\((.*)\)\s*$", term, re.S)
        values = arguments(target.group(2)) if target else []
        used = {name for name in self.names if re.search(rf"(?<![\w.$'^]){re.escape(name)}(?![\w.$'^])", " ".join([left, *values, guard]))}
        code = lambda text: compiled(text, self.names)
        return Rule(symbol, arguments(left), list(map(code, arguments(left))), sorted(used), target.group(1) if target else "end",
                    list(map(code, values)), code(guard))

    def steps(self, symbol: str, given: tuple[int, ...], numbers: Iterable[int]) -> Iterator[tuple[str, tuple[int, ...]]]:
        for rule in self.rules:
            if rule.symbol != symbol:
                continue
            for v in assignments(rule, given, list(numbers)):
                if tuple(eval(one, {"v": v}) for one in rule.left) == given and eval(rule.guard, {"v": v}):
                    yield rule.target, tuple(eval(one, {"v": v}) for one in rule.values)

    def most_free(self) -> int:
        """How many names a rule has at most that its left side does not give."""
        return max((len(set(rule.names) - set(rule.words)) for rule in self.rules), default=0)


def assignments(rule: Rule, given: tuple[int, ...], numbers: list[int]) -> Iterator[dict[str, int]]:
    """Values for the names: as given where an argument of the left side is the name alone, and else among the numbers."""
    bound = {word: value for word, value in zip(rule.words, given) if word in rule.names}
    others = [name for name in rule.names if name not in bound]
    for chosen in product(numbers, repeat=len(others)):
        yield {**bound, **dict(zip(others, chosen))}
