"""Integer transition systems as they are read: rules from a term to a term."""
from __future__ import annotations

from dataclasses import dataclass, field

from .conditions import Condition
from .polynomials import Polynomial


@dataclass(frozen=True)
class Term:
    """A function symbol and its arguments, with the words of each."""
    symbol: str
    arguments: tuple[Polynomial, ...]
    words: tuple[str, ...]


@dataclass(frozen=True)
class Rule:
    """The rule can be used where the left side fits and the guard holds. Without a right side it ends the run."""
    line: int
    left: Term
    right: Term | None
    guard: Condition


@dataclass
class System:
    starts: list[str]
    rules: list[Rule]
    warnings: list[tuple[int, str]] = field(default_factory=list)
