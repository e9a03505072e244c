"""Formulas over paths in the words of C: what they speak of, and how runs that stop for a reason of their own are passed over."""
from __future__ import annotations

from typing import Callable

from t2.formulas import FALSE, TRUE, formula_text, normal, operators, parsed
from t2.tokens import Fault
from t2.trees import Tree

from .refusal import WrongWords


def read(text: str) -> Tree:
    try:
        return parsed(text)
    except Fault as fault:
        raise WrongWords(f"the formula has a fault in {fault}") from None


def at(label: str) -> Tree:
    return Tree("at", label)


def negated(formula: Tree) -> Tree:
    return Tree("not", "", (formula,))


def operator(word: str, *parts: Tree) -> Tree:
    return Tree("next" if word[1] == "X" else "fix", word, parts)


def all_of(*parts: Tree) -> Tree:
    kept = [one for one in parts if one != TRUE]
    return kept[0] if len(kept) == 1 else Tree("and", "", tuple(kept)) if kept else TRUE


def any_of(*parts: Tree) -> Tree:
    kept = [inner for one in parts if one != FALSE for inner in (one.parts if one.kind == "or" else (one,))]
    return kept[0] if len(kept) == 1 else Tree("or", "", tuple(kept)) if kept else FALSE


def letters(formula: Tree) -> str:
    """The path letters of a formula: A where it speaks of all runs, E where of some. `term` speaks of all, `!term` of some."""
    return "".join(sorted({word[0] for word in operators(normal(formula))}))


def passing(formula: Tree, stops: Tree) -> Tree:
    """A formula in normal form where runs that come to the stops are passed over."""
    if stops == FALSE or formula.kind == "compare":
        return formula
    word, parts = formula.word, tuple(passing(one, stops) for one in formula.parts)
    if formula.kind == "fix" and word[1] in "RM":
        return passing_until(word[0] + ("W" if word[1] == "R" else "U"), parts[1], all_of(parts[0], parts[1]), stops)
    if formula.kind == "fix":
        return passing_until(word, parts[0], parts[1], stops)
    if formula.kind == "next":
        return operator(word, any_of(parts[0], stops) if word == "AX" else all_of(parts[0], negated(stops)))
    return Tree(formula.kind, word, parts)


def passing_until(word: str, one: Tree, other: Tree, stops: Tree) -> Tree:
    if word == "AW" and other == FALSE:
        return operator(word, any_of(one, stops), FALSE)
    if word[0] == "A":
        return operator(word, one, any_of(other, stops))
    held = all_of(one, negated(stops)) if word == "EW" else one
    return operator(word, held, all_of(other, negated(stops)) if other != FALSE else FALSE)


def text(formula: Tree) -> str:
    """In the spelling of the program."""
    return formula_text(formula)


def changed(formula: Tree, change: Callable[[Tree], Tree | None]) -> Tree:
    """The formula with what is put in place of its parts, where something is."""
    return change(formula) or Tree(formula.kind, formula.word, tuple(changed(part, change) for part in formula.parts), formula.number)


def labels_of(formula: Tree) -> list[str]:
    return [one.word for one in formula if one.kind == "at"]


def names_of(formula: Tree) -> list[str]:
    return [one.word for one in formula if one.kind == "name"]
