"""Whether a formula is the same over a text whose places were joined.

A place that is joined away has none of the labels that a formula names, and has a step at each state. A formula keeps its meaning where
each of its operators is, at such a place, what it is at the places one step further. The classes say what a formula is there:

T true, F false, A as at all places one step further, E as at some of them, N none of these."""
from __future__ import annotations

from .formula import FALSE, Tree, normal


def joinable(formula: Tree) -> bool:
    """Whether each operator in the formula has a class."""
    return all_classed(normal(formula))


def all_classed(formula: Tree) -> bool:
    return not any(part.kind in ("next", "fix") and class_of(part) == "N" for part in formula)


def class_of(formula: Tree) -> str:
    """Of a formula in normal form."""
    kind = formula.kind
    if kind == "truth":
        return "T" if formula.word == "true" else "F"
    if kind == "at":
        return "F"
    if kind == "not":
        return "T" if formula.parts[0].kind == "at" else "E"
    if kind == "term":
        return "A"
    if kind in ("and", "or"):
        return of_parts({class_of(part) for part in formula.parts}, kind == "and")
    if kind != "fix":
        return "N"
    one, other = formula.parts
    if formula.word[1] in "RM":
        one, other = other, Tree("and", "", (one, other))
    return of_until(formula.word[0], class_of(one), class_of(other), other == FALSE)


def of_parts(classes: set[str], both: bool) -> str:
    """Of "and", or of "or"."""
    ends, passed, together = ("F", "T", "A") if both else ("T", "F", "E")
    if ends in classes:
        return ends
    classes = classes - {passed}
    if not classes:
        return passed
    if len(classes) == 1 and (classes == {together} or "N" in classes):
        return classes.pop()
    return "N"


def of_until(path: str, one: str, other: str, never: bool) -> str:
    """Of an until or a weak until; `never` says that its end is `false`."""
    if never:
        return path if one in ("TAE" if path == "A" else "TE") else "N"
    return path if one == "T" and other in ("FA" if path == "A" else "FAE") else "N"
