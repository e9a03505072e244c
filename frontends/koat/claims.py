"""What an answer of the program says of the file that was translated, where the text is not the same in all.

A text never has fewer steps than the file: a value that is not linear became any number, and a comparison that is not linear was left out.
So what holds of every run of the text holds of every run of the file. Where a comparison was left out, a run of the file may stop where
the text goes on, and then that every run comes to something is not known of the file either."""
from __future__ import annotations

from t2.formulas import normal, operators
from t2.trees import Tree

Lost = list[tuple[int, str, str]]


def claim(answer: str, formula: Tree, lost: Lost) -> tuple[str, str]:
    """`yes`, `no` or `not known` of the file, and why."""
    if answer not in ("Proved", "Disproved"):
        return "not known", "the program gave no answer"
    said = "yes" if answer == "Proved" else "no"
    if not lost:
        return said, "the text has exactly the steps of the file"
    words = operators(normal(formula, answer == "Disproved"))
    lines = ", ".join(str(line) for line in sorted({line for line, _, _ in lost}))
    if any(word[0] == "E" for word in words):
        return "not known", f"a run of the text need not be one of the file, which is not linear in line {lines}"
    if any(kind == "guard" for _, _, kind in lost) and words & {"AU", "AM"}:
        return "not known", f"a run of the file may stop where the text goes on, since a comparison is not linear in line {lines}"
    return said, f"this holds although the file is not linear in line {lines}"


def surviving(lost: Lost) -> str:
    """Which answers are of the file, in one sentence."""
    if not lost:
        return "The text has exactly the steps of the file."
    besides = ", and not of [AF], [AU] and [AM]" if any(kind == "guard" for _, _, kind in lost) else ""
    return f"Of the file is Proved of --termination, --safety and formulas over every path{besides}; Disproved of them is not."
