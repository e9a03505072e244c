"""What an answer about a program text says of the C program that it was made from.

A text has all runs of the C program, and where something was lost also others. So what holds of all runs of the text holds of all runs
of C, and what no run of the text does, no run of C does; that some run of the text does something says nothing of C. This is not proved."""
from __future__ import annotations

from . import formula as formulas

YES, NO, NOT_KNOWN = "yes", "no", "not known"


def path_letters(text: str) -> str:
    """`A`, `E`, `AE` or nothing: the paths that the normal form of a formula speaks of."""
    return formulas.letters(formulas.read(text))


def claim(answer: str, letters: str, lost: list, int_mode: str, symbols: bool = False, presumes: list = (), overflow_proved: bool = False) -> tuple[str, str]:
    """`yes`, `no` or `not known` of the C program, and the reason.

    `answer` is the first line of t2verdict, `letters` are those of the formula, `lost` is what was drawn though C does not leave it open,
    `symbols` says whether bounds of types are symbols, and `presumes` is what the text takes for granted."""
    if answer not in ("Proved", "Disproved"):
        return NOT_KNOWN, f"the program text was answered {answer or 'nothing'}"
    holds = answer == "Proved"
    open_presumes = [row for row in presumes if not (overflow_proved and is_overflow(row))]
    presuming = presumption(open_presumes, int_mode)
    beyond = open_presumes if int_mode == "unbounded" else []
    if letters == "AE" and (lost or beyond):
        return NOT_KNOWN, "the formula speaks of all runs and of some run, and the text has other runs than the C program: " + why_more(lost, beyond)
    of_all_runs = letters in ("A", "")
    if holds == of_all_runs or letters == "AE":
        if not holds and symbols:
            return NOT_KNOWN, "it was disproved with a symbol for the largest value of a type, which may be another than that of C (ask with --bounds numbers)"
        return (YES if holds else NO), reason(letters, lost) + presuming
    if lost or beyond:
        return NOT_KNOWN, "a run of the text may be none of the C program: " + why_more(lost, beyond)
    if symbols and not holds:
        return NOT_KNOWN, "the run may rest on a symbol for the largest value of a type that is another than that of C (ask with --bounds numbers)"
    return (YES if holds else NO), "the run of the text is one of the C program"


def is_overflow(row: dict) -> bool:
    """Whether the overflow question speaks of it: it does not of conversions, which are defined and wrap."""
    return not row["what"].startswith("the conversion")


def reason(letters: str, lost: list) -> str:
    if letters == "AE":
        return "the text has exactly the runs of the C program"
    if letters == "E":
        return "no run of the text does it, and the text has all runs of the C program"
    return "it holds of all runs of the text, which has all runs of the C program" + (", though values were drawn" if lost else "")


def why_more(lost: list, presumes: list) -> str:
    lines = sorted({row["line"] for row in lost if row.get("line")})
    if lost:
        return "values were drawn at line " + ", ".join(map(str, lines)) if lines else "values were drawn"
    return "signed values may leave their type at line " + ", ".join(map(str, sorted({row["line"] for row in presumes if row.get("line")})))


def presumption(presumes: list, int_mode: str) -> str:
    if not presumes:
        return ""
    lines = sorted({row["line"] for row in presumes if row.get("line")})
    what = "that no value leaves its type" if int_mode == "unbounded" else "that no run comes to overflow"
    return f", presuming {what} at line {', '.join(map(str, lines))}"


def claim_of(table: dict, question: dict, answer: str, overflow_proved: bool = False) -> tuple[str, str]:
    """The claim for a question of a table. `overflow_proved` says that the overflow question was answered yes."""
    presumes = [] if question["question"] == "overflow" else table["presumes"]
    return claim(answer, path_letters(question["formula"]), table["lost"], table["int"], table["symbols"], presumes, overflow_proved)


def sound(letters: str, lost: list, int_mode: str, symbols: bool, presumes: list) -> str:
    """Which answers carry over: `both`, `proved`, `disproved` or `none`."""
    proved = claim("Proved", letters, lost, int_mode, symbols, presumes)[0] != NOT_KNOWN
    disproved = claim("Disproved", letters, lost, int_mode, symbols, presumes)[0] != NOT_KNOWN
    return {(True, True): "both", (True, False): "proved", (False, True): "disproved", (False, False): "none"}[proved, disproved]
