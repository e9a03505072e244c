"""Questions about integer transition systems and files of T2."""
from __future__ import annotations

from typing import Callable

from koat.claims import claim
from koat.faults import Refused
from koat.main import read, translate
from koat.programs import program_text
from t2.formulas import TERM, never, parsed
from t2.trees import Tree

from .asking import REFUSED, Answer, Asked, Fault, ask
from .processes import Clock
from .words import Words, WrongWords


def answer(words: Words, clock: Clock) -> Answer:
    return ask(asked(words), clock, words.out is not None)


def asked(words: Words) -> Asked:
    try:
        program = translate(words.file, read(words.file))
        text = program_text(program)
    except Refused as fault:
        raise Fault(REFUSED, f"{words.file}:{fault.line}: refused: {fault.why}") from None
    question, meaning, formula = question_of(words.question, program.error)
    return Asked(text, question, meaning, lambda first: claim(first, formula(), program.lost))


def question_of(question: str, error: str | None) -> tuple[list[str], str, Callable[[], Tree]]:
    """The words, what they ask, and the formula, which is read once the program has accepted it."""
    if question == "termination":
        return ["--termination"], "every run ends", lambda: TERM
    if question.startswith("ctl:"):
        formula = question[len("ctl:"):].strip()
        return [f"--ctl={formula}"], f"{formula} holds at every start", lambda: parsed(formula)
    if question == "overflow":
        raise WrongWords("--question overflow: numbers have no bounds here")
    if question == "assert" and error is None:
        raise WrongWords("--question assert: the file names no ERROR location")
    label = error if question == "assert" else question
    return [f"--safety={label}"], f"no run comes to {label}", lambda: never(label)
