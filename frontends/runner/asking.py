"""A program text with a question, and what t2verdict answers."""
from __future__ import annotations

import os
from dataclasses import dataclass
from pathlib import Path
from typing import Callable

from .processes import Clock, Ended, OutOfTime, run

TOP = Path(__file__).resolve().parent.parent.parent
MAYBE, REFUSED, OUT_OF_MEMORY, OTHER_END = 2, 3, 6, 8
FAULTS = {4: "t2verdict could not read its input", 5: "t2verdict could not write its answer", OUT_OF_MEMORY: "t2verdict ran out of memory"}
NOT_KNOWN = "not known"
Claim = tuple[str, str]


class Fault(Exception):
    """The run ends with this status, and without an answer."""

    def __init__(self, status: int, why: str):
        super().__init__(why)
        self.status = status


@dataclass
class Asked:
    """A text, the words for t2verdict, what they ask, and what an answer says of the file. The table is the one of the translator from C."""
    text: str
    words: list[str]
    meaning: str
    claim: Callable[[str], Claim]
    table: str | None = None


@dataclass
class Answer:
    """What was asked, what the program wrote, and what this says of the file: `yes`, `no` or `not known`, and why. Nothing was written where
    the time limit came."""
    asked: Asked
    output: str
    said: str
    why: str

    def first(self) -> str:
        return self.output.split("\n", 1)[0]

    def values(self) -> list[str]:
        """The lines after `Disproved`: the initial values."""
        lines = self.output.split("\nT2CERT", 1)[0].splitlines()
        return [line for line in lines[1:] if " = " in line] if lines[:1] == ["Disproved"] else []

    def certificate(self) -> str | None:
        place = self.output.find("T2CERT")
        return self.output[place:] if place >= 0 else None


def program() -> str:
    return os.environ.get("T2VERDICT") or str(TOP / "t2verdict")


def ask(asked: Asked, clock: Clock, with_certificate: bool) -> Answer:
    words = asked.words + (["--certificate"] if with_certificate else [])
    try:
        ended = run([program(), *words], clock, asked.text)
    except OutOfTime:
        return Answer(asked, "", NOT_KNOWN, "")
    except OSError as fault:
        raise Fault(OTHER_END, f"{program()} could not be started: {fault.strerror}") from None
    first = ended.output.split("\n", 1)[0]
    if ended.status not in (0, 1, MAYBE) or not first:
        raise fault_of(ended, first)
    said, why = asked.claim(first)
    return Answer(asked, ended.output, said, why)


def fault_of(ended: Ended, first: str) -> Fault:
    if ended.status == REFUSED:
        return Fault(REFUSED, f"t2verdict refused the program text or the question: {first}")
    if ended.status in FAULTS:
        return Fault(ended.status, FAULTS[ended.status])
    ending = f"signal {-ended.status}" if ended.status < 0 else f"status {ended.status}"
    return Fault(OTHER_END, f"t2verdict ended with {ending}" + (f": {ended.last_error()}" if ended.last_error() else ""))
