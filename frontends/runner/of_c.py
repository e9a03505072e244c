"""Questions about C, by way of the translator c2t2: it writes the text and a table, and its module `claims` says what an answer is of C."""
from __future__ import annotations

import json
import sys
from pathlib import Path
from tempfile import TemporaryDirectory
from typing import Iterator

from .asking import NOT_KNOWN, REFUSED, Answer, Asked, Fault, ask
from .processes import Clock, OutOfTime, run
from .words import Words, WrongWords

TRANSLATOR = Path(__file__).resolve().parent.parent / "c2t2"


def answer(words: Words, clock: Clock) -> Answer:
    """The answer by the first way that says something of the program, and else by the first of all."""
    found: list[Answer] = []
    try:
        for one in ways(words, clock):
            found.append(one)
            if one.said != NOT_KNOWN:
                return one
    except OutOfTime:
        if not found:
            raise
    return with_numbers(found[0], found[-1])


def with_numbers(first: Answer, last: Answer) -> Answer:
    """The first answer; the advice to ask with numbers becomes what came of it."""
    if last.first() and last.asked is not first.asked:
        first.why = first.why.replace("(ask with --bounds numbers)", f"(with numbers the answer is {last.first()})")
    return first


def ways(words: Words, clock: Clock) -> Iterator[Answer]:
    """Answers one after another: with bounds as symbols, and then as numbers."""
    text, table = translated(words, clock, words.question, {})
    yield from by_one_text(words, clock, text, table, {})
    if "--bounds" not in words.of_c and table.get("symbols"):
        numbers = {"bounds": "numbers"}
        yield from by_one_text(words, clock, *translated(words, clock, words.question, numbers), numbers)


def by_one_text(words: Words, clock: Clock, text: str, table: dict, changed: dict[str, str]) -> Iterator[Answer]:
    """Answers for each row of the table. A row may rest on another question, which is asked before."""
    if not table["questions"]:
        raise Fault(REFUSED, f"{words.file}: nothing is asked by {words.question}")
    for row in table["questions"]:
        if row.get("given") is None or holds(words, clock, row["given"], changed):
            found = ask(asked(text, table, row, False), clock, words.out is not None)
            yield found
            presumes = table.get("presumes") and table["int"] == "unbounded" and found.first() in ("Proved", "Disproved")
            if presumes and holds(words, clock, "overflow", {"int": "checked"}):
                said, why = claim(table, row, found.first(), True)
                yield Answer(found.asked, found.output, said, why)


def holds(words: Words, clock: Clock, question: str, changed: dict[str, str]) -> bool:
    text, table = translated(words, clock, question, changed)
    return all(ask(asked(text, table, row, False), clock, False).said == "yes" for row in table["questions"])


def translated(words: Words, clock: Clock, question: str, changed: dict[str, str]) -> tuple[str, dict]:
    """The text and the table that c2t2 writes."""
    if not TRANSLATOR.exists():
        raise Fault(REFUSED, f"{words.file}: the translator from C, {TRANSLATOR}, is not there")
    with TemporaryDirectory() as folder:
        text, table = Path(folder) / "program.t2", Path(folder) / "table.json"
        outputs = ["-o", str(text), f"--table={table}"]
        ended = run([sys.executable, str(TRANSLATOR), str(words.file), *words.c_words(**changed), f"--question={question}", *outputs], clock)
        if ended.status == 2:
            raise WrongWords(first_line(ended.errors))
        if ended.status != 0:
            raise Fault(REFUSED, ended.last_error() or f"{words.file}: c2t2 ended with status {ended.status}")
        return text.read_text(), json.loads(table.read_text())


def first_line(text: str) -> str:
    return text.split("\n", 1)[0]


def asked(text: str, table: dict, row: dict, no_overflow: bool) -> Asked:
    return Asked(text, row["words"], meaning(row), lambda first: claim(table, row, first, no_overflow), json.dumps(table, indent=1) + "\n")


def claim(table: dict, row: dict, first: str, no_overflow: bool) -> tuple[str, str]:
    from translate.claims import claim_of
    return claim_of(table, row, first, no_overflow)


def meaning(row: dict) -> str:
    question = row["question"]
    if question == "termination":
        return "every run ends"
    if question == "overflow":
        return "no arithmetic of a run is undefined"
    if question.startswith("assert"):
        return "no assertion fails" if question == "assert" else f"the assertion of line {question[len('assert:'):]} does not fail"
    return f"{question[len('ctl:'):].strip()} holds" if question.startswith("ctl:") else f"no run comes to {question}"
