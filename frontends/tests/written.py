"""The written programs of tests/written: what their first lines say is compared with what is seen."""
from __future__ import annotations

import os
import re
import shlex
import subprocess
import sys

from differential import Comparison
from translate.claims import claim_of
from translate.command import options_of, translate, words_of
from translate.questions import understood
from translate.refusal import Refused, WrongWords

HERE = os.path.dirname(os.path.abspath(__file__))
C2T2 = os.path.join(os.path.dirname(HERE), "c2t2")
TOP = os.path.dirname(os.path.dirname(HERE))
LIMIT = 60


def prover() -> str:
    return os.environ.get("T2VERDICT") or os.path.join(TOP, "t2verdict")


def directives(path: str) -> list[tuple[str, str]]:
    """`// WORD: REST` in the first lines."""
    found = []
    with open(path) as file:
        for line in file:
            match = re.match(r"// (\w+):(.*)", line)
            if not match:
                break
            found.append((match.group(1), match.group(2).strip()))
    return found


def call(path: str, words: list[str]) -> subprocess.CompletedProcess:
    return subprocess.run([sys.executable, C2T2, path, *words], capture_output=True, text=True, timeout=LIMIT)


def answered(path: str, question: str, options: list[str]) -> tuple[str, str, str]:
    """What the program answers, what that says of C, and why."""
    try:
        asked = understood(question)
        text, table = translate(options_of(words_of([path, *options]), asked), asked)
    except (Refused, WrongWords) as fault:
        return f"refused: {fault}", "", ""
    row = table["questions"][0]
    try:
        said = subprocess.run([prover(), *row["words"]], input=text, capture_output=True, text=True, timeout=LIMIT).stdout
    except subprocess.TimeoutExpired:
        return "no answer in time", "", ""
    first = said.splitlines()[0] if said else "nothing"
    return first, *claim_of(table, row, first)


def check(path: str, kind: str, rest: str) -> str | None:
    """What is wrong with one line of a file."""
    if kind == "refused":
        options, line, what = re.fullmatch(r"((?:--\S+ )*)(\d+) (.*)", rest).groups()
        ended = call(path, shlex.split(options))
        wanted = f"{path}:{line}: refused: {what}"
        return None if ended.returncode == 3 and ended.stderr.strip() == wanted else f"status {ended.returncode}, {ended.stderr.strip()!r} and not {wanted!r}"
    if kind == "warns":
        line, what = rest.split(" ", 1)
        wanted = f"{path}:{line}: warning: drawn: {what}"
        return None if wanted in call(path, []).stderr.splitlines() else f"no warning {wanted!r}"
    if kind == "words":
        question, words = rest.split(" = ")
        said = call(path, ["--question", question]).stderr
        return None if f"words: {words}\n" in said else f"the words are {said!r}"
    if kind == "ask":
        asked, wanted = rest.rsplit(" = ", 1)
        question, *options = shlex.split(asked)
        answer, claim, why = answered(path, question, options)
        return None if f"{answer} {claim}" == wanted else f"{asked} is {answer}, {claim!r} and not {wanted} ({why.strip()})"
    if kind == "run":
        found = Comparison(path, rest.split(), 1, 4)
        return "; ".join(found.wrong[:2]) or found.refused
    return f"a line with {kind}"


def all_checks(answers: bool = True) -> list[tuple[str, str | None]]:
    """Each line of each file, and what is wrong with it."""
    directory, rows = os.path.join(HERE, "written"), []
    for name in sorted(os.listdir(directory)):
        path = os.path.join(directory, name)
        for kind, rest in directives(path):
            if kind != "ask" or answers:
                rows.append((f"{name}: {kind} {rest}", check(path, kind, rest)))
    return rows
