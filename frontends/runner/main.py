"""The command t2verdict-run."""
from __future__ import annotations

import os
import subprocess
import sys

from . import of_c, of_systems
from .asking import OUT_OF_MEMORY, TOP, Answer, Fault
from .folder import keep
from .processes import Clock, OutOfTime, end_on_signals
from .words import USAGE, Words, WrongWords, is_c, words_of

YES, NO, MAYBE, NOT_KEPT, USED_WRONGLY, INTERRUPTED = 0, 1, 2, 9, 64, 130
STATUS = {"yes": YES, "no": NO, "not known": MAYBE}
FIRST = {"yes": "YES", "no": "NO", "not known": "MAYBE"}


def version() -> str:
    """The commit of the repository, where git tells it."""
    try:
        told = subprocess.run(["git", "-C", str(TOP), "describe", "--always", "--dirty"], capture_output=True, text=True, timeout=10)
    except (OSError, subprocess.TimeoutExpired):
        return "unknown"
    return told.stdout.strip() or "unknown"


def out_of_time(words: Words) -> str:
    return f"The time limit of {words.timeout:g} seconds came before an answer."


def sentence(words: Words, answer: Answer) -> str:
    """The reason, in one sentence."""
    first, meaning = answer.first(), answer.asked.meaning
    if not first:
        return out_of_time(words)
    if answer.said == "yes":
        return f"It is proved that {meaning}: {answer.why}."
    if answer.said == "no":
        return f"It is disproved that {meaning}: {answer.why}."
    if first in ("Proved", "Disproved"):
        return f"Whether {meaning} is not known: of the program text it is {first.lower()}, but {answer.why}."
    details = " ".join(answer.output.split("\n")[1:2])
    return f"Whether {meaning} is not known: t2verdict answered {first}" + (f" ({details})." if details else ".")


def verdict(words: Words) -> int:
    clock = Clock(words.timeout)
    try:
        answer = (of_c if is_c(words.file) else of_systems).answer(words, clock)
    except OutOfTime:
        print(f"MAYBE\n{out_of_time(words)}")
        return MAYBE
    lines = [FIRST[answer.said], sentence(words, answer)] + (answer.values() if answer.said == "no" and not is_c(words.file) else [])
    print("\n".join(lines), flush=True)
    return kept(words, answer, lines, clock)


def kept(words: Words, answer: Answer, lines: list[str], clock: Clock) -> int:
    """The status, once all is written that is to be kept."""
    try:
        if words.out is not None:
            keep(words.out, answer, lines, clock)
    except OSError as fault:
        raise Fault(NOT_KEPT, f"{fault.filename}: {fault.strerror}") from None
    return STATUS[answer.said]


def main(arguments: list[str]) -> int:
    try:
        if arguments == ["--version"]:
            print(f"t2verdict {version()}")
            return YES
        if arguments in (["--help"], ["-h"]):
            print(USAGE)
            return YES
        end_on_signals()
        return verdict(words_of(arguments))
    except WrongWords as fault:
        print(f"t2verdict-run: {fault}\n{USAGE}", file=sys.stderr)
        return USED_WRONGLY
    except Fault as fault:
        print(f"t2verdict-run: {fault}", file=sys.stderr)
        return fault.status
    except MemoryError:
        print("t2verdict-run: out of memory", file=sys.stderr)
        return OUT_OF_MEMORY
    except BrokenPipeError:
        os.dup2(os.open(os.devnull, os.O_WRONLY), sys.stdout.fileno())
        return NOT_KEPT
    except KeyboardInterrupt:
        return INTERRUPTED
