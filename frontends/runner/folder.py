"""What is kept in the folder of --out."""
from __future__ import annotations

import sys
from pathlib import Path

from .asking import TOP, Answer
from .processes import Clock, OutOfTime, run

TRACER = TOP / "examples" / "trace.py"


def keep(folder: Path, answer: Answer, lines: list[str], clock: Clock) -> None:
    """The verdict, the text, the table, what the program wrote, a text for --check, and the run."""
    folder.mkdir(parents=True, exist_ok=True)
    put(folder / "verdict.txt", "\n".join(lines) + "\n")
    put(folder / "program.t2", answer.asked.text)
    put(folder / "answer.txt", answer.output)
    put(folder / "words.txt", "\n".join(answer.asked.words) + "\n")
    put(folder / "table.json", answer.asked.table)
    certificate = answer.certificate()
    text = answer.asked.text if answer.asked.text.endswith("\n") else answer.asked.text + "\n"
    put(folder / "certificate.t2", certificate and f"{text}CERTIFICATE:\n{certificate}")
    put(folder / "run.txt", certificate and traced(folder, answer, clock))


def put(path: Path, text: str | None) -> None:
    """Writes the file. One from an earlier call goes where there is nothing to write."""
    if text:
        path.write_bytes(text.encode("utf-8", "surrogateescape"))
    else:
        path.unlink(missing_ok=True)


def traced(folder: Path, answer: Answer, clock: Clock) -> str | None:
    """The run that the certificate determines, by the tracer of the repository where it is there."""
    if not TRACER.exists():
        return None
    table = [f"--table={folder / 'table.json'}"] if answer.asked.table else []
    try:
        ended = run([sys.executable, str(TRACER), *answer.asked.words, str(folder / "program.t2"), str(folder / "answer.txt"), *table], clock)
    except OutOfTime:
        return "No run is shown: the time limit came.\n"
    return ended.output if ended.status == 0 else f"No run is shown: {ended.last_error()}\n"
