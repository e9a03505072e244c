"""The command koat2t2."""
from __future__ import annotations

import re
import sys
from pathlib import Path

from .claims import surviving
from .faults import Refused
from .koat_reader import read_koat
from .lowering import lower
from .programs import Program, program_text
from .t2_reader import read_t2

USAGE = "usage: koat2t2 FILE.koat|FILE.t2 [-o OUT.t2]"
DONE, USED_WRONGLY, REFUSED = 0, 2, 3
CERTIFICATE = re.compile(r"^CERTIFICATE:\r?$", re.M)
LOST = {"value": "is not linear, so any number is taken for it", "guard": "is not linear, so it is left out of the guard"}


def translate(path: Path, text: str) -> Program:
    """The program of a file, by the end of its name. A certificate behind a program text is left out."""
    program = read_t2(CERTIFICATE.split(text)[0]) if path.suffix == ".t2" else lower(read_koat(text))
    notes = [f"line {line}: {words} {LOST[kind]}" for line, words, kind in program.lost]
    program.notes = ["From " + " ".join(path.name.split()) + "."] + program.notes + notes + ([surviving(program.lost)] if program.lost else [])
    return program


def read(path: Path) -> str:
    with open(path, encoding="utf-8", errors="surrogateescape", newline="") as file:
        return file.read()


def write(path: str | None, text: str) -> None:
    data = text.encode("utf-8", "surrogateescape")
    if path is None:
        sys.stdout.buffer.write(data)
        sys.stdout.buffer.flush()
    else:
        Path(path).write_bytes(data)


def words_of(arguments: list[str]) -> tuple[Path, str | None] | None:
    """The file and the output that the words name."""
    files, out = [], None
    rest = list(arguments)
    while rest:
        word = rest.pop(0)
        if word == "-o" and rest and out is None:
            out = rest.pop(0)
        elif word.startswith("-"):
            return None
        else:
            files.append(word)
    if len(files) != 1 or Path(files[0]).suffix not in (".koat", ".t2"):
        return None
    return Path(files[0]), out


def say(path: Path, program: Program) -> None:
    for line, why in program.warnings + [(line, f"`{words}` {LOST[kind]}") for line, words, kind in program.lost]:
        print(f"{path}:{line}: warning: {why}" if line else f"{path}: warning: {why}", file=sys.stderr)
    if program.lost:
        print(f"{path}: {surviving(program.lost)}", file=sys.stderr)


def main(arguments: list[str]) -> int:
    words = words_of(arguments)
    if words is None:
        print(USAGE, file=sys.stderr)
        return USED_WRONGLY
    path, out = words
    try:
        program = translate(path, read(path))
        write(out, program_text(program))
        say(path, program)
    except Refused as fault:
        print(f"{path}:{fault.line}: refused: {fault.why}", file=sys.stderr)
        return REFUSED
    except OSError as fault:
        print(f"koat2t2: {fault.filename or path}: {fault.strerror}", file=sys.stderr)
        return USED_WRONGLY
    return DONE
