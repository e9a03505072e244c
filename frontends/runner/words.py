"""The words of t2verdict-run."""
from __future__ import annotations

import os
from dataclasses import dataclass, field
from pathlib import Path

USAGE = """usage: t2verdict-run FILE.c|FILE.koat|FILE.t2 [--question Q] [--timeout SECONDS] [--out DIR] [options of c2t2]
       t2verdict-run --version | --help
The question is termination (if left out), assert, overflow, LABEL or 'ctl: FORMULA'."""
WITH_VALUE = ("--question", "--timeout", "--out")
OF_C = {"--entry": True, "--int": True, "--model": True, "--bounds": True, "--plain": False, "--strict": False}
KINDS = (".c", ".i", ".koat", ".t2")


class WrongWords(Exception):
    """The words have none of the forms of the usage."""


@dataclass
class Words:
    file: Path
    question: str = "termination"
    timeout: float | None = None
    out: Path | None = None
    of_c: dict[str, str] = field(default_factory=dict)

    def c_words(self, **changed: str) -> list[str]:
        """The options for c2t2, some of them changed."""
        options = {**self.of_c, **{f"--{name}": value for name, value in changed.items()}}
        return [f"{name}={value}" if OF_C[name] else name for name, value in options.items()]


def parted(arguments: list[str]) -> dict[str, str]:
    """The words by name, each at most once; the file has the name FILE."""
    found: dict[str, str] = {}
    rest = list(arguments)
    while rest:
        word = rest.pop(0)
        name, equals, value = word.partition("=")
        if name in WITH_VALUE or OF_C.get(name):
            if not equals and not rest:
                raise WrongWords(f"{name} has no word after it")
            value = value if equals else rest.pop(0)
        elif word in OF_C:
            value = ""
        elif word.startswith("-"):
            raise WrongWords(f"the word {word} has no meaning")
        else:
            name, value = "FILE", word
        if name in found:
            raise WrongWords("two files are given" if name == "FILE" else f"{name} is given twice")
        found[name] = value
    return found


def words_of(arguments: list[str]) -> Words:
    found = parted(arguments)
    if "FILE" not in found:
        raise WrongWords("no file is given")
    words = Words(Path(found["FILE"]), found.get("--question", "termination"), of_c={name: value for name, value in found.items() if name in OF_C})
    if words.file.suffix not in KINDS:
        raise WrongWords(f"the file {words.file} is none of {', '.join(KINDS)}")
    if not os.access(words.file, os.R_OK) or not words.file.is_file():
        raise WrongWords(f"the file {words.file} cannot be read")
    if words.of_c and not is_c(words.file):
        raise WrongWords(f"{next(iter(words.of_c))} is for C alone")
    if "--timeout" in found:
        words.timeout = seconds(found["--timeout"])
    if "--out" in found:
        words.out = Path(found["--out"])
    return words


def seconds(word: str) -> float:
    try:
        value = float(word)
    except ValueError:
        value = 0.0
    if not 0 < value < 1e9:
        raise WrongWords(f"--timeout {word}: a number of seconds above 0 is expected")
    return value


def is_c(path: Path) -> bool:
    return path.suffix in (".c", ".i")
