"""What is refused, and what is only warned of."""
from __future__ import annotations


class Refused(Exception):
    """A form that has no translation: its name, and where it stands."""

    def __init__(self, what: str, line: int | None = None, file: str | None = None):
        super().__init__(what)
        self.what, self.line, self.file = what, line, file

    def text(self, source: str) -> str:
        place = f"{self.file or source}:{self.line}" if self.line else (self.file or source)
        return f"{place}: refused: {self.what}"


class WrongWords(Exception):
    """Words on the command line that have no meaning."""


class Log:
    """What was lost by the translation, a line each; `strict` refuses instead."""

    def __init__(self, strict: bool):
        self.strict = strict
        self.drawn: list[tuple[int, str]] = []

    def lost(self, line: int, what: str) -> None:
        if self.strict:
            raise Refused(f"{what} has no exact form (--strict)", line)
        if (line, what) not in self.drawn:
            self.drawn.append((line, what))
