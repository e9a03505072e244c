"""The tokens of a file, each with its line, and the place in them up to which a reader has come."""
from __future__ import annotations

import re
from dataclasses import dataclass

from t2.tokens import is_wide

from .faults import Refused


@dataclass(frozen=True)
class Token:
    kind: str
    text: str
    line: int


def tokens_of(text: str, pattern: re.Pattern[str]) -> list[Token]:
    """The tokens of the text by a pattern whose groups name the kinds; those of the group `skip` are left out."""
    found: list[Token] = []
    place, line = 0, 1
    while place < len(text):
        match = pattern.match(text, place)
        if match is None:
            raise Refused(line, f"{text[place]!r} is not expected here")
        if match.lastgroup != "skip":
            found.append(Token(match.lastgroup or "", match.group(), line))
        line += match.group().count("\n")
        place = match.end()
    found.append(Token("end", "", line))
    return found


class Tokens:
    """The tokens that are left."""

    def __init__(self, tokens: list[Token]):
        self.tokens = tokens
        self.place = 0

    def next(self, ahead: int = 0) -> Token:
        return self.tokens[min(self.place + ahead, len(self.tokens) - 1)]

    def line(self) -> int:
        return self.next().line

    def take(self) -> Token:
        token = self.next()
        self.place = min(self.place + 1, len(self.tokens) - 1)
        return token

    def sees(self, *texts: str) -> bool:
        return self.next().kind in ("symbol", "word") and self.next().text in texts

    def takes(self, *texts: str) -> bool:
        """Whether the next token is one of these, which is then taken."""
        if self.sees(*texts):
            self.take()
            return True
        return False

    def want(self, text: str) -> Token:
        if not self.sees(text):
            self.fail(f"`{text}` is expected")
        return self.take()

    def fail(self, why: str) -> None:
        token = self.next()
        raise Refused(token.line, f"{why}, and {'the end' if token.kind == 'end' else f'`{token.text}`'} is there")

    def has_name(self, first: int, last: int) -> bool:
        return any(token.kind == "name" for token in self.tokens[first:last])

    def words_from(self, place: int) -> str:
        """What was taken from the place on, as words."""
        return shortened(" ".join(token.text for token in self.tokens[place:self.place]))


def shortened(words: str) -> str:
    return words if len(words) <= 60 else words[:57] + "..."


def whole_number(token: Token) -> int:
    if is_wide(token.text):
        raise Refused(token.line, f"the number {token.text[:30]} is 2^62 or more")
    return int(token.text)
