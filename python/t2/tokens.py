"""Tokens of program texts and formulas, as docs/language.md has them, and where they stand."""
import re
from bisect import bisect_left
from dataclasses import dataclass

from t2.limits import WIDE

RESERVED = ("START", "FROM", "TO", "AT", "CUTPOINT", "ERROR", "SHADOW", "PROCESS", "assume", "nondet", "true", "false")
# the words that are neither variables nor labels for a formula
NO_NAMES = frozenset((*RESERVED, "at", "term"))
SYMBOLS = (":=", "<=", ">=", "==", "!=", "&&", "||", ":", ";", "(", ")", "[", "]", "+", "-", "*", "<", ">", "!")
QUOTIENTS = ("/", "%")
LABELS = ("name", "number", "wide")
PASSED = r"(?:[ \t\r\n\f]|//[^\n]*(?:\n|\Z)|/\*.*?\*/)"
BLANK = re.compile(PASSED + "+", re.S)
NAME = r"[A-Za-z_][A-Za-z0-9_.'^$]*"
NO_BRACKET = r"[^)]*"


class Fault(Exception):
    """A text that cannot be read: what is wrong, and where."""

    def __init__(self, text: str, line: int = 0, column: int = 0):
        self.line, self.column = line, column
        super().__init__(f"line {line}, column {column}: {text}" if line else text)


@dataclass(frozen=True, slots=True)
class Token:
    """A piece of a text. Its kind is `name`, `number`, `wide` (a number of 2^62 or more), `section`, `mark`, `bad` (what no token can hold),
    `end`, or the symbol or reserved word itself."""
    kind: str
    text: str
    start: int
    end: int


class Lexicon:
    """The words and symbols of a language, and the pattern of its tokens."""

    def __init__(self, words: tuple[str, ...], symbols: tuple[str, ...], name: str = NAME, inside: str = NO_BRACKET):
        self.words = frozenset(words)
        # the slash that opens a comment which is never closed is no symbol
        signs = "|".join(re.escape(it) + ("(?![/*])" if it == "/" else "") for it in sorted(symbols, key=len, reverse=True))
        self.mark = re.compile(rf"AT{PASSED}*\((?P<inside>{inside})\)", re.S)
        section = rf"(?:CUTPOINT|ERROR|SHADOW){PASSED}*:[^;]*;"
        mark = rf"AT{PASSED}*\((?:{inside})\)"
        self.pattern = re.compile(rf"(?P<section>{section})|(?P<mark>{mark})|(?P<name>{name})|(?P<number>[0-9]+)|(?P<symbol>{signs})", re.S)

    def tokens(self, text: str) -> list[Token]:
        """The tokens of a text, the last of which is its end."""
        found, at = [], 0
        while True:
            blank = BLANK.match(text, at)
            at = blank.end() if blank else at
            if at == len(text):
                return [*found, Token("end", "", at, at)]
            found.append(self.token_at(text, at))
            at = found[-1].end

    def token_at(self, text: str, at: int) -> Token:
        """The token that begins at this place."""
        here = self.pattern.match(text, at)
        if here is None:
            return Token("bad", text[at], at, at + 1)
        kind, word = here.lastgroup or "", here[0]
        if kind == "symbol" or kind == "name" and word in self.words:
            kind = word
        elif kind == "number" and is_wide(word):
            kind = "wide"
        return Token(kind, word, at, here.end())

    def marked(self, token: Token) -> str:
        """What stands in the brackets of a mark."""
        found = self.mark.fullmatch(token.text)
        return found["inside"] if found else ""


LEXICON = Lexicon(RESERVED, SYMBOLS)
WITH_QUOTIENTS = Lexicon(RESERVED, SYMBOLS + QUOTIENTS)


def is_wide(digits: str) -> bool:
    digits = digits.lstrip("0")
    return len(digits) > 19 or int(digits or "0") >= WIDE


class Places:
    """Tells lines and columns of places in a text, both from 1."""

    def __init__(self, text: str):
        self.ends = [found.start() for found in re.finditer("\n", text)]

    def line(self, at: int) -> int:
        return bisect_left(self.ends, at) + 1

    def of(self, at: int) -> tuple[int, int]:
        line = self.line(at)
        return line, at - (self.ends[line - 2] if line > 1 else -1)


def offset_of(text: str, line: int, column: int) -> int:
    """The place in this line and column."""
    at = 0
    for _ in range(line - 1):
        at = text.find("\n", at) + 1
    return min(at + column - 1, len(text))
