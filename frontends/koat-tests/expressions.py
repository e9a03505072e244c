"""Expressions of rules and of program texts as Python has them, for the two interpreters of the tests. Nothing of the translator is used."""
from __future__ import annotations

import re
from types import CodeType

SIGNS = {"&&": " and ", "/\\": " and ", "||": " or ", "\\/": " or ", "<>": "!=", "=<": "<=", "=": "==", "!": " not ", "^": "**",
         "true": " True ", "TRUE": " True ", "false": " False ", "FALSE": " False "}


def pieces(names: list[str]) -> re.Pattern[str]:
    """The names, longest first, and all else that an expression has."""
    some = "|".join(re.escape(name) for name in sorted(names, key=len, reverse=True)) or "(?!)"
    signs = r"<=|>=|==|!=|<>|=<|&&|\|\||/\\|\\/"
    return re.compile(rf"nondet\s*(?:\(\s*\))?|(?:true|TRUE|false|FALSE)\b|(?P<name>(?:{some})(?![\w.$']))|\d+|{signs}|\s+|.", re.S)


def compiled(text: str, names: list[str]) -> CodeType:
    """Code over `v`, which has the values of the names, and `draw`, which gives the next number."""
    parts = []
    for match in pieces(names).finditer(text.strip()):
        word = match.group()
        if word.startswith("nondet"):
            parts.append("draw()")
        elif match.group("name"):
            parts.append(f"v[{word!r}]")
        else:
            parts.append(SIGNS.get(word, word))
    return compile("(" + "".join(parts) + ")", text, "eval")


def draws_in(text: str) -> int:
    return len(re.findall(r"\bnondet\b", text))
