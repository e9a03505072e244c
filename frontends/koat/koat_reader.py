"""Reads integer transition systems in the form of the tool KoAT, which the termination competition uses."""
from __future__ import annotations

import re

from .conditions import TRUE, Condition
from .expressions import Expressions
from .faults import Refused
from .systems import Rule, System, Term
from .tokens import Token, Tokens, tokens_of

SYMBOLS = r":\|:|->|-\{|\}>|/\\|\\/|&&|\|\||<=|>=|=<|==|!=|<>|\*\*|[-+*/%^<>=!(){}\[\],]"
NAME = r"[A-Za-z_$][\w'.$]*"
GOALS = ("COMPLEXITY", "TERMINATION")


def read_koat(text: str) -> System:
    tokens = Tokens(tokens_of(without_comments(text), pattern_for(declared(text))))
    sections: dict[str, int] = {}
    system = System([], [])
    while tokens.next().kind != "end":
        opening = tokens.want("(")
        word = tokens.take()
        if word.text in sections:
            raise Refused(word.line, f"there is a second section {word.text}")
        sections[word.text] = word.line
        section(tokens, word, system)
        if not tokens.takes(")"):
            tokens.fail(f"`)` is expected, which closes the section {word.text} of line {opening.line}")
    for wanted in ("STARTTERM", "RULES"):
        if wanted not in sections:
            raise Refused(tokens.line(), f"the section {wanted} is missing")
    check_arities(system)
    return system


def section(tokens: Tokens, word: Token, system: System) -> None:
    if word.text == "GOAL":
        goal = tokens.take()
        if goal.text not in GOALS:
            raise Refused(goal.line, f"the goal {goal.text} is none of {' and '.join(GOALS)}")
    elif word.text == "STARTTERM":
        system.starts = start_symbols(tokens)
    elif word.text == "VAR":
        while tokens.next().kind == "name":
            tokens.take()
    elif word.text == "RULES":
        while not tokens.sees(")"):
            system.rules.append(rule(tokens))
    else:
        raise Refused(word.line, f"the section {word.text} is not known")


def without_comments(text: str) -> str:
    """The text with blanks for comments: from `#` to the end of the line, and `(COMMENT ..)`."""
    text = re.sub(r"#[^\n]*", "", text)
    place = text.find("(COMMENT")
    while place >= 0:
        end, depth = place, 0
        while end < len(text):
            depth += {"(": 1, ")": -1}.get(text[end], 0)
            end += 1
            if depth == 0:
                break
        text = text[:place] + "\n" * text.count("\n", place, end) + text[end:]
        place = text.find("(COMMENT")
    return text


def declared(text: str) -> list[str]:
    """The names that the file declares and that have characters which other names have not."""
    match = re.search(r"\(\s*VAR\b([^()]*)\)", without_comments(text))
    words = match.group(1).split() if match else []
    return sorted({word for word in words if not re.fullmatch(NAME, word) and not word.isdigit()}, key=len, reverse=True)


def pattern_for(unusual: list[str]) -> re.Pattern[str]:
    names = "|".join([re.escape(word) + r"(?![\w'.$^])" for word in unusual] + [NAME])
    return re.compile(rf"(?P<skip>\s+)|(?P<word>(?:true|TRUE|false|FALSE)\b)|(?P<name>{names})|(?P<number>\d+)|(?P<symbol>{SYMBOLS})")


def start_symbols(tokens: Tokens) -> list[str]:
    tokens.want("(")
    word = tokens.take()
    if word.text != "FUNCTIONSYMBOLS":
        raise Refused(word.line, f"the start {word.text} is not FUNCTIONSYMBOLS")
    names: list[str] = []
    while tokens.next().kind == "name":
        names.append(tokens.take().text)
    if not names:
        tokens.fail("a function symbol is expected")
    tokens.want(")")
    return list(dict.fromkeys(names))


def rule(tokens: Tokens) -> Rule:
    line = tokens.line()
    left = term(tokens)
    if tokens.takes("-{"):
        skip_weight(tokens)
    else:
        tokens.want("->")
    right = right_side(tokens)
    return Rule(line, left, right, guard(tokens))


def skip_weight(tokens: Tokens) -> None:
    """What a step costs, which no question here asks."""
    line = tokens.line()
    while not tokens.takes("}>"):
        if tokens.next().kind == "end":
            raise Refused(line, "the weight that begins here has no `}>`")
        tokens.take()


def right_side(tokens: Tokens) -> Term | None:
    word = tokens.next()
    match = re.fullmatch(r"Com_(\d{1,9})", word.text)
    if match is None:
        return term(tokens)
    tokens.take()
    if int(match.group(1)) > 1:
        raise Refused(word.line, f"{word.text}: a rule with more than one right side, as of recursive calls, is not translated")
    tokens.want("(")
    only = term(tokens) if int(match.group(1)) == 1 else None
    tokens.want(")")
    return only


def term(tokens: Tokens) -> Term:
    symbol = tokens.next()
    if symbol.kind != "name":
        tokens.fail("a function symbol is expected")
    tokens.take()
    arguments, words = [], []
    if tokens.takes("("):
        while not tokens.takes(")"):
            if arguments:
                tokens.want(",")
            place = tokens.place
            arguments.append(Expressions(tokens).sum())
            words.append(tokens.words_from(place))
    return Term(symbol.text, tuple(arguments), tuple(words))


def guard(tokens: Tokens) -> Condition:
    if tokens.takes("["):
        condition = TRUE if tokens.sees("]") else Expressions(tokens).condition()
        tokens.want("]")
        return condition
    if not tokens.takes(":|:"):
        return TRUE
    empty = tokens.sees(")") or tokens.next().kind == "name" and tokens.next(1).text == "("
    return TRUE if empty else Expressions(tokens).condition()


def check_arities(system: System) -> None:
    """Each function symbol has one number of arguments."""
    arities: dict[str, int] = {}
    for each in system.rules:
        for one in (each.left, each.right):
            if one and arities.setdefault(one.symbol, len(one.arguments)) != len(one.arguments):
                raise Refused(each.line, f"{one.symbol} has {len(one.arguments)} arguments here and {arities[one.symbol]} before")
    for start in system.starts:
        if start not in arities:
            system.warnings.append((0, f"no rule begins at the start {start}"))
