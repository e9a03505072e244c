"""Sums and conditions, by one grammar for both: which of them brackets hold is seen when they are closed."""
from __future__ import annotations

from typing import Callable, Union

from .conditions import FALSE, TRUE, Condition, both, compare, either, negate
from .faults import Refused
from .polynomials import Polynomial, closed, named, number, power
from .tokens import Token, Tokens, whole_number

RELATIONS = {"<": "<", "<=": "<=", "=<": "<=", ">": ">", ">=": ">=", "=": "==", "==": "==", "!=": "!=", "<>": "!="}
AND, OR = ("&&", "/\\"), ("||", "\\/")
DEEPEST = 63
Value = Union[Polynomial, Condition]


class Expressions:
    """Reads sums and conditions from the tokens. What a name stands for is answered by a function. A product of names is remembered, even
    where the polynomial does not have it."""

    def __init__(self, tokens: Tokens, name: Callable[[Token], Value] = lambda token: named(token.text)):
        self.tokens = tokens
        self.name = name
        self.depth = 0
        self.has_product = False

    def condition(self) -> Condition:
        return self.as_condition(self.disjunction())

    def sum(self) -> Polynomial:
        return self.as_sum(self.additions())

    def as_condition(self, value: Value) -> Condition:
        if isinstance(value, Polynomial):
            self.tokens.fail("a comparison is expected")
        return value

    def as_sum(self, value: Value) -> Polynomial:
        if not isinstance(value, Polynomial):
            self.tokens.fail("a number is expected and not a condition")
        return value

    def disjunction(self) -> Value:
        return self.joined(OR, self.conjunction, either)

    def conjunction(self) -> Value:
        return self.joined(AND, self.comparison, both)

    def joined(self, words: tuple[str, ...], part: Callable[[], Value], join: Callable[[list[Condition]], Condition]) -> Value:
        first = part()
        if not self.tokens.sees(*words):
            return first
        parts = [self.as_condition(first)]
        while self.tokens.takes(*words):
            parts.append(self.as_condition(part()))
        return join(parts)

    def comparison(self) -> Value:
        start, line = self.tokens.place, self.tokens.line()
        left = self.additions()
        if not self.tokens.sees(*RELATIONS):
            return left
        relation = RELATIONS[self.tokens.take().text]
        right = self.as_sum(self.additions())
        if self.tokens.sees(*RELATIONS):
            self.tokens.fail("one comparison ends here")
        return compare(self.as_sum(left), relation, right, line, self.tokens.words_from(start))

    def additions(self) -> Value:
        value = self.products()
        while self.tokens.sees("+", "-"):
            sign = self.tokens.take().text
            right = self.as_sum(self.products())
            value = self.as_sum(value) + (right if sign == "+" else -right)
        return value

    def products(self) -> Value:
        start = self.tokens.place
        value = self.powers()
        while self.tokens.sees("*", "/", "%"):
            sign, middle = self.tokens.take().text, self.tokens.place
            right = self.as_sum(self.powers())
            self.has_product |= sign != "*" or self.tokens.has_name(start, middle) and self.tokens.has_name(middle, self.tokens.place)
            value = self.as_sum(value) * right if sign == "*" else closed()
        return value

    def powers(self) -> Value:
        value = self.factor()
        if self.tokens.takes("^", "**"):
            if self.tokens.next().kind != "number":
                self.tokens.fail("a number is expected as an exponent")
            value = power(self.as_sum(value), whole_number(self.tokens.take()))
        return value

    def factor(self) -> Value:
        tokens = self.tokens
        if tokens.next().kind == "number":
            return number(whole_number(tokens.take()))
        if tokens.next().kind == "name":
            return self.name(tokens.take())
        if tokens.takes("true", "TRUE"):
            return TRUE
        if tokens.takes("false", "FALSE"):
            return FALSE
        if not tokens.sees("(", "-", "!"):
            tokens.fail("a number or a condition is expected")
        return self.deeper(tokens.take().text)

    def deeper(self, opening: str) -> Value:
        """What follows a bracket or a sign."""
        self.depth += 1
        if self.depth > DEEPEST:
            raise Refused(self.tokens.line(), f"brackets and signs nest more than {DEEPEST} deep")
        if opening == "(":
            value = self.disjunction()
            self.tokens.want(")")
        elif opening == "-":
            value = -self.as_sum(self.powers())
        else:
            value = negate(self.as_condition(self.factor()))
        self.depth -= 1
        return value
