"""Sums and conditions whose names have numbers: their values and their spelling."""
import operator
from dataclasses import replace

from t2.tokens import Fault, Places
from t2.trees import RELATIONS, Tree, has_name

COMPARED = dict(zip(RELATIONS, (operator.lt, operator.le, operator.gt, operator.ge, operator.eq, operator.ne)))


class Numbering:
    """Gives the names of a text their numbers. What a name or a draw stands for is said by those who know the text."""

    def __init__(self, text: str):
        self.places = Places(text)

    def fault(self, said: str, node: Tree) -> Fault:
        return Fault(said, *self.places.of(node.start))

    def name(self, node: Tree) -> int:
        raise self.fault("no name can stand here", node)

    def draw(self, node: Tree) -> int:
        raise self.fault("no draw can stand here", node)

    def location(self, node: Tree) -> int:
        raise self.fault("no location can stand here", node)

    def numbered(self, node: Tree) -> Tree:
        """The tree with numbers, where it is one of the language."""
        if node.kind == "name":
            return replace(node, kind="variable", number=self.name(node))
        if node.kind == "draw":
            return replace(node, number=self.draw(node))
        if node.kind == "at":
            return replace(node, number=self.location(node))
        if node.kind == "product":
            self.check_linear(node)
        if node.kind in ("quotient", "remainder") and (node.parts[1].kind != "number" or node.parts[1].number == 0):
            raise self.fault("a number of at least 1 is wanted", node.parts[1])
        return replace(node, parts=tuple(self.numbered(part) for part in node.parts)) if node.parts else node

    def check_linear(self, product: Tree) -> None:
        """One factor at most has a name."""
        factors = [part for part in product.parts if has_name(part)]
        if len(factors) > 1:
            first = next(it for it in factors[1] if it.kind in ("name", "draw"))
            raise self.fault("a product of two names is not linear", first)


# ---- values

def value(node: Tree, values, draws) -> int:
    """The value of a sum."""
    if node.kind == "number":
        return node.number
    if node.kind in ("variable", "draw"):
        return (values if node.kind == "variable" else draws)[node.number]
    parts = [value(part, values, draws) for part in node.parts]
    if node.kind == "minus":
        return -parts[0]
    if node.kind in ("quotient", "remainder"):
        return parts[0] // parts[1] if node.kind == "quotient" else parts[0] % parts[1]
    if node.kind == "sum":
        return sum(parts)
    result = 1
    for part in parts:
        result *= part
    return result


def is_true(node: Tree, values, draws) -> bool:
    """The truth of a condition."""
    if node.kind == "truth":
        return node.word == "true"
    if node.kind == "compare":
        return COMPARED[node.word](value(node.parts[0], values, draws), value(node.parts[1], values, draws))
    if node.kind == "not":
        return not is_true(node.parts[0], values, draws)
    return (all if node.kind == "and" else any)(is_true(part, values, draws) for part in node.parts)


# ---- texts

def in_brackets(node: Tree, kinds: tuple[str, ...], text) -> str:
    """The text of a part, in brackets where it is of one of the kinds."""
    return f"({text(node)})" if node.kind in kinds else text(node)


def sum_text(node: Tree) -> str:
    """A sum as it is written."""
    kind, parts = node.kind, node.parts
    if kind == "number":
        return str(node.number)
    if kind == "draw":
        return "nondet()"
    if kind == "minus":
        return "-" + factor_text(parts[0])
    if kind == "product":
        return " * ".join(map(factor_text, parts))
    if kind in ("quotient", "remainder"):
        return f"{in_brackets(parts[0], ('sum',), sum_text)} {'/' if kind == 'quotient' else '%'} {factor_text(parts[1])}"
    if kind == "sum":
        return sum_text(parts[0]) + "".join(map(added_text, parts[1:]))
    return node.word


def added_text(part: Tree) -> str:
    if part.kind == "minus":
        return " - " + in_brackets(part.parts[0], ("sum", "minus"), sum_text)
    return " + " + in_brackets(part, ("sum",), sum_text)


def factor_text(node: Tree) -> str:
    return in_brackets(node, ("sum", "product", "quotient", "remainder"), sum_text)


def condition_text(node: Tree) -> str:
    """A condition as it is written; in a formula the other kinds have texts of their own."""
    return formed_text(node, condition_text)


def formed_text(node: Tree, text) -> str:
    """The text of a truth value, a comparison, or what `!`, `&&` or `||` make of parts, whose texts are given."""
    if node.kind == "truth":
        return node.word
    if node.kind == "compare":
        return f"{sum_text(node.parts[0])} {node.word} {sum_text(node.parts[1])}"
    if node.kind == "not":
        return "!" + in_brackets(node.parts[0], ("compare", "and", "or"), text)
    wrapped = ("and", "or") if node.kind == "and" else ("or",)
    return (" && " if node.kind == "and" else " || ").join(in_brackets(part, wrapped, text) for part in node.parts)
