"""Formulas: their normal form and negation, the numbers of their parts, and their spelling.

In a normal form `not` stands only before `at` and `term`, and no operator is F or G.
"""
from dataclasses import replace

from t2.expressions import Numbering, formed_text
from t2.tokens import Fault, Places
from t2.trees import OPPOSITE, FormulaParser, Tree, listed

OTHER_PATH = {"A": "E", "E": "A"}
OTHER_SHAPE = {"X": "X", "U": "R", "R": "U", "W": "M", "M": "W"}
TRUE, FALSE = Tree("truth", "true"), Tree("truth", "false")
TERM = Tree("term")


def parsed(text: str) -> Tree:
    """The formula of a text, with names and labels as they stand."""
    parser = FormulaParser(text)
    found = parser.whole()
    if found is None or (wide := next((it for it in parser.tokens if it.kind == "wide"), None)):
        token = parser.seen if found is None else wide
        said = f"{listed(parser.wanted)} is wanted, and {f'`{token.text}`' if token.text else 'the end'} stands there"
        raise Fault(said if found is None else "a number of 2^62 or more", *Places(text).of(token.start))
    return found


class InProgram(Numbering):
    """Numbers the names and the labels of a formula as those of a program."""

    def __init__(self, text: str, program):
        super().__init__(text)
        self.text, self.program = text, program

    def name(self, node: Tree) -> int:
        if node.word not in self.program.variables:
            raise self.fault(f"the program has no variable `{node.word}`", node)
        return self.program.variables.index(node.word)

    def location(self, node: Tree) -> int:
        if node.word not in self.program.labels:
            raise Fault(f"the program has no label `{node.word}`", *self.places.of(self.text.find(node.word, node.start + len("at"))))
        return self.program.labels.index(node.word)


def read_formula(text: str, program) -> Tree:
    """A formula over the names and the labels of a program."""
    return InProgram(text, program).numbered(parsed(text))


def never(label: str, number: int = 0) -> Tree:
    """No run comes to the location with this label."""
    return Tree("fix", "AW", (Tree("not", "", (Tree("at", label, (), number),)), FALSE))


def never_at(label: str, program) -> Tree:
    """No run comes to the location of the program with this label."""
    if label not in program.labels:
        raise Fault(f"the program has no label `{label}`")
    return never(label, program.labels.index(label))


# ---- the normal form

def normal(node: Tree, denied: bool = False) -> Tree:
    """The normal form, or that of the negation."""
    kind, parts = node.kind, node.parts
    if kind == "not":
        return normal(parts[0], not denied)
    if kind == "truth":
        return replace(node, word="true" if (node.word == "true") != denied else "false")
    if kind == "compare":
        return replace(node, word=OPPOSITE[node.word]) if denied else node
    if kind in ("at", "term"):
        return Tree("not", "", (node,), 0, node.start, node.end) if denied else node
    if kind in ("and", "or"):
        return replace(node, kind=kind if not denied else "or" if kind == "and" else "and", parts=tuple(normal(part, denied) for part in parts))
    path, letter = node.word
    if letter in "FG":
        parts, letter = ((TRUE, parts[0]), "U") if letter == "F" else ((parts[0], FALSE), "W")
    if denied:
        path, letter = OTHER_PATH[path], OTHER_SHAPE[letter]
    return replace(node, word=path + letter, parts=tuple(normal(part, denied) for part in parts))


def negation(node: Tree) -> Tree:
    """The normal form of what is denied."""
    return normal(node, True)


def arguments(node: Tree) -> tuple[Tree, ...]:
    """The parts of a normal form that have nodes and numbers of their own."""
    return node.parts if node.kind in ("and", "or", "next", "fix") else ()


def subformulas(node: Tree) -> list[Tree]:
    """The parts of a normal form by their numbers: each comes before its arguments, and these come in order."""
    return [node] + [part for argument in arguments(node) for part in subformulas(argument)]


def node_kind(node: Tree) -> str:
    """The kind of the node of a certificate that a normal form has."""
    if node.kind == "not":
        return "noterm" if node.parts[0] == TERM else "atom"
    return node.kind if node.kind in ("and", "or", "next", "fix", "term") else "atom"


def operators(node: Tree) -> set[str]:
    """The operators of a normal form; `term` is one of every path, and its negation one of some path."""
    if node.kind == "not":
        return {"E term"} if node.parts[0] == TERM else set()
    own = {"A term"} if node.kind == "term" else {node.word} if node.kind in ("next", "fix") else set()
    return own.union(*(operators(part) for part in arguments(node)))


# ---- texts

def formula_text(node: Tree) -> str:
    """The spelling of a formula; F and G are written where the tree has their form."""
    if node.kind == "at":
        return f"at({node.word})"
    if node.kind == "term":
        return "term"
    if node.kind not in ("next", "fix"):
        return formed_text(node, formula_text)
    word, parts = node.word, node.parts
    if word[1] == "U" and parts[0] == TRUE:
        word, parts = f"{word[0]}F", parts[1:]
    elif word[1] == "W" and parts[1] == FALSE:
        word, parts = f"{word[0]}G", parts[:1]
    return f"[{word}]" + "".join(f"({formula_text(part)})" for part in parts)
