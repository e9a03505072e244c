"""The linear cases of a program in its own words, numbered as docs/certificates.md numbers them, and the subformulas of a formula."""
from math import prod

from t2.alternatives import alternatives, count, together
from t2.copies import assumed
from t2.formulas import normal, parsed, subformulas
from t2.program import Edge, Program, read_program
from t2.tokens import Fault
from t2.trees import Tree

MOST_GUARDS = 6


def ways(edge: Edge) -> int:
    """How many cases an edge has."""
    return prod(map(count, edge.assumptions()))


class Named:
    """A text and its program, which has nothing where the text is none."""

    def __init__(self, text: str):
        self.text = text
        try:
            self.program = read_program(text)
        except Fault:
            self.program = Program()

    def edge(self, edge: Edge) -> str:
        return f"the edge from {self.program.labels[edge.source]} to {self.program.labels[edge.target]}"

    def compared(self, relation: str, node: Tree) -> list[list[str]]:
        """A comparison in the words of the text."""
        left, right = (written(self.text, it) for it in node.parts)
        return [[f"{left} {sign} {right}"] for sign in ("<>" if relation == "!=" else (relation,))]

    def case(self, number: int) -> str:
        """The case with this number: its edge, where it begins, and what its guards compare."""
        for edge in self.program.edges:
            if number < ways(edge):
                return self.way(edge, number)
            number -= ways(edge)
        return ""

    def way(self, edge: Edge, number: int) -> str:
        """One of the cases of an edge."""
        guards = together([alternatives(it, self.compared) for it in edge.assumptions()])[number]
        where = ", where " + " and ".join(guards[:MOST_GUARDS]) + (" .." if len(guards) > MOST_GUARDS else "") if guards else ""
        return f"{self.edge(edge)} in line {edge.line}{where}"

    def copied_case(self, number: int, formula: str) -> str:
        """The case with this number of the program with two copies of each edge, which is told apart by the formula."""
        try:
            asked = parsed(formula)
            for edge in self.program.edges:
                for is_first in (True, False):
                    each = count(assumed(asked, self.program.labels[edge.target], is_first))
                    if number < ways(edge) * each:
                        return f"{self.way(edge, number // each)}; {'the formula holds after it' if is_first else 'the formula does not hold after it'}"
                    number -= ways(edge) * each
        except Fault:
            pass
        return ""


def written(text: str, node: Tree) -> str:
    """A part as it stands in the text, in one line."""
    return " ".join(text[node.start : node.end].split())


def subformula(formula: str, number: int) -> str:
    """The text of a part of a formula by its number; there is none of a part that is not written, as the `true` of [EF]."""
    try:
        parts = subformulas(normal(parsed(formula)))
    except Fault:
        return ""
    return written(formula, parts[number]) if number < len(parts) else ""
