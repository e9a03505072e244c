"""The program that `--finitely` is about: each edge has two copies side by side. The first is taken where a formula of one state holds after its
commands, the second where it does not."""
from dataclasses import replace

from t2.program import Edge, Program
from t2.texts import Assume
from t2.tokens import Fault
from t2.trees import Tree

OF_RUNS = ("term", "next", "fix")


def holds_at(formula: Tree, label: str) -> Tree:
    """The formula at a location: a test of a location is true or false there."""
    if formula.kind in OF_RUNS:
        raise Fault("the formula speaks of runs, and not of one state")
    if formula.kind == "at":
        return Tree("truth", "true" if formula.word == label else "false")
    return replace(formula, parts=tuple(holds_at(part, label) for part in formula.parts))


def assumed(formula: Tree, label: str, is_first: bool) -> Tree:
    """What a copy assumes after the commands of an edge to the location."""
    there = holds_at(formula, label)
    return there if is_first else Tree("not", "", (there,))


def copy_of(edge: Edge, condition: Tree) -> Edge:
    return replace(edge, commands=[*edge.commands, Assume(condition)])


def doubled(program: Program, formula: Tree) -> Program:
    """The program with the copies, for a formula over its names and labels."""
    edges = [copy_of(edge, assumed(formula, program.labels[edge.target], is_first)) for edge in program.edges for is_first in (True, False)]
    return replace(program, edges=edges)
