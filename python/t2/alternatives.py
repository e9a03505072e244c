"""The lists of comparisons that a condition comes to: it is true where all of one list are. Certificates number them in this order."""
from math import prod

from t2.limits import CASES
from t2.tokens import Fault
from t2.trees import OPPOSITE, Tree


def count(node: Tree, wanted: bool = True) -> int:
    """How many lists a condition comes to, where it is wanted to be true, or false."""
    if node.kind == "truth":
        return int((node.word == "true") == wanted)
    if node.kind == "compare":
        return 2 if relation(node, wanted) == "!=" else 1
    if node.kind == "not":
        return count(node.parts[0], not wanted)
    return (prod if (node.kind == "and") == wanted else sum)(count(part, wanted) for part in node.parts)


def relation(node: Tree, wanted: bool) -> str:
    return node.word if wanted else OPPOSITE[node.word]


def pairs(first: list[list], second: list[list]) -> list[list]:
    """Each list of the first with each of the second; the first varies slowest."""
    if len(first) * len(second) > CASES:
        raise Fault(f"an edge has more than {CASES:,} linear cases")
    return [one + other for one in first for other in second]


def alternatives(node: Tree, lists_of, wanted: bool = True) -> list[list]:
    """The lists of a condition. What a comparison with its relation comes to, one list or two for `!=`, is told by `lists_of`."""
    if node.kind == "truth":
        return [[]] if (node.word == "true") == wanted else []
    if node.kind == "compare":
        return lists_of(relation(node, wanted), node)
    if node.kind == "not":
        return alternatives(node.parts[0], lists_of, not wanted)
    parts = [alternatives(part, lists_of, wanted) for part in node.parts]
    if (node.kind == "or") == wanted:
        return [one for part in parts for one in part]
    return together(parts)


def together(parts: list[list[list]]) -> list[list]:
    """One list of each part, that of the first varying slowest."""
    found: list[list] = [[]]
    for part in parts:
        found = pairs(found, part)
    return found
