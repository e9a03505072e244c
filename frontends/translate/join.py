"""Puts places together: edges in with edges out, where every state of the place has a step."""
from __future__ import annotations

from heapq import heapify, heappop, heappush

from .graph import Edge, Graph, Place, composed, simplified
from .linear import variable

DRAWS, WIDE = 64, 2 ** 61


class Joiner:
    """Takes out places of a graph one at a time. Only places may be taken out whose edges out cover every state, as all but the stops do."""

    def __init__(self, graph: Graph):
        self.graph = graph
        self.into: dict[Place, list[Edge]] = {place: [] for place in graph.places}
        self.out: dict[Place, list[Edge]] = {place: [] for place in graph.places}
        for edge in graph.edges:
            self.link(edge)

    def link(self, edge: Edge) -> None:
        self.out[edge.source].append(edge)
        self.into[edge.target].append(edge)

    def size(self, place: Place) -> int:
        return len(self.into[place]) * len(self.out[place])

    def loops(self, place: Place) -> bool:
        return any(edge.target is place for edge in self.out[place])

    def may_go(self, place: Place, limit: int) -> bool:
        """Whether taking it out makes no more edges than the limit, or none more than there are."""
        if self.loops(place) or not self.out[place] or not self.into[place]:
            return False
        if self.size(place) > limit and self.size(place) > len(self.into[place]) + len(self.out[place]):
            return False
        draws = max(len(edge.draws) for edge in self.into[place]) + max(len(edge.draws) for edge in self.out[place])
        return draws <= DRAWS

    def take_out(self, place: Place) -> bool:
        """Joins its edges; False where a number would be too wide, and then it stays."""
        entering, leaving = self.into[place], self.out[place]
        joined = [both for first in entering for second in leaving if (both := composed(first, second)) is not None]
        if any(is_wide(edge) for edge in joined):
            return False
        del self.into[place], self.out[place]
        for edge in entering:
            self.out[edge.source].remove(edge)
        for edge in leaving:
            self.into[edge.target].remove(edge)
        for edge in joined:
            self.link(edge)
        return True

    def run(self, candidates: list[Place], limit: int) -> None:
        """Takes out what may go, the cheapest first, and heads of loops last."""
        left = {place for place in candidates if place in self.out}
        waiting = [(place.head, self.size(place), place.number, place) for place in left]
        heapify(waiting)
        while waiting:
            head, size, _, place = heappop(waiting)
            if place not in left or size != self.size(place) or not self.may_go(place, limit):
                continue
            around = {edge.source for edge in self.into[place]} | {edge.target for edge in self.out[place]}
            left.remove(place)
            if not self.take_out(place):
                continue
            for other in around & left:
                heappush(waiting, (other.head, self.size(other), other.number, other))
        self.graph.places = [place for place in self.graph.places if place in self.out]
        self.graph.edges = [edge for place in self.graph.places for edge in self.out[place]]
        self.graph.prune()


def is_wide(edge: Edge) -> bool:
    terms = [*edge.updates.values(), *(atom.term for atom in edge.guards)]
    return any(abs(one) >= WIDE for term in terms for one in (term.constant, *term.terms.values()))


def merged(graph: Graph) -> None:
    """Two edges that differ in one comparison, which the one has and the other denies, are one edge without it."""
    changed = True
    while changed:
        changed = False
        groups: dict[tuple, list[Edge]] = {}
        for edge in graph.edges:
            numbered = {draw.name: variable(f"#{at}") for at, draw in enumerate(edge.draws)}
            key = (edge.source.number, edge.target.number, tuple(sorted((name, term.put(numbered).key) for name, term in edge.updates.items())))
            groups.setdefault(key, []).append(edge)
        for edges in groups.values():
            pair = next(((one, other) for at, one in enumerate(edges) for other in edges[at + 1:] if mergeable(one, other)), None)
            if pair is not None:
                graph.edges[graph.edges.index(pair[0])] = united(*pair)
                graph.edges.remove(pair[1])
                changed = True


def mergeable(one: Edge, other: Edge) -> bool:
    if shape(one) != shape(other) or [draw.kind for draw in one.draws] != [draw.kind for draw in other.draws]:
        return False
    first, second = set(one.guards), set(renamed(other, one).guards)
    only, rest = first - second, second - first
    if not only or not rest:
        return True
    return calls(one) == calls(other) and len(only) == len(rest) == 1 and next(iter(only)).denied() == next(iter(rest))


def shape(edge: Edge) -> list[tuple]:
    """The calls of an edge without the values that the text has no draw for."""
    return [(call.line, call.type, value if any(name.startswith("#") for name, _ in value[0]) else None)
            for call, value in zip(edge.calls, calls(edge))]


def calls(edge: Edge) -> list[tuple]:
    numbered = {draw.name: variable(f"#{at}") for at, draw in enumerate(edge.draws)}
    return [call.value.put(numbered).key for call in edge.calls]


def renamed(other: Edge, one: Edge) -> Edge:
    """The one edge with the other's names of draws."""
    put = {draw.name: variable(name.name) for draw, name in zip(other.draws, one.draws)}
    return other if not put else other.changed(guards=tuple(atom.put(put) for atom in other.guards))


def united(one: Edge, other: Edge) -> Edge:
    """An edge that is taken where either is. Its calls are those of the edge with fewer guards, so that they fit wherever it is taken."""
    if len(other.guards) < len(one.guards):
        one, other = other, one
    second = set(renamed(other, one).guards)
    common = [atom for atom in one.guards if atom in second]
    return one.changed(guards=simplified(common) or (), lost=one.lost or other.lost)
