"""The graph of a program: places, and edges that are guards, draws and updates."""
from __future__ import annotations

from dataclasses import dataclass, field, replace
from itertools import count

from .linear import Atom, Linear, variable

STOPS = ("error", "overflow", "exit", "abort", "assumed")
fresh = count(1)


@dataclass(frozen=True)
class Draw:
    """A value that is left open. `name` is how terms of the edge speak of it."""
    name: str
    kind: str
    line: int
    own: bool
    pinned: bool = False
    least: int | None = None
    most: int | None = None


def new_draw(kind: str, line: int, own: bool, pinned: bool = False, least: int | None = None, most: int | None = None) -> Draw:
    return Draw(f"#{next(fresh)}", kind, line, own, pinned, least, most)


@dataclass(frozen=True)
class Call:
    """A call of `__VERIFIER_nondet_TYPE`, and the value that it answers."""
    line: int
    type: str
    value: Linear


@dataclass(eq=False)
class Place:
    """A place of control. An inner one lies within a statement."""
    kind: str
    line: int | None = None
    function: str | None = None
    label: str | None = None
    number: int = field(default_factory=lambda: next(fresh))
    head: bool = False
    kept: bool = False
    split: tuple[str, ...] = ()

    def is_inner(self) -> bool:
        return self.kind == "inner"


@dataclass(eq=False)
class Edge:
    """A step from one place to another: all guards speak of the values before it and of its draws, and so do the updates."""
    source: Place
    target: Place
    guards: tuple[Atom, ...] = ()
    updates: dict[str, Linear] = field(default_factory=dict)
    draws: tuple[Draw, ...] = ()
    calls: tuple[Call, ...] = ()
    line: int | None = None
    presumed: tuple[Atom, ...] = ()
    overflow: str | None = None
    lost: bool = False

    def changed(self, **what) -> Edge:
        return replace(self, **what)

    def reads(self) -> set[str]:
        """The variables that guards and updates speak of."""
        names = set().union(*(atom.names() for atom in self.guards), *(term.names() for term in self.updates.values()))
        return {name for name in names if not name.startswith("#")}


@dataclass
class Graph:
    start: Place
    places: list[Place] = field(default_factory=list)
    edges: list[Edge] = field(default_factory=list)

    def into(self, place: Place) -> list[Edge]:
        return [edge for edge in self.edges if edge.target is place]

    def out_of(self, place: Place) -> list[Edge]:
        return [edge for edge in self.edges if edge.source is place]

    def prune(self) -> None:
        """Leaves out what no path from the start comes to."""
        after: dict[Place, list[Place]] = {}
        for edge in self.edges:
            after.setdefault(edge.source, []).append(edge.target)
        seen, waiting = {self.start}, [self.start]
        while waiting:
            for place in after.get(waiting.pop(), []):
                if place not in seen:
                    seen.add(place)
                    waiting.append(place)
        self.places = [place for place in self.places if place in seen]
        self.edges = [edge for edge in self.edges if edge.source in seen]


def simplified(guards, draws: bool = False) -> tuple[Atom, ...] | None:
    """The guards without those that always hold and without repeats; None where one never holds or two exclude one another.

    Those that speak of draws are put together only where that is asked for: as long as they stand as they were made, edges can be
    told to be two sides of one comparison."""
    kept: dict[Atom, None] = {}
    for atom in guards:
        decided = atom.decided()
        if decided is False or atom.denied() in kept:
            return None
        if decided is None:
            kept[atom] = None
    left = [atom for atom in kept if not draws and any(name.startswith("#") for name in atom.term.terms)]
    rest = without_weaker([atom for atom in kept if atom not in left])
    return None if rest is None else rest + tuple(left)


def without_weaker(atoms: list[Atom]) -> tuple[Atom, ...] | None:
    """Of bounds of the same term the tightest alone."""
    tightest: dict[tuple, int] = {}
    for atom in atoms:
        if atom.relation == "<=":
            terms = atom.term.key[0]
            tightest[terms] = max(tightest.get(terms, atom.term.constant), atom.term.constant)
    atoms = [atom for atom in atoms if not moved_end(atom, tightest)]
    for terms, constant in tightest.items():
        if negated_key(terms) in tightest and constant + tightest[negated_key(terms)] > 0:
            return None
    equal = {atom.term.key[0]: atom.term.constant for atom in atoms if atom.relation == "=="}
    kept: dict[Atom, None] = {}
    for atom in atoms:
        terms, constant = atom.term.key
        if atom.relation != "<=":
            if terms in equal and atom.relation == "!=" and equal[terms] != constant:
                continue
            kept[atom] = None
            continue
        value = -equal[terms] if terms in equal else equal.get(negated_key(terms))
        if value is not None and value + constant > 0:
            return None
        if value is None:
            kept[Atom("<=", Linear(dict(terms), tightest[terms]))] = None
    return tuple(kept)


def negated_key(terms: tuple) -> tuple:
    return tuple((name, -factor) for name, factor in terms)


def moved_end(atom: Atom, tightest: dict[tuple, int]) -> bool:
    """Whether `!=` only moves a bound of the same term by 1, which is then moved."""
    if atom.relation != "!=":
        return False
    terms, constant = atom.term.key
    for key, value in ((terms, constant), (negated_key(terms), -constant)):
        if tightest.get(key) == value:
            tightest[key] = value + 1
            return True
    return False


def composed(first: Edge, second: Edge) -> Edge | None:
    """The one edge and then the other as one step; None where it can never be taken."""
    renamed = {draw.name: replace(draw, name=f"#{next(fresh)}") for draw in second.draws}
    values = dict(first.updates)
    values.update({old: variable(new.name) for old, new in renamed.items()})
    guards = simplified(list(first.guards) + [atom.put(values) for atom in second.guards])
    if guards is None:
        return None
    updates = dict(first.updates)
    updates.update({name: term.put(values) for name, term in second.updates.items()})
    updates = {name: term for name, term in updates.items() if term != variable(name)}
    calls = first.calls + tuple(Call(call.line, call.type, call.value.put(values)) for call in second.calls)
    presumed = first.presumed + tuple(atom.put(values) for atom in second.presumed)
    return Edge(first.source, second.target, guards, updates, first.draws + tuple(renamed.values()), calls,
                first.line or second.line, tuple(dict.fromkeys(presumed)), first.overflow or second.overflow, first.lost or second.lost)
