"""Bounds of variables at places, and comparisons that hold there, to leave out edges that no run can take."""
from __future__ import annotations

from .graph import Edge, Graph, Place
from .linear import Atom, Linear, variable

Bounds = dict[str, tuple[int | None, int | None]]
FACTS = 40
ROUNDS = 4


def term_bounds(term: Linear, bounds: Bounds, without: str | None = None) -> tuple[int | None, int | None]:
    """Numbers between which a term lies; None for no bound."""
    low: int | None = term.constant
    high: int | None = term.constant
    for name, factor in term.terms.items():
        if name == without:
            continue
        least, most = bounds.get(name, (None, None))
        if factor < 0:
            least, most = most, least
        low = None if low is None or least is None else low + factor * least
        high = None if high is None or most is None else high + factor * most
    return low, high


def narrowed(atoms, bounds: Bounds) -> Bounds | None:
    """The bounds under comparisons that hold; None where they can't all hold."""
    bounds = dict(bounds)
    for _ in range(ROUNDS):
        before = dict(bounds)
        for atom in atoms:
            if not narrow_one(atom, bounds):
                return None
        if bounds == before:
            break
    return bounds


def narrow_one(atom: Atom, bounds: Bounds) -> bool:
    """Narrows by one comparison; whether it can hold."""
    low, high = term_bounds(atom.term, bounds)
    if atom.relation == "!=":
        return not (low == high == 0) and narrow_unequal(atom, bounds)
    if low is not None and low > 0:
        return False
    if atom.relation == "==" and high is not None and high < 0:
        return False
    for name, factor in atom.term.terms.items():
        if not narrow_name(atom.term, name, factor, bounds, atom.relation == "=="):
            return False
    return True


def narrow_unequal(atom: Atom, bounds: Bounds) -> bool:
    """`x != c` at an end of the bounds of x."""
    if len(atom.term.terms) != 1:
        return True
    (name, factor), = atom.term.terms.items()
    if atom.term.constant % factor:
        return True
    value = -atom.term.constant // factor
    least, most = bounds.get(name, (None, None))
    bounds[name] = (least + 1 if least == value else least, most - 1 if most == value else most)
    least, most = bounds[name]
    return least is None or most is None or least <= most


def narrow_name(term: Linear, name: str, factor: int, bounds: Bounds, both: bool) -> bool:
    """The bound of one name by those of the others: `factor * name <= -rest`."""
    low, high = term_bounds(term, bounds, name)
    least, most = bounds.get(name, (None, None))
    sides = [(low, factor > 0)] if low is not None else []
    sides += [(high, factor < 0)] if both and high is not None else []
    for rest, above in sides:
        if above:
            limit = -rest // factor
            most = limit if most is None else min(most, limit)
        else:
            limit = -(rest // factor)
            least = limit if least is None else max(least, limit)
    bounds[name] = (least, most)
    return least is None or most is None or least <= most



class Analysis:
    """Bounds and facts at each place, from the start on. `ranges` are bounds that hold everywhere, by types."""

    def __init__(self, graph: Graph, ranges: Bounds, presume: bool):
        self.graph, self.ranges, self.presume = graph, ranges, presume
        self.out: dict[Place, list[Edge]] = {}
        for edge in graph.edges:
            self.out.setdefault(edge.source, []).append(edge)
        self.thresholds = sorted({side for edge in graph.edges for atom in edge.guards for side in edge_constants(atom)})
        self.bounds: dict[Place, Bounds] = {graph.start: dict(ranges)}
        self.facts: dict[Place, dict[Atom, None]] = {graph.start: {}}
        self.visits: dict[Place, int] = {}
        self.run()

    def atoms(self, edge: Edge) -> list[Atom]:
        known = list(self.facts.get(edge.source, {}))
        return known + list(edge.guards) + (list(edge.presumed) if self.presume else [])

    def before(self, edge: Edge) -> Bounds | None:
        """The bounds under which the edge is taken, None where it can't be."""
        if edge.source not in self.bounds:
            return None
        return narrowed(self.atoms(edge), self.bounds[edge.source])

    def feasible(self, edge: Edge) -> bool:
        return self.before(edge) is not None

    def without_implied(self, edge: Edge) -> Edge:
        """The edge without guards that hold whenever the others do, by what is known of its source."""
        known, bounds = list(self.facts.get(edge.source, {})), self.bounds[edge.source]
        guards = list(edge.guards)
        for atom in edge.guards:
            rest = [one for one in guards if one is not atom]
            if not any(name.startswith("#") for name in atom.names()) and narrowed(known + rest + [atom.denied()], bounds) is None:
                guards = rest
        return edge if len(guards) == len(edge.guards) else edge.changed(guards=tuple(guards))

    def run(self) -> None:
        waiting = [self.graph.start]
        while waiting:
            place = waiting.pop(0)
            for edge in self.out.get(place, []):
                bounds = self.before(edge)
                if bounds is not None and self.arrive(edge, bounds) and edge.target not in waiting:
                    waiting.append(edge.target)

    def after(self, edge: Edge, bounds: Bounds) -> Bounds:
        result = {name: side for name, side in bounds.items() if not name.startswith("#") and name not in edge.updates}
        for name, term in edge.updates.items():
            low, high = term_bounds(term, bounds)
            least, most = self.ranges.get(name, (None, None))
            low = least if low is None or (least is not None and low < least) else low
            high = most if high is None or (most is not None and high > most) else high
            result[name] = (low, high)
        return result

    def arrive(self, edge: Edge, bounds: Bounds) -> bool:
        """Joins what holds after the edge with what is known of its target; whether that changed."""
        new, facts = self.after(edge, bounds), self.facts_after(edge)
        place = edge.target
        if place not in self.bounds:
            self.bounds[place], self.facts[place] = new, facts
            return True
        self.visits[place] = self.visits.get(place, 0) + 1
        old, known = self.bounds[place], self.facts[place]
        joined = {name: self.widened(old[name], new[name], self.visits[place] > 6) for name in old if name in new}
        kept = {atom: None for atom in known if atom in facts}
        if joined == old and len(kept) == len(known):
            return False
        self.bounds[place], self.facts[place] = joined, kept
        return True

    def widened(self, old, new, widen: bool) -> tuple[int | None, int | None]:
        low = None if old[0] is None or new[0] is None else min(old[0], new[0])
        high = None if old[1] is None or new[1] is None else max(old[1], new[1])
        if widen and low != old[0] and low is not None:
            low = next((side for side in reversed(self.thresholds) if side <= low), None)
        if widen and high != old[1] and high is not None:
            high = next((side for side in self.thresholds if side >= high), None)
        return low, high

    def facts_after(self, edge: Edge) -> dict[Atom, None]:
        """Comparisons that hold after the edge: those before it that it keeps or moves, and what it assigns."""
        moved, gone = {}, set()
        for name, term in edge.updates.items():
            if term - variable(name) == Linear({}, (term - variable(name)).constant):
                moved[name] = variable(name) - (term - variable(name)).constant
            else:
                gone.add(name)
        facts: dict[Atom, None] = {}
        for atom in self.atoms(edge):
            names = atom.names()
            if not names & gone and not any(name.startswith("#") for name in names) and len(names) > 1:
                facts[atom.put(moved)] = None
        for name in gone:
            term = edge.updates[name]
            if term.terms and not term.names() & set(edge.updates) and not any(one.startswith("#") for one in term.terms):
                facts[Atom("==", variable(name) - term)] = None
        return dict(list(facts.items())[:FACTS])


def edge_constants(atom: Atom) -> list[int]:
    """Numbers at which a widened bound may rest."""
    if len(atom.term.terms) != 1:
        return [0]
    (_, factor), = atom.term.terms.items()
    value = -atom.term.constant // factor
    return [value - 1, value, value + 1]


def pruned(graph: Graph, ranges: Bounds, presume: bool = False) -> None:
    """Leaves out the edges that can't be taken."""
    analysis = Analysis(graph, ranges, presume)
    graph.edges = [analysis.without_implied(edge) for edge in graph.edges if analysis.feasible(edge)]
    graph.prune()
