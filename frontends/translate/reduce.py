"""Makes a graph smaller without a change of its runs: dead values, draws that nothing reads, constants in places."""
from __future__ import annotations

from .graph import Call, Edge, Graph, Place
from .intervals import Bounds, narrowed
from .linear import Atom, Linear, number, variable


def needed(graph: Graph, observed: set[str]) -> dict[Place, set[str]]:
    """The variables at each place on which a guard, or an observed variable, may depend later on."""
    result: dict[Place, set[str]] = {place: set(observed) for place in graph.places}
    changed = True
    while changed:
        changed = False
        for edge in reversed(graph.edges):
            wanted = set().union(*(atom.names() for atom in edge.guards)) if edge.guards else set()
            for name in result[edge.target]:
                wanted |= edge.updates[name].names() if name in edge.updates else {name}
            wanted = {name for name in wanted if not name.startswith("#")} - result[edge.source]
            if wanted:
                result[edge.source] |= wanted
                changed = True
    return result


def without_dead(graph: Graph, observed: set[str]) -> None:
    """Leaves out updates of variables on which nothing depends afterwards."""
    live = needed(graph, observed)
    graph.edges = [edge.changed(updates={name: term for name, term in edge.updates.items() if name in live[edge.target]}) for edge in graph.edges]


def without_idle(graph: Graph, observed: set[str]) -> None:
    """Leaves out each variable that only decides between edges which are the same without it."""
    names = sorted(reads_anywhere(graph) - observed)
    for name in names:
        edges = without_variable(graph, name)
        if edges is not None:
            graph.edges = edges


def without_variable(graph: Graph, name: str) -> list[Edge] | None:
    """The edges without a variable, where each group of them that is then one covers all of its values; None else."""
    groups: dict[tuple, list[tuple[Edge, frozenset[Atom]]]] = {}
    for edge in graph.edges:
        if any(name in term.terms for other, term in edge.updates.items() if other != name):
            return None
        about = frozenset(atom for atom in edge.guards if name in atom.names())
        if any(one.startswith("#") for atom in about for one in atom.names()):
            return None
        numbered = {draw.name: variable(f"#{at}") for at, draw in enumerate(edge.draws)}
        guards = frozenset(atom.put(numbered) for atom in edge.guards if atom not in about)
        updates = tuple(sorted((other, term.put(numbered).key) for other, term in edge.updates.items() if other != name))
        groups.setdefault((edge.source.number, edge.target.number, guards, updates, calls_key(edge, numbered)), []).append((edge, about))
    edges = []
    for group in groups.values():
        if not covers([about for _, about in group]):
            return None
        edge = min((edge for edge, _ in group), key=lambda edge: len(edge.draws))
        edges.append(edge.changed(guards=tuple(atom for atom in edge.guards if name not in atom.names()), lost=any(one.lost for one, _ in group),
                                  updates={other: term for other, term in edge.updates.items() if other != name}))
    return edges


def calls_key(edge: Edge, numbered: dict) -> tuple:
    return tuple(call.value.put(numbered).key for call in edge.calls)


def covers(choices: list[frozenset[Atom]]) -> bool:
    """Whether one of the sets of comparisons holds for each value, as putting together opposites shows."""
    left = set(choices)
    while frozenset() not in left:
        pair = next(((one, other) for one in left for other in left if len(one - other) == len(other - one) == 1
                     and next(iter(one - other)).denied() == next(iter(other - one))), None)
        if pair is None:
            return False
        left -= set(pair)
        left.add(pair[0] & pair[1])
    return True


def without_dead_locals(graph: Graph) -> None:
    """The same for draws of undefined locals alone, and for what is made up within statements: for the plain text."""
    live = needed(graph, set())
    reading = reads_anywhere(graph)
    edges = []
    for edge in graph.edges:
        own = {draw.name for draw in edge.draws if draw.kind.startswith("local:")}
        updates = {}
        for name, term in edge.updates.items():
            undefined = len(term.terms) == 1 and next(iter(term.terms)) in own
            if not (undefined and name not in live[edge.target]) and not (name.startswith("~") and name not in live[edge.target] and name not in reading):
                updates[name] = term
        edges.append(edge.changed(updates=updates))
    graph.edges = edges


def reads_anywhere(graph: Graph) -> set[str]:
    return set().union(*(edge.reads() for edge in graph.edges)) if graph.edges else set()


def without_dead_draws(graph: Graph, ranges: Bounds, drop_calls: bool) -> None:
    """Leaves out draws that nothing reads, and those that guards alone read, where the guards can be met whatever the variables are."""
    edges = []
    for edge in graph.edges:
        edge = without_twins(edge)
        for draw in edge.draws:
            if edge is not None and (drop_calls or not draw.kind.startswith("nondet:")):
                edge = without_draw(edge, draw, ranges)
        edge = without_closed(edge, ranges) if edge is not None and drop_calls else edge
        if edge is not None:
            edges.append(edge)
    graph.edges = edges


def without_draw(edge: Edge, draw, ranges: Bounds) -> Edge | None:
    """The edge without one of its draws; the edge itself where it is needed, None where no value of it passes the guards."""
    if any(draw.name in term.terms for term in edge.updates.values()):
        return fixed_draw(edge, draw, ranges)
    about = [atom for atom in edge.guards if draw.name in atom.names()]
    if draw.pinned and only_pins(about, draw.name):
        return dropped(edge, draw, about, [], number(0), None)
    symbols = {name: side for name, side in ranges.items() if side[0] is not None and side[0] == side[1]}
    others = set().union(*(atom.names() for atom in about)) - {draw.name} if about else set()
    if others <= set(symbols):
        bounds = narrowed(about, symbols)
        if bounds is None:
            return None
        if not meets_all(about, draw.name, bounds, symbols):
            return edge
        return dropped(edge, draw, about, [], number(witness(about, draw.name, bounds, symbols)), bounds.get(draw.name, (None, None)))
    return eliminated(edge, draw, about, set(symbols))


def without_twins(edge: Edge) -> Edge:
    """Two pinned draws that are the quotient of one term by one number are one draw."""
    seen: dict[frozenset, str] = {}
    put: dict[str, Linear] = {}
    for draw in edge.draws:
        if draw.pinned:
            pins = [atom for atom in edge.guards if draw.name in atom.names()]
            pins = [atom for atom in pins if any(only_pins([atom, other], draw.name) for other in pins if other is not atom)]
            key = frozenset(atom.put({**put, draw.name: variable("#")}) for atom in pins)
            if len(key) == 2 and key in seen:
                put[draw.name] = variable(seen[key])
            seen.setdefault(key, draw.name)
    if not put:
        return edge
    return edge.changed(guards=tuple(dict.fromkeys(atom.put(put) for atom in edge.guards)), updates={name: term.put(put) for name, term in edge.updates.items()},
                        draws=tuple(draw for draw in edge.draws if draw.name not in put), presumed=tuple(atom.put(put) for atom in edge.presumed),
                        calls=tuple(Call(call.line, call.type, call.value.put(put)) for call in edge.calls))


def without_closed(edge: Edge, ranges: Bounds) -> Edge | None:
    """Leaves out a group of draws that guards relate to one another alone: one of them is free, and the others follow from it."""
    symbols = {name: side for name, side in ranges.items() if side[0] is not None and side[0] == side[1]}
    for free in [draw for draw in edge.draws if not draw.pinned]:
        group, about = related(edge, free.name)
        names = set().union(*(atom.names() for atom in about)) if about else set()
        pinned = {draw.name for draw in edge.draws if draw.pinned}
        if len(group) < 2 or not group - {free.name} <= pinned or not names <= group | set(symbols):
            continue
        if any(group & term.names() for term in edge.updates.values()):
            continue
        least, most = narrowed(about, symbols).get(free.name, (None, None)) if narrowed(about, symbols) is not None else (1, 0)
        values, complete = tried_values(least, most)
        found = next((one for value in values if (one := solved(about, free.name, value, symbols)) is not None), None)
        if found is None and complete:
            return None
        if found is not None:
            put = {name: number(value) for name, value in found.items()}
            choice = not free.own and not free.pinned
            edge = edge.changed(guards=tuple(atom for atom in edge.guards if atom not in about), lost=edge.lost or choice,
                                draws=tuple(draw for draw in edge.draws if draw.name not in group),
                                calls=tuple(Call(call.line, call.type, call.value.put(put)) for call in edge.calls))
    return edge


def related(edge: Edge, name: str) -> tuple[set[str], list[Atom]]:
    """The draws that comparisons tie to a draw, and these comparisons."""
    group, about = {name}, []
    while True:
        more = [atom for atom in edge.guards if atom.names() & group and atom not in about]
        if not more:
            return group, about
        about += more
        group |= {one for atom in more for one in atom.names() if one.startswith("#")}


def tried_values(least: int | None, most: int | None) -> tuple[list[int], bool]:
    """Values to try for a draw, those near to 0 first, and whether they are all there are."""
    if least is not None and most is not None and most - least <= 65535:
        return sorted(range(least, most + 1), key=abs), True
    near = [value for step in range(300) for value in (step, -step)]
    powers = [sign * 2 ** one for one in range(8, 32) for sign in (1, -1)]
    ends = [end for end in (least, most) if end is not None]
    return [value for value in near + powers + ends if (least is None or value >= least) and (most is None or value <= most)], False


def solved(about: list[Atom], name: str, value: int, symbols: Bounds) -> dict[str, int] | None:
    """The values of all draws of a group where one has a value, if the comparisons then leave one value for each."""
    bounds = narrowed(about, {**symbols, name: (value, value)})
    if bounds is None:
        return None
    names = set().union(*(atom.names() for atom in about))
    values = {one: bounds.get(one, (None, None))[0] for one in names}
    if any(one is None for one in values.values()) or not all(atom.holds(values) for atom in about):
        return None
    return {one: values[one] for one in names if one.startswith("#")}


def only_pins(about: list[Atom], name: str) -> bool:
    """Whether the comparisons only say that the draw is the quotient of some term, which there always is."""
    if len(about) != 2 or any(atom.relation != "<=" for atom in about):
        return False
    total = about[0].term + about[1].term
    return total.is_constant() and total.constant == 1 - abs(about[0].term.terms[name])


def witness(about: list[Atom], name: str, bounds: Bounds, symbols: Bounds) -> int | None:
    """The value nearest to 0 that meets all the comparisons."""
    least, most = bounds.get(name, (None, None))
    middle = 0
    middle = least if least is not None and least > middle else middle
    middle = most if most is not None and most < middle else middle
    values = {symbol: side[0] for symbol, side in symbols.items()}
    for step in range(64):
        for value in (middle + step, middle - step):
            if all(atom.holds({**values, name: value}) for atom in about):
                return value
    return None


def meets_all(about: list[Atom], name: str, bounds: Bounds, symbols: Bounds) -> bool:
    return witness(about, name, bounds, symbols) is not None


def dropped(edge: Edge, draw, about: list[Atom], instead: list[Atom], value: Linear, bounds) -> Edge:
    """The edge without the draw, whose value, where C calls for one, may be the one that is given."""
    put = {draw.name: value}
    calls = tuple(Call(call.line, call.type, call.value.put(put)) for call in edge.calls)
    presumed = tuple(atom for atom in edge.presumed if draw.name not in atom.names())
    narrower = bool(instead) or any(atom.relation == "!=" for atom in about) or bounds != (draw.least, draw.most)
    lost = edge.lost or (narrower and not draw.own and not draw.pinned and bool(about))
    kept = [atom for atom in edge.guards if atom not in about] + [atom for atom in instead if atom not in edge.guards]
    return edge.changed(guards=tuple(kept), draws=tuple(one for one in edge.draws if one is not draw), calls=calls, presumed=presumed, lost=lost)


def fixed_draw(edge: Edge, draw, ranges: Bounds) -> Edge | None:
    """Where the guards leave the draw one number, that number stands in its place."""
    about = [atom for atom in edge.guards if draw.name in atom.names()]
    bounds = narrowed(about, ranges)
    if bounds is None:
        return None
    least, most = bounds.get(draw.name, (None, None))
    if least is None or least != most:
        return edge
    value = number(least)
    changed = dropped(edge, draw, about, [one for one in (atom.put({draw.name: value}) for atom in about) if one.decided() is not True], value, (None, None))
    if any(atom.decided() is False for atom in changed.guards):
        return None
    return changed.changed(updates={name: term.put({draw.name: value}) for name, term in edge.updates.items()}, lost=edge.lost)


def eliminated(edge: Edge, draw, about: list[Atom], symbols: set[str]) -> Edge:
    """Where the draw is bounded by terms, each lower bound is at most each upper one: exact for factors of 1."""
    if draw.pinned or any(atom.relation != "<=" or abs(atom.term.terms[draw.name]) != 1 for atom in about):
        return edge
    low = [atom.term + variable(draw.name) for atom in about if atom.term.terms[draw.name] == -1]
    high = [variable(draw.name) - atom.term for atom in about if atom.term.terms[draw.name] == 1]
    far_low, far_high = [term for term in low if term.names() - symbols], [term for term in high if term.names() - symbols]
    if len(far_low) > 1 or len(far_high) > 1 or any(name.startswith("#") for term in low + high for name in term.terms):
        return edge
    instead = [Atom("<=", one - other) for one in low for other in high]
    instead = [atom for atom in instead if atom.decided() is not True and atom.names() - symbols]
    chosen = far_low[0] if far_low else far_high[0]
    return dropped(edge, draw, about, instead, chosen, None)


# Constants in places.

VALUES = 8
PLACES = 160


def splittable(graph: Graph, done: set[str], masked: set[str]) -> list[str]:
    """Variables that are only ever assigned numbers, and are in some guard. Those of which bits are set may depend on themselves."""
    reading = set().union(*(atom.names() for edge in graph.edges for atom in edge.guards)) if graph.edges else set()
    candidates: dict[str, set[int]] = {}
    other = set(done)
    for edge in graph.edges:
        pinned = {draw.name for draw in edge.draws if draw.pinned}
        for name, term in edge.updates.items():
            if term.is_constant():
                candidates.setdefault(name, set()).add(term.constant)
            elif not ((term.names() & pinned or name in masked) and term.names() <= pinned | {name}):
                other.add(name)
    return sorted((name for name, values in candidates.items() if name not in other and name in reading and len(values) <= VALUES),
                  key=lambda name: len(candidates[name]))


def split(graph: Graph, name: str, tag, keep: bool) -> Graph | None:
    """Copies each place for each value of a variable, which may be kept as one; None where some value is not known where it is read, or there
    are too many."""
    copies: dict[tuple[Place, int | None], Place] = {(graph.start, None): graph.start}
    places, edges, waiting = [graph.start], [], [(graph.start, None)]
    while waiting:
        place, value = waiting.pop()
        for edge in graph.out_of(place):
            made = put_constant(edge, name, value)
            if made is False:
                return None
            if made is None:
                continue
            after = made.updates.pop(name, None)
            if after is not None and not after.is_constant():
                return None
            if keep and after is not None:
                made.updates[name] = after
            new = after.constant if after is not None else value
            key = (edge.target, None if is_stop(edge.target) else new)
            if key not in copies:
                copies[key] = copy_of(edge.target, name, new, tag)
                places.append(copies[key])
                waiting.append(key)
            edges.append(made.changed(source=copies[place, value], target=copies[key]))
            if len(places) > PLACES or len({one for _, one in copies}) > VALUES + 1:
                return None
    return Graph(graph.start, places, edges)


def is_stop(place: Place) -> bool:
    return place.kind not in ("statement", "inner", "start")


def copy_of(place: Place, name: str, value: int | None, tag) -> Place:
    if is_stop(place) or value is None:
        return place
    return Place(place.kind, place.line, place.function, place.label, head=place.head, kept=place.kept, split=place.split + (tag(name, value),))


def put_constant(edge: Edge, name: str, value: int | None):
    """The edge where the variable has a value; None where its guards are false then, False where the value is not known but read."""
    read = any(name in atom.names() for atom in edge.guards) or any(name in term.terms for term in edge.updates.values())
    if not read:
        return edge.changed(updates=dict(edge.updates))
    if value is None:
        return False
    put = {name: number(value)}
    guards = [atom.put(put) for atom in edge.guards]
    if any(atom.decided() is False for atom in guards):
        return None
    edge = edge.changed(guards=tuple(atom for atom in guards if atom.decided() is None), updates={one: term.put(put) for one, term in edge.updates.items()},
                        calls=tuple(Call(call.line, call.type, call.value.put(put)) for call in edge.calls),
                        presumed=tuple(atom.put(put) for atom in edge.presumed))
    for draw in edge.draws:
        edge = without_draw(edge, draw, {}) if edge is not None and draw.pinned else edge
    return edge if edge is None else edge.changed(updates=dict(edge.updates))
