"""From a C file to the graph that is written: what is asked decides which places stay."""
from __future__ import annotations

from dataclasses import dataclass

from .graph import Edge, Graph, Place, new_draw, simplified
from .intervals import Analysis, Bounds, pruned
from .join import Joiner, merged
from .linear import Atom, at_most, number, variable
from .reduce import split, splittable, without_dead, without_dead_draws, without_dead_locals, without_idle
from .scope import SYMBOLS
from .source import parse
from .translator import Translator, translated

INNER, JOINED, SPLIT = 64, 8, 12
LEAST = {"INT_MAX": 2 ** 31 - 1, "INT_MIN": -2 ** 31, "UINT_MAX": 2 ** 32 - 1, "LONG_MAX": 2 ** 63 - 1, "LONG_MIN": -2 ** 63, "ULONG_MAX": 2 ** 64 - 1}
WRITTEN = 2 ** 39


@dataclass
class Options:
    source: str
    entry: str = "main"
    checked: bool = False
    model: str = "lp64"
    symbols: bool = True
    plain: bool = False
    strict: bool = False


@dataclass
class Wanted:
    """What a question needs of the text: places that stay, variables that keep their values, places that become one stop."""
    keep: object = None
    observed: frozenset[str] = frozenset()
    stop_at: object = None
    first: bool = False
    every: bool = False
    line: int | None = None
    universal: bool = True


@dataclass
class Result:
    graph: Graph
    translator: Translator
    presumes: list[dict]
    lost: list[dict]
    symbols: bool


def built(options: Options, wanted: Wanted, tree=None) -> Result:
    """The graph for what is wanted; a syntax tree that was read before may be given."""
    tree = tree or parse(options.source, options.model)
    one = translated(tree, options.source, options.entry, options.model, options.strict, options.checked, options.symbols, wanted.line)
    graph = one.graph
    graph.prune()
    ranges = ranges_of(one, options.checked)
    whole_statements(graph, one)
    pruned(graph, ranges)
    presumes = settle_overflow(graph, ranges, options.checked)
    merged(graph)
    mark(graph, wanted)
    if options.plain:
        without_dead_locals(graph)
        without_dead_draws(graph, ranges, False)
    else:
        smaller(graph, one, ranges, wanted)
    finish(graph)
    symbols = any(name in edge.reads() for edge in graph.edges for name in SYMBOLS)
    if not options.plain and wanted.universal:
        without_ranges(graph)
    lost = lost_rows(graph, one)
    add_symbols(graph, one)
    return Result(graph, one, presumes, lost, symbols)


def ranges_of(one: Translator, checked: bool) -> Bounds:
    """Bounds by types: those of symbols, of unsigned and narrow types, and in checked mode of all."""
    ranges: Bounds = {name: (value, value) for name, value in LEAST.items()}
    for slot in one.slots.values():
        if checked or not slot.type.signed or slot.type.width < 32:
            ranges[slot.name] = (slot.type.least, slot.type.most)
    return ranges


def whole_statements(graph: Graph, one: Translator) -> None:
    """Joins what lies within a statement; what is left after is a place like those of statements."""
    Joiner(graph).run([place for place in graph.places if place.is_inner()], INNER)
    observed = {slot.name for slot in one.slots.values()}
    without_dead(graph, observed)
    heads(graph)


def heads(graph: Graph) -> None:
    """Marks the places to which an edge leads back."""
    out: dict[Place, list[Place]] = {}
    for edge in graph.edges:
        out.setdefault(edge.source, []).append(edge.target)
    state = {graph.start: 1}
    path = [(graph.start, iter(out.get(graph.start, [])))]
    while path:
        place, targets = path[-1]
        target = next(targets, None)
        if target is None:
            state[place] = 2
            path.pop()
        elif state.get(target) == 1:
            target.head = True
        elif target not in state:
            state[target] = 1
            path.append((target, iter(out.get(target, []))))


def settle_overflow(graph: Graph, ranges: Bounds, checked: bool) -> list[dict]:
    """What may overflow: in checked mode its edges stay, else they go and are only told of."""
    flagged = [edge for edge in graph.edges if edge.overflow]
    if flagged and not checked:
        typed = Analysis(graph, ranges, True)
        flagged = [edge for edge in flagged if typed.feasible(edge)]
        graph.edges = [edge for edge in graph.edges if not edge.overflow]
        graph.prune()
    rows = sorted({(edge.line or 0, edge.overflow) for edge in flagged})
    return [{"line": line, "what": what} for line, what in rows]


def mark(graph: Graph, wanted: Wanted) -> None:
    """Marks the places that stay, and makes one stop of those that are only asked to be reached."""
    first = {edge.target for edge in graph.edges if edge.source is graph.start}
    for place in graph.places:
        asked = wanted.keep is not None and wanted.keep(place)
        place.kept = asked or wanted.every or place.head or (wanted.first and place in first)
    if wanted.stop_at is not None:
        places = [place for place in graph.places if wanted.stop_at(place)]
        if places:
            one = places[0]
            one.kept = True
            graph.edges = [edge.changed(target=one) if edge.target in places else edge for edge in graph.edges if edge.source not in places]
            graph.prune()


def smaller(graph: Graph, one: Translator, ranges: Bounds, wanted: Wanted) -> None:
    observed = set(wanted.observed)
    tidy(graph, ranges, observed)
    join(graph)
    tidy(graph, ranges, observed)
    done: set[str] = set()
    while len(done) < SPLIT:
        name = next(iter(splittable(graph, done, one.masked)), None)
        if name is None:
            break
        done.add(name)
        copied = split(graph, name, tag_of(one), name in observed)
        if copied is not None:
            graph.places, graph.edges = copied.places, copied.edges
            graph.prune()
            tidy(graph, ranges, observed)
            join(graph)
            tidy(graph, ranges, observed)


def tidy(graph: Graph, ranges: Bounds, observed: set[str]) -> None:
    pruned(graph, ranges)
    without_dead(graph, observed)
    without_dead_draws(graph, ranges, True)
    merged(graph)
    without_idle(graph, observed)
    without_dead(graph, observed)
    without_dead_draws(graph, ranges, True)
    merged(graph)


def join(graph: Graph) -> None:
    Joiner(graph).run([place for place in graph.places if place.kind in ("statement", "inner") and not place.kept], JOINED)


def tag_of(one: Translator):
    """How a place is called for a value: the enum's constant, or the variable and the value."""
    def tag(name: str, value: int) -> str:
        slot = one.slots.get(name)
        known = one.enum_types.get(id(slot.type)) if slot else None
        if known is not None and value in known[1]:
            return known[1][value]
        return f"{slot.c if slot else name}.{value}".replace("-", "minus")
    return tag


def rename_temporaries(graph: Graph) -> None:
    """Gives what is left of values within statements names that a text may have."""
    names = {name for edge in graph.edges for name in [*edge.updates, *edge.reads()] if name.startswith("~")}
    if not names:
        return
    put = {name: variable("value." + name[1:]) for name in names}
    graph.edges = [edge.changed(guards=tuple(atom.put(put) for atom in edge.guards),
                                updates={put[name].names().pop() if name in put else name: term.put(put) for name, term in edge.updates.items()})
                   for edge in graph.edges]


def finish(graph: Graph) -> None:
    """Puts the comparisons of each edge together."""
    rename_temporaries(graph)
    simple = [(edge, simplified(edge.guards, True)) for edge in graph.edges]
    graph.edges = [edge.changed(guards=guards) for edge, guards in simple if guards is not None]
    graph.prune()


def without_ranges(graph: Graph) -> None:
    """Leaves out symbols that only bound draws: what holds of all runs then holds for each of their values."""
    ends: dict[str, list[Atom]] = {name: [] for name in SYMBOLS}
    spoken: set[str] = set()
    for edge in graph.edges:
        spoken |= set().union(*(term.names() for term in edge.updates.values()), set())
        for atom in edge.guards:
            symbols = atom.names() & set(SYMBOLS)
            if len(symbols) == 1 and is_range(atom):
                ends[next(iter(symbols))].append(atom)
            else:
                spoken |= symbols
    gone = {atom for name, atoms in ends.items() if name not in spoken for atom in atoms}
    graph.edges = [edge.changed(guards=tuple(atom for atom in edge.guards if atom not in gone)) for edge in graph.edges]


def is_range(atom: Atom) -> bool:
    """Whether it says only that a draw is at most, or at least, one of the symbols."""
    names = [name for name in atom.term.terms if name not in SYMBOLS]
    return atom.relation == "<=" and len(names) == 1 and names[0].startswith("#") and atom.term.constant == 0 and \
        sorted(atom.term.terms.values()) == [-1, 1]


def lost_rows(graph: Graph, one: Translator) -> list[dict]:
    """What was lost and still is in the text."""
    lines = {draw.line for edge in graph.edges for draw in edge.draws if not draw.own and not draw.pinned}
    rows = [{"line": line, "what": what} for line, what in one.log.drawn]
    if any(edge.lost for edge in graph.edges):
        return rows
    return [row for row in rows if row["line"] in lines]


def add_symbols(graph: Graph, one: Translator) -> None:
    """Sets the symbols that the text speaks of, on each edge from the start."""
    used = [name for name in SYMBOLS if any(name in edge.reads() for edge in graph.edges)]
    if not used:
        return
    edges = []
    for edge in graph.edges:
        edges.append(with_symbols(edge, used) if edge.source is graph.start else edge)
    graph.edges = edges


def with_symbols(edge: Edge, used: list[str]) -> Edge:
    """The edge with a draw for each symbol. Those of 64 bits are only said to be at least 2^39 in size, which makes narrower numbers."""
    draws, put, guards = [], {}, []
    for name in used:
        draw = new_draw(f"bound:{name}", edge.line or 0, False)
        draws.append(draw)
        put[name] = term = variable(draw.name)
        least = max(-WRITTEN, min(WRITTEN, LEAST[name]))
        guards.append(at_most(number(least), term) if least > 0 else at_most(term, number(least)))
    updates = {name: term.put(put) for name, term in edge.updates.items()}
    updates.update({name: term for name, term in put.items()})
    return edge.changed(draws=tuple(draws) + edge.draws, guards=tuple(guards) + tuple(atom.put(put) for atom in edge.guards), updates=updates)

