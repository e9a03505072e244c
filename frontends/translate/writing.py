"""The text of a graph, and the table that goes with it."""
from __future__ import annotations

from t2.limits import CASES, DRAWS, EDGES, LOCATIONS, VARIABLES, WIDE
from t2.writing import edge_text, program_text

from .graph import Draw, Edge, Graph, Place
from .linear import Atom, Linear, variable
from .refusal import Refused
from .scope import Names

LIMITS = {"variables": VARIABLES, "locations": LOCATIONS, "edges": EDGES, "draws on one edge": DRAWS, "cases": CASES}


class Labels:
    """Gives each place its label: a C label or `f_LINE`, with the constants that it was split by, and a number where several are called so."""

    def __init__(self, graph: Graph):
        self.of: dict[Place, str] = {}
        names = Names()
        for place in graph.places:
            if place.kind not in ("statement", "inner"):
                self.of[place] = names.free(place.kind)
        rest = [place for place in graph.places if place not in self.of]
        for place in sorted(rest, key=lambda place: (place.label is None, not place.head, place.number)):
            self.of[place] = self.free(names, ".".join((base_name(place),) + place.split))

    def free(self, names: Names, wanted: str) -> str:
        if wanted not in names.taken:
            return names.free(wanted)
        copy = 2
        while f"{wanted}.{copy}" in names.taken:
            copy += 1
        return names.free(f"{wanted}.{copy}")


STOP_WORDS = {"start", "error", "overflow", "exit", "abort", "assumed"}


def base_name(place: Place) -> str:
    """`f_LINE`, or the C label, with `_` after it where the text has another meaning for the word."""
    if place.label is not None:
        return place.label + "_" if place.label in STOP_WORDS or place.label in Names().taken else place.label
    return f"{place.function or 'file'}_{place.line or 0}"


class EdgeWriter:
    """The commands of one edge: guards over the values before it, draws, guards over them, and updates in an order that keeps each value until it is read."""

    def __init__(self, edge: Edge):
        self.edge = edge
        self.commands: list[str] = []
        self.draws: list[Draw] = []
        self.updates = dict(edge.updates)
        self.holders: dict[str, Linear] = {}
        self.reset: list[str] = []

    def run(self) -> list[str]:
        first = [atom for atom in self.edge.guards if not draws_in(atom.names())]
        second = [atom for atom in self.edge.guards if draws_in(atom.names())]
        self.assume(first)
        self.hold_draws(second)
        self.assume([atom.put(self.holders) for atom in second])
        self.assign()
        self.commands += [f"{name} := 0;" for name in self.reset]
        return self.commands

    def assume(self, atoms: list[Atom]) -> None:
        if atoms:
            self.commands.append(f"assume({' && '.join(atom.text() for atom in atoms)});")

    def hold_draws(self, guards: list[Atom]) -> None:
        """Each draw goes into the variable that becomes it, where its old value is read no more, and else into one that is made up."""
        for draw in self.edge.draws:
            name = self.holder(draw, guards)
            if name is None:
                name = "drawn" if not self.reset else f"drawn.{len(self.reset) + 1}"
                self.reset.append(name)
                self.commands.append(f"{name} := nondet();")
                self.holders[draw.name] = variable(name)
            else:
                shift = self.updates.pop(name) - variable(draw.name)
                self.commands.append(f"{name} := {(variable('nondet()') + shift).text()};")
                self.holders[draw.name] = variable(name) - shift
            self.draws.append(draw)
        self.updates = {name: term.put(self.holders) for name, term in self.updates.items()}

    def holder(self, draw: Draw, guards: list[Atom]) -> str | None:
        for name, term in self.updates.items():
            if (term - variable(draw.name)).is_constant():
                others = [one for other, one in self.updates.items() if other != name]
                if not any(name in one.terms for one in others) and not any(name in atom.names() for atom in guards):
                    return name
        return None

    def assign(self) -> None:
        left = dict(self.updates)
        while left:
            ready = [name for name in left if not any(name in term.terms for other, term in left.items() if other != name)]
            if ready:
                name = ready[0]
                self.commands.append(f"{name} := {left.pop(name).text()};")
            else:
                name = next(iter(left))
                kept = f"kept.{len(self.reset) + 1}"
                self.commands.append(f"{kept} := {name};")
                self.reset.append(kept)
                left = {other: term.put({name: variable(kept)}) if other != name else term for other, term in left.items()}


def draws_in(names: set[str]) -> bool:
    return any(name.startswith("#") for name in names)


class Written:
    """The text of a graph and what the table says of it."""

    def __init__(self, graph: Graph, title: str, asked: list[str]):
        self.graph = graph
        self.labels = Labels(graph)
        self.title = title
        self.edges: list[dict] = []
        self.blocks: list[str] = []
        self.names: dict[str, None] = {}
        for edge in self.ordered():
            self.write(edge)
        present = {place.kind for place in graph.places}
        self.never = [kind for kind in asked if kind not in present]
        self.check()

    def ordered(self) -> list[Edge]:
        """From the start on, place by place as they are come to."""
        out: dict[Place, list[Edge]] = {}
        for edge in self.graph.edges:
            out.setdefault(edge.source, []).append(edge)
        order, waiting, seen = [], [self.graph.start], {self.graph.start}
        while waiting:
            place = waiting.pop(0)
            for edge in out.get(place, []):
                order.append(edge)
                if edge.target not in seen:
                    seen.add(edge.target)
                    waiting.append(edge.target)
        return order

    def write(self, edge: Edge) -> None:
        writer = EdgeWriter(edge)
        commands = writer.run()
        source, target = self.labels.of[edge.source], self.labels.of[edge.target]
        self.blocks.append(edge_text(source, commands, target))
        for name in [*edge.updates, *writer.reset, *sorted(edge.reads())]:
            self.names[name] = None
        numbers = {draw.name: at for at, draw in enumerate(writer.draws)}
        self.edges.append({
            "from": source, "to": target, "line": edge.line,
            "draws": [{"kind": draw.kind, "line": draw.line, "own": draw.own, "pinned": draw.pinned} for draw in writer.draws],
            "calls": [self.call(call, numbers) for call in edge.calls]})

    def call(self, call, numbers: dict[str, int]) -> dict:
        row = {"line": call.line, "type": call.type}
        if call.value.is_constant():
            return {**row, "value": call.value.constant}
        name = next(iter(call.value.terms))
        if call.value == variable(name) and name in numbers:
            return {**row, "draw": numbers[name]}
        return {**row, "term": call.value.text()}

    def check(self) -> None:
        """Refuses what is past the limits of a text."""
        counted = {"variables": len(self.names), "locations": len(self.labels.of) + len(self.never), "edges": len(self.edges),
                   "draws on one edge": max((len(edge["draws"]) for edge in self.edges), default=0),
                   "cases": sum(2 ** sum(atom.relation == "!=" for atom in edge.guards) for edge in self.graph.edges)}
        for what, most in LIMITS.items():
            if counted[what] > most:
                raise Refused(f"a text with {counted[what]} {what}, of at most {most}{self.largest()}")
        for edge in self.graph.edges:
            for term in [*edge.updates.values(), *(atom.term for atom in edge.guards)]:
                if any(abs(one) >= WIDE for one in [term.constant, *term.terms.values()]):
                    raise Refused("a number of 2^62 or more, which no text has", edge.line)

    def largest(self) -> str:
        counts: dict[str, int] = {}
        for place in self.graph.places:
            if place.function:
                counts[place.function] = counts.get(place.function, 0) + 1
        if not counts:
            return ""
        name = max(counts, key=lambda one: counts[one])
        return f" (the function {name} has {counts[name]} of its {len(self.graph.places)} places)"

    def text(self) -> str:
        start = self.labels.of[self.graph.start]
        unreached = [edge_text(kind, ["assume(false);"], kind) for kind in self.never]
        return program_text([self.title], start, self.blocks + unreached)

    def locations(self) -> dict[str, dict]:
        rows = {}
        for place, label in self.labels.of.items():
            kind = "statement" if place.kind == "inner" else place.kind
            stop = kind != "statement"
            rows[label] = {"line": None if stop else place.line, "function": None if stop else place.function, "kind": kind}
        rows.update({kind: {"line": None, "function": None, "kind": kind if kind in STOP_WORDS else "statement"} for kind in self.never})
        return rows
