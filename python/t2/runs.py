"""The run that a certificate determines: at each state its pieces and choices say which step comes next.

Where a node speaks of every path, any step does, and one that can be taken is looked for. Each step is executed on the program itself.
"""
from collections import deque
from dataclasses import dataclass, field

from t2.certificates import Certificate, Node, Piece, at_location
from t2.expressions import is_true
from t2.linear import Case, Row, after, are_met, is_met, row_value
from t2.program import Program
from t2.solving import NotSettled, substituted, whole_point

MOST_RUNS = 8


class NoStep(Exception):
    """The certificate leads where the program does not go."""


@dataclass
class Step:
    case: Case
    draws: list[int]
    # the numbers of the edges that are known to have a step here, where any step would do
    others: list[int] | None = None
    # whether there may be more of them
    is_open: bool = False


@dataclass
class State:
    location: int
    values: tuple[int, ...]


@dataclass
class Run:
    """Steps lie between states. The run ends at its last state, goes on, or is back at the state `back`."""
    name: str
    node: Node
    states: list[State]
    steps: list[Step] = field(default_factory=list)
    ending: str = ""
    back: int | None = None
    # the nodes that say nothing of steps and hold at a state, by its number
    held: dict[int, list[Node]] = field(default_factory=dict)

    @property
    def is_ended(self) -> bool:
        return bool(self.ending) or self.back is not None

    def hold(self, node: Node) -> None:
        self.held.setdefault(len(self.states) - 1, []).append(node)


@dataclass
class Place:
    """A piece of a node, at a state of a run."""
    node: Node
    piece: Piece


def moves(node: Node) -> bool:
    """Whether the node speaks of steps."""
    return node.kind in ("next", "fix", "term", "noterm") or any(moves(child) for child in node.children)


def parts_at(node: Node, piece: Piece) -> list[Node]:
    """The children into which a piece of a conjunction or a fixed point has covers."""
    if node.kind == "and":
        return node.children
    return [node.hold_side] if piece.goes else node.end_sides


def walked(tree: tuple, point) -> tuple:
    """The leaf of a cover or a choice at a point."""
    while tree[0] == "split":
        tree = tree[2] if is_met(tree[1], point) else tree[3]
    return tree


class Walker:
    """Follows a certificate from its initial state; a run has at most `count` states."""

    def __init__(self, program: Program, cases: list[Case], count: int):
        self.program, self.cases, self.count = program, cases, count
        self.leaving: dict[int, list[Case]] = {at: [] for at in range(len(program.labels))}
        for case in cases:
            self.leaving[case.source].append(case)
        self.waiting: deque[tuple[str, State, Place]] = deque()
        self.begun: set[int] = set()
        self.unsettled = False

    def runs(self, certificate: Certificate, values: tuple[int, ...] | None = None) -> list[Run]:
        """The run from the initial state, and those of the other parts that hold at its states."""
        root, values = certificate.root, certificate.values if values is None else values
        number = certificate.piece
        if certificate.start is not None:
            number = self.entered(certificate.start, values)
        self.waiting.append(("", State(0, values), Place(root, self.piece(root.at(0), number))))
        found: list[Run] = []
        while self.waiting and len(found) < MOST_RUNS:
            found.append(self.run(*self.waiting.popleft()))
        return found

    # ---- pieces

    def piece(self, pieces: list[Piece], number: int) -> Piece:
        if not 0 <= number < len(pieces):
            raise NoStep(f"there is no piece {number}")
        return pieces[number]

    def entered(self, cover: tuple, point) -> int:
        """The target into which a cover leads."""
        leaf = walked(cover, point)
        if leaf[0] != "into":
            raise NoStep("the certificate says that no such state is there")
        return leaf[1]

    def inside(self, piece: Piece, at: int, child: Node, state: State) -> Place:
        """The piece of a child in which the state is, by cover `at` of a piece."""
        return Place(child, self.piece(child.at(state.location), self.entered(piece.inside[at], state.values)))

    def check(self, place: Place, state: State) -> None:
        """The state is in the piece, and an atom whose formula is known is true there; so are the parts that hold at the state itself."""
        node, piece = place.node, place.piece
        if piece.location != state.location or not are_met(piece.rows, state.values):
            raise NoStep("the state is not in the piece that the certificate names")
        if node.kind == "atom" and node.formula is not None and not is_true(at_location(node.formula, state.location), state.values, []):
            raise NoStep(f"node {node.number} does not hold there")
        if node.kind == "or" and not moves(node):
            self.check(self.either(place, state), state)
        elif node.kind in ("and", "fix"):
            for at, part in enumerate(parts_at(node, piece)):
                if not moves(part):
                    self.check(self.inside(piece, at, part, state), state)

    # ---- a run

    def run(self, name: str, state: State, place: Place) -> Run:
        run = Run(name, place.node, [state])
        seen: dict[tuple, int] = {}
        while not run.is_ended:
            try:
                place = self.longer(run, place, seen)
            except NoStep as fault:
                raise NoStep(f"state {run.name}{len(run.states) - 1}: {fault}") from None
        return run

    def longer(self, run: Run, place: Place, seen: dict[tuple, int]) -> Place:
        """Adds a step and a state to the run, or says how it ends."""
        state, at = run.states[-1], len(run.states) - 1
        settled = self.settled(run, place)
        if settled is None:
            run.ending = "done"
            return place
        key = (id(settled.node), state.location, state.values)
        if key in seen:
            run.back = seen[key]
            return settled
        seen[key] = at
        taken = self.step(settled, state)
        if taken is None:
            run.ending = "open" if self.unsettled else "stop"
        elif len(run.states) >= self.count:
            run.ending = "more"
        else:
            step, place, new = taken
            run.steps.append(step)
            run.states.append(new)
        return place

    def settled(self, run: Run, place: Place) -> Place | None:
        """Goes from a node to the one of its parts that speaks of the next step, if any does."""
        state = run.states[-1]
        while True:
            self.check(place, state)
            node, piece = place.node, place.piece
            if node.kind == "atom":
                run.hold(node)
                return None
            if node.kind == "or":
                place = self.either(place, state)
            elif node.kind == "and" or node.kind == "fix" and not piece.goes:
                inner = self.each(run, [self.inside(piece, at, part, state) for at, part in enumerate(parts_at(node, piece))])
                if inner is None:
                    return None
                place = inner
            else:
                if node.kind == "fix" and moves(node.hold_side):
                    self.later(run, self.inside(piece, 0, node.hold_side, state))
                return place

    def either(self, place: Place, state: State) -> Place:
        targets = [(child, piece) for child in place.node.children for piece in child.at(state.location)]
        number = self.entered(place.piece.inside[0], state.values)
        if number >= len(targets):
            raise NoStep(f"there is no piece {number}")
        return Place(*targets[number])

    def each(self, run: Run, places: list[Place]) -> Place | None:
        """The first place that speaks of steps; the others of them are followed by runs of their own."""
        moving = [place for place in places if moves(place.node)]
        for place in places:
            if not moves(place.node):
                run.hold(place.node)
        for place in moving[1:]:
            self.later(run, place)
        return moving[0] if moving else None

    def later(self, run: Run, place: Place) -> None:
        if place.node.number not in self.begun:
            self.begun.add(place.node.number)
            self.waiting.append((f"{run.name}{len(run.states) - 1}.", run.states[-1], place))

    # ---- steps

    def step(self, place: Place, state: State) -> tuple[Step, Place, State] | None:
        """The step from a state, and where it leads; none where no step can be taken."""
        node, self.unsettled = place.node, False
        into = node.children[0] if node.kind == "next" else node
        by_choice = node.kind == "noterm" or node.path == "E"
        taken = self.chosen_step(place, into, state) if by_choice else self.any_step(place, into, state)
        if taken is not None and node.falls and taken[1].piece.goes:
            before, now = ranks_at(place, state), ranks_at(taken[1], taken[2])
            if not falls(before, now):
                raise NoStep(f"the ranks do not fall over edge {taken[0].case.edge}, from {before} to {now}")
        return taken

    def chosen_step(self, place: Place, into: Node, state: State) -> tuple[Step, Place, State] | None:
        found = self.chosen(place.piece.choice, state)
        return found if found is None else self.done(*found, into, state)

    def any_step(self, place: Place, into: Node, state: State) -> tuple[Step, Place, State] | None:
        """One of the steps that can be taken: the one that is shown to be there, where the certificate shows that."""
        possible = self.all_possible(state)
        if place.piece.choice is not None:
            case, draws, _ = self.chosen(place.piece.choice, state)
        elif possible:
            case, draws = possible[0]
        else:
            return None
        target = self.entered(place.piece.steps[case.number], state.values + tuple(draws))
        others = sorted({case.edge} | {case.edge for case, _ in possible})
        return self.done(case, draws, target, into, state, others)

    def all_possible(self, state: State) -> list[tuple[Case, list[int]]]:
        """The cases that can be taken, each with some draws."""
        found = ((case, self.possible(case, state)) for case in self.leaving[state.location])
        return [(case, draws) for case, draws in found if draws is not None]

    def possible(self, case: Case, state: State) -> list[int] | None:
        """Draws with which the case can be taken, where some are found."""
        try:
            return whole_point(substituted(case.guards, state.values), case.draws)
        except NotSettled:
            self.unsettled = True
            return None

    def chosen(self, choice: tuple, state: State) -> tuple[Case, list[int], int] | None:
        """The case that a choice names, the numbers that are drawn, and the target; none where it says that there is no step."""
        leaf = walked(choice, state.values)
        if leaf[0] == "empty":
            raise NoStep("the certificate says that no such state is there")
        if leaf[0] == "nostep":
            if self.all_possible(state):
                raise NoStep("the certificate says that no step can be taken, and one can")
            return None
        _, number, target, _, terms, _ = leaf
        return self.cases[number], [drawn(term, divisor, state.values) for term, divisor in terms], target

    def done(
        self, case: Case, draws: list[int], target: int, into: Node, state: State, others: list[int] | None = None
    ) -> tuple[Step, Place, State]:
        """Takes the step on the program itself, and enters the target."""
        edge = self.program.edges[case.edge]
        if case.source != state.location:
            raise NoStep(f"case {case.number} does not leave this location")
        values = edge.execute(state.values, draws[:edge.draws])
        if values is None:
            raise NoStep(f"edge {case.edge} cannot be taken with the numbers of the certificate")
        if values != after(case, state.values, draws):
            raise NoStep(f"edge {case.edge} leads to other values than the certificate says")
        place = Place(into, self.piece(into.at(case.target), target))
        return Step(case, draws[:edge.draws], others, self.unsettled), place, State(case.target, values)


def drawn(term: Row, divisor: int, values: tuple[int, ...]) -> int:
    """The value of a term, or its floor by a divisor."""
    return row_value(term, values) // divisor


def ranks_at(place: Place, state: State) -> list[int]:
    return [row_value(rank, state.values) for rank in place.piece.ranks]


def falls(before: list[int], now: list[int]) -> bool:
    """Whether some rank that was at least 0 falls, and none before it grows."""
    for one, other in zip(before, now):
        if other > one:
            return False
        if other < one and one >= 0:
            return True
    return False
