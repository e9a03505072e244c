"""From rules to edges. All right sides of a rule read the old values, and the assignments of an edge come one after another."""
from __future__ import annotations

from .conditions import EQUAL, Comparison, Condition, both, conjuncts, linear, names, replace
from .guards import is_free, without_bounds, without_definitions
from .polynomials import Polynomial, named
from .programs import DRAW, Assign, Assume, Command, Edge, Names, Program
from .systems import Rule, System


def lower(system: System) -> Program:
    return Lowering(system).program()


def position(index: int) -> str:
    return f"@{index}"


class Lowering:
    """Argument number i of each function symbol is one variable, which has the name that the start's left side gives it."""

    def __init__(self, system: System):
        self.system = system
        self.labels = Names(labels=True)
        self.variables = Names()
        self.result = Program("", warnings=list(system.warnings))
        self.name_positions()

    def name_positions(self) -> None:
        first = [rule for rule in self.system.rules if rule.left.symbol in self.system.starts]
        taken: set[str] = set()
        widest = max((len(term.arguments) for rule in self.system.rules for term in (rule.left, rule.right) if term), default=0)
        for index in range(widest):
            wishes = [bare for rule in first + self.system.rules if (bare := bare_name(rule, index)) and bare not in taken]
            wish = wishes[0] if wishes else f"arg.{index + 1}"
            taken.add(wish)
            given = self.variables.name(position(index), wish)
            if given != wish:
                self.result.notes.append(f"The variable {given} is {wish} of the file.")

    def label(self, symbol: str) -> str:
        known = symbol in self.labels.given
        given = self.labels.name(symbol, symbol)
        if given != symbol and not known:
            self.result.notes.append(f"The location {given} is {symbol} of the file.")
        return given

    def program(self) -> Program:
        starts = self.system.starts
        for symbol in starts + [term.symbol for rule in self.system.rules for term in (rule.left, rule.right) if term]:
            self.label(symbol)
        self.result.start = self.label(starts[0]) if len(starts) == 1 else self.labels.name(("start",), "start")
        if len(starts) > 1:
            self.result.edges += [Edge(0, self.result.start, self.label(one), []) for one in starts]
        for rule in self.system.rules:
            target = self.label(rule.right.symbol) if rule.right else self.labels.name(("end",), "end")
            self.result.edges.append(Edge(rule.line, self.label(rule.left.symbol), target, self.commands(rule)))
        return self.result

    def commands(self, rule: Rule) -> list[Command]:
        guard, values = bound(rule)
        guard, values = without_definitions(guard, values)
        guard = linear(guard, lambda one: self.result.lost.append((one.line, one.words, "guard")))
        values = self.drawn_where_not_linear(rule, values)
        guard, values = with_few_draws(guard, values)
        return [self.named(command) for command in Moves(guard, values).commands()]

    def drawn_where_not_linear(self, rule: Rule, values: list[Polynomial]) -> list[Polynomial]:
        kept = []
        for index, value in enumerate(values):
            if not value.is_linear():
                self.result.lost.append((rule.line, rule.right.words[index], "value"))
                value = named(f"{DRAW}{index}")
            kept.append(value)
        return kept

    def named(self, command: Command) -> Command:
        """The command with the names of the text."""
        def final(name: str) -> str:
            if name.startswith(DRAW):
                return name
            return self.variables.name(name, name[1:])
        if isinstance(command, Assume):
            return Assume(replace(command.condition, {name: named(final(name)) for name in names(command.condition)}))
        return Assign(final(command.name), command.value.replace({name: named(final(name)) for name in command.value.names()}))


def bare_name(rule: Rule, index: int) -> str | None:
    arguments = rule.left.arguments
    if index >= len(arguments) or not any(arguments[index].is_name(name) for name in arguments[index].names()):
        return None
    return next(iter(arguments[index].names()))


def bound(rule: Rule) -> tuple[Condition, list[Polynomial]]:
    """The guard and the new values over positions and free names. What else stands on the left than names becomes an equation."""
    values: dict[str, Polynomial] = {}
    equations: list[int] = []
    for index in range(len(rule.left.arguments)):
        bare = bare_name(rule, index)
        if bare is not None and bare not in values:
            values[bare] = named(position(index))
        else:
            equations.append(index)
    parts: list[Condition] = []
    for index in equations:
        difference = named(position(index)) - rule.left.arguments[index].replace(values)
        parts.append(Comparison(difference, EQUAL, rule.line, rule.left.words[index]))
    guard = both(parts + [replace(rule.guard, values)])
    return guard, [argument.replace(values) for argument in rule.right.arguments] if rule.right else []


def with_few_draws(guard: Condition, values: list[Polynomial]) -> tuple[Condition, list[Polynomial]]:
    """The same moves, with draws where they stand and without the free names that can be taken out."""
    before = None
    while before != (guard, values):
        before = guard, values
        values = drawn_in_place(guard, values)
        guard = without_bounds(guard, {name for value in values for name in value.names()})
    return guard, values


def drawn_in_place(guard: Condition, values: list[Polynomial]) -> list[Polynomial]:
    """The values, where a free name that stands in one of them and nowhere else is a draw."""
    values = list(values)
    for name in sorted({name for value in values for name in value.names() if is_free(name)} - names(guard)):
        places = [index for index, value in enumerate(values) if name in value.names()]
        if len(places) == 1:
            draw, value = named(f"{DRAW}{name}"), values[places[0]]
            values[places[0]] = draw if abs(value.factor(name)) == 1 else value.replace({name: draw})
    return values


class Moves:
    """The commands for a guard and the new values of the positions from 0 on."""

    def __init__(self, guard: Condition, values: list[Polynomial]):
        self.early = [part for part in conjuncts(guard) if not any(map(is_free, names(part)))]
        self.late = [part for part in conjuncts(guard) if part not in self.early]
        self.values = values
        self.draws: list[str] = []

    def commands(self) -> list[Command]:
        self.draw_into_positions()
        self.draw_into_others()
        commands: list[Command] = [Assume(part) for part in self.early]
        commands += [Assign(name, named(DRAW)) for name in self.draws]
        commands += [Assume(part) for part in self.late]
        return commands + in_order({position(index): value for index, value in enumerate(self.values)})

    def free_names(self) -> list[str]:
        found = [name for value in self.values for name in sorted(value.names())]
        found += [name for part in self.late for name in sorted(names(part))]
        return list(filter(is_free, dict.fromkeys(found)))

    def draw_into_positions(self) -> None:
        """A free name that is a new value is drawn into its variable, where nothing that follows reads the old value."""
        for name in self.free_names():
            for index, value in enumerate(self.values):
                read = [set(names(part)) for part in self.late] + [one.names() for at, one in enumerate(self.values) if at != index]
                if value.is_name(name) and not any(position(index) in some for some in read):
                    self.rename(name, position(index))
                    self.draws.append(position(index))
                    break

    def draw_into_others(self) -> None:
        """Each other free name is drawn into a variable of its own, which all edges share."""
        for count, name in enumerate(self.free_names(), 1):
            self.rename(name, f"@draw.{count}")
            self.draws.append(f"@draw.{count}")

    def rename(self, name: str, new: str) -> None:
        self.late = [replace(part, {name: named(new)}) for part in self.late]
        self.values = [value.replace({name: named(new)}) for value in self.values]


def in_order(values: dict[str, Polynomial]) -> list[Command]:
    """Assignments one after another that give each name its value, all of the old ones. Where each value that is left is still read, the
    first is kept in a further variable."""
    left = {name: value for name, value in values.items() if not value.is_name(name)}
    commands: list[Command] = []
    copies = 0
    while left:
        ready = [name for name in left if not any(name in value.names() for other, value in left.items() if other != name)]
        if ready:
            commands.append(Assign(ready[0], left.pop(ready[0])))
            continue
        copies += 1
        name = next(iter(left))
        commands.append(Assign(f"@old.{copies}", named(name)))
        for other in left:
            if other != name:
                left[other] = left[other].replace({name: named(f"@old.{copies}")})
    return commands
