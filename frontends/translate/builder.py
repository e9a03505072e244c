"""Emits places and edges, and ranges of types in the way that `--int` and `--bounds` say."""
from __future__ import annotations

from dataclasses import dataclass

from .graph import STOPS, Call, Edge, Graph, Place, new_draw
from .kinds import Types, Whole
from .linear import Atom, Linear, at_most, number, variable
from .refusal import Log, Refused

LARGEST_NUMBER = 2 ** 62 - 1
PERIODS = 3


@dataclass(frozen=True)
class Value:
    """A value of a whole type, and numbers between which it lies."""
    term: Linear
    type: Whole
    least: int
    most: int


class Builder:
    """The graph so far, and the place where what comes next begins."""

    def __init__(self, types: Types, log: Log, checked: bool, symbols: bool):
        self.types, self.log, self.checked, self.symbols = types, log, checked, symbols
        start = Place("start", label="start")
        self.graph = Graph(start, [start])
        self.stops = {}
        for kind in STOPS:
            self.stops[kind] = self.add(Place(kind, label=kind))
        self.here = start
        self.temporaries = 0
        self.masked: set[str] = set()
        self.line: int | None = None

    def add(self, place: Place) -> Place:
        self.graph.places.append(place)
        return place

    def inner(self) -> Place:
        return self.add(Place("inner", self.line, self.function_name()))

    def function_name(self) -> str | None:
        return None

    def emit(self, guards=(), updates=None, draws=(), calls=(), target=None, presumed=(), overflow=None) -> Edge:
        """An edge from here, and then here is its target."""
        target = target or self.inner()
        edge = Edge(self.here, target, tuple(guards), dict(updates or {}), tuple(draws), tuple(calls), self.line, tuple(presumed), overflow)
        self.graph.edges.append(edge)
        self.here = target
        return edge

    def leave(self, target: Place, guards=(), overflow=None) -> None:
        """An edge from here to elsewhere; what comes next still begins here."""
        kept = self.here
        self.emit(guards, target=target, overflow=overflow)
        self.here = kept

    def fork(self, ways: list[tuple[list[Atom], dict[str, Linear]]]) -> None:
        """Edges from here that come together again."""
        source, joined = self.here, self.inner()
        for guards, updates in ways:
            self.here = source
            self.emit(guards, updates, target=joined)

    def stop(self, kind: str, guards=()) -> None:
        self.emit(guards, target=self.stops[kind])
        self.nowhere()

    def nowhere(self) -> None:
        """What comes next is reached by nothing, unless a label stands before it."""
        self.here = self.inner()

    def temporary(self) -> str:
        self.temporaries += 1
        return f"~{self.temporaries}"

    # Bounds of types.

    def bound(self, kind: Whole, most: bool) -> Linear:
        """The largest or least value of a type as a term."""
        value = kind.most if most else kind.least
        symbol = self.symbol(kind, most)
        return variable(symbol) if symbol else number(value)

    def symbol(self, kind: Whole, most: bool) -> str | None:
        if kind.width not in (32, 64) or not (kind.signed or most) or not (self.symbols or kind.width == 64):
            return None
        return f"{'' if kind.signed else 'U'}{'INT' if kind.width == 32 else 'LONG'}_{'MAX' if most else 'MIN'}"

    def constant_value(self, value: int, kind: Whole) -> Value:
        return Value(self.constant_term(value, kind), kind, value, value)

    def constant_term(self, value: int, kind: Whole) -> Linear:
        """A number, or one of the symbols where it is near to an end of its type."""
        for most in (True, False):
            symbol, end = self.symbol(kind, most), kind.most if most else kind.least
            if symbol and abs(end - value) <= (1024 if kind.width == 32 else 2 ** 61):
                return variable(symbol) + (value - end)
        if abs(value) > LARGEST_NUMBER:
            raise Refused(f"the number {value}, since those of a text are below 2^62", self.line)
        return number(value)

    def modulus(self, kind: Whole) -> Linear:
        if kind.width >= 32 and kind.width in (32, 64):
            return self.bound(self.types.wholes["unsigned int"] if kind.width == 32 else self.types.wholes["unsigned long long"], True) + 1
        return number(1 << kind.width)

    # Draws.

    def draw(self, kind: Whole | None, what: str, own: bool, call: str | None = None, least=None, most=None) -> Value:
        """A value of the type's range, or of a narrower one that is given."""
        low = self.bound(kind, False) if least is None else self.constant_term(least, kind)
        high = self.bound(kind, True) if most is None else self.constant_term(most, kind)
        least, most = kind.least if least is None else least, kind.most if most is None else most
        drawn = new_draw(what, self.line, own, False, least, most)
        name, term = self.temporary(), variable(drawn.name)
        guards = [at_most(low, term), at_most(term, high)]
        calls = [Call(self.line, call, term)] if call else []
        self.emit(guards, {name: term}, [drawn], calls)
        return Value(variable(name), kind, least, most)

    def lost(self, kind: Whole, what: str, text: str, least=None, most=None) -> Value:
        self.log.lost(self.line, text)
        return self.draw(kind, what, False, None, least, most)

    def floor_division(self, term: Linear, divisor: int, least: int, most: int) -> Linear:
        """The quotient by a positive number, rounded down, of a term between two numbers: by cases where there are few, else a draw that
        two guards pin. (A language with `/` needs this function alone to change.)"""
        if divisor == 1:
            return term
        first, last = least // divisor, most // divisor
        if last - first < PERIODS:
            return self.quotient_by_cases(term, divisor, first, last)
        if divisor > LARGEST_NUMBER:
            raise Refused(f"a division by {divisor}, since the numbers of a text are below 2^62", self.line)
        drawn = new_draw("quotient", self.line, False, True)
        name, quotient = self.temporary(), variable(drawn.name).times(divisor)
        self.emit([at_most(quotient, term), at_most(term, quotient + (divisor - 1))], {name: variable(drawn.name)}, [drawn])
        return variable(name)

    def quotient_by_cases(self, term: Linear, divisor: int, first: int, last: int) -> Linear:
        name, ways = self.temporary(), []
        for quotient in range(first, last + 1):
            guards = [at_most(self.limit(quotient * divisor), term)] if quotient > first else []
            guards += [at_most(term, self.limit((quotient + 1) * divisor) - 1)] if quotient < last else []
            ways.append((guards, {name: number(quotient)}))
        self.fork(ways)
        return variable(name)

    def limit(self, value: int) -> Linear:
        """A number, or a symbol where it is too wide."""
        return number(value) if abs(value) <= LARGEST_NUMBER else self.constant_term(value, self.types.wholes["unsigned long long"])

    def held(self, term: Linear) -> Linear:
        """The term's value now, for use after its variables have changed."""
        if term.is_constant():
            return term
        name = self.temporary()
        self.emit((), {name: term})
        return variable(name)

    # Ranges.

    def in_range(self, term: Linear, kind: Whole, least: int, most: int, what: str) -> Value:
        """The result of an operation of a signed type: to leave the type is a step to `overflow`, or is presumed not to be."""
        guards = []
        if most > kind.most:
            top = self.bound(kind, True)
            self.leave(self.stops["overflow"], [at_most(top + 1, term)], f"{what} leaves {kind.name}")
            guards.append(at_most(term, top))
        if least < kind.least:
            bottom = self.bound(kind, False)
            self.leave(self.stops["overflow"], [at_most(term, bottom - 1)], f"{what} leaves {kind.name}")
            guards.append(at_most(bottom, term))
        if guards:
            self.emit(guards if self.checked else (), presumed=() if self.checked else guards)
        return Value(term, kind, max(least, kind.least), min(most, kind.most))

    def forbid(self, guards: list[Atom], otherwise: list[list[Atom]], what: str) -> None:
        """Undefined behaviour where the guards hold; else one of the ways is taken."""
        self.leave(self.stops["overflow"], guards, what)
        if self.checked:
            self.fork([(way, {}) for way in otherwise])
        else:
            self.emit(presumed=otherwise[0] if len(otherwise) == 1 else ())

    def undefined(self, what: str) -> None:
        """Undefined behaviour on every run that comes here."""
        self.leave(self.stops["overflow"], (), what)
        if self.checked:
            self.nowhere()

    def reduced(self, value: Value, kind: Whole, what: str) -> Value:
        """The value of the type that is the same modulo its width: by cases where there are few, else by a draw."""
        if kind.least <= value.least and value.most <= kind.most:
            return Value(value.term, kind, value.least, value.most)
        size = 1 << kind.width
        first, last = (value.least - kind.least) // size, (value.most - kind.least) // size
        if last - first >= PERIODS:
            return self.reduced_by_draw(value, kind, what)
        name, ways = self.temporary(), []
        for period in range(first, last + 1):
            shift = self.modulus(kind).times(period)
            top = self.bound(kind, True) + shift
            guards = [at_most(top - self.modulus(kind) + 1, value.term)] if period > first else []
            guards += [at_most(value.term, top)] if period < last else []
            ways.append((guards, {name: value.term - shift}))
        self.fork(ways)
        return Value(variable(name), kind, *((kind.least, kind.most) if first < last else
                                             (value.least - first * size, value.most - first * size)))

    def reduced_by_draw(self, value: Value, kind: Whole, what: str) -> Value:
        modulus = self.modulus(kind)
        if not modulus.is_constant():
            return self.lost(kind, "product", f"{what}, which may wrap more than {PERIODS - 1} times")
        drawn, name = new_draw("period", self.line, False, True), self.temporary()
        term = value.term - variable(drawn.name).times(modulus.constant)
        self.emit([at_most(self.bound(kind, False), term), at_most(term, self.bound(kind, True))], {name: term}, [drawn])
        return Value(variable(name), kind, kind.least, kind.most)

    def converted(self, value: Value, kind: Whole) -> Value:
        """A conversion as C and gcc have it."""
        if kind.name == "_Bool":
            return self.as_bool(value)
        if kind.holds(value.type) or (kind.least <= value.least and value.most <= kind.most):
            return Value(value.term, kind, value.least, value.most)
        if not self.checked and kind.signed and kind.width >= 32 and (value.type.signed or (value.most - value.least) >> kind.width > 1):
            return self.in_range(value.term, kind, value.least, value.most, f"the conversion to {kind.name}")
        return self.reduced(value, kind, f"the conversion to {kind.name}")

    def as_bool(self, value: Value) -> Value:
        if value.type.name == "_Bool" or (value.least >= 0 and value.most <= 1):
            return Value(value.term, self.types.bool, value.least, value.most)
        name = self.temporary()
        nonzero = [Atom("!=", value.term)]
        if value.least >= 0:
            nonzero = [at_most(number(1), value.term)]
        self.fork([(nonzero, {name: number(1)}), ([Atom("==", value.term)], {name: number(0)})])
        return Value(variable(name), self.types.bool, 0, 1)
