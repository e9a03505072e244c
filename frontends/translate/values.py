"""What expressions come to beside values of whole types, and which operations have an exact form."""
from __future__ import annotations

from dataclasses import dataclass

from .builder import Builder, Value
from .kinds import Whole
from .linear import Atom, at_most, number, variable


@dataclass(frozen=True)
class Address:
    """A pointer to a known object, or None for the null pointer."""
    object: object


@dataclass(frozen=True)
class Opaque:
    """A value without a form: of a pointer, a floating type or a record."""
    kind: str
    type: object
    object: object = None


class Operations(Builder):
    """Arithmetic on values of whole types: each operation gets operands that are converted already."""

    def added(self, left: Value, right: Value, kind: Whole) -> Value:
        return self.result(Value(left.term + right.term, kind, left.least + right.least, left.most + right.most), kind, "+")

    def subtracted(self, left: Value, right: Value, kind: Whole) -> Value:
        return self.result(Value(left.term - right.term, kind, left.least - right.most, left.most - right.least), kind, "-")

    def result(self, value: Value, kind: Whole, what: str) -> Value:
        if kind.signed:
            return self.in_range(value.term, kind, value.least, value.most, what)
        return self.reduced(value, kind, what)

    def multiplied(self, left: Value, right: Value, kind: Whole) -> Value:
        products = [one * other for one in (left.least, left.most) for other in (right.least, right.most)]
        least, most = min(products), max(products)
        if left.term.is_constant() or left.least == left.most:
            left, right = right, left
        if right.term.is_constant() or right.least == right.most:
            return self.result(Value(left.term.times(right.least), kind, least, most), kind, "*")
        if kind.least <= least and most <= kind.most:
            return self.lost(kind, "product", "a product of two variables", least, most)
        if kind.signed:
            self.lost_overflow("*", kind)
        return self.lost(kind, "product", "a product of two variables")

    def lost_overflow(self, what: str, kind: Whole) -> None:
        """Whether it overflows is not known: a draw says."""
        choice = self.lost(self.types.bool, "product", f"whether {what} leaves {kind.name}", 0, 1)
        self.forbid([Atom("==", choice.term - 1)], [[Atom("==", choice.term)]], f"{what} leaves {kind.name}")

    def divided(self, left: Value, right: Value, kind: Whole, rest: bool) -> Value:
        """`/`, or `%` where `rest`: rounded to 0."""
        what = "%" if rest else "/"
        if right.least == right.most == 0:
            self.undefined(f"{what} by 0")
            return self.lost(kind, "product", f"{what} by 0")
        if right.least == right.most:
            return self.divided_by(left, right.least, kind, rest)
        if right.least <= 0 <= right.most:
            ways = [[at_most(number(1), right.term)]] + ([[at_most(right.term, number(-1))]] if right.least < 0 else [])
            self.forbid([Atom("==", right.term)], ways, f"{what} by 0")
        if kind.signed and left.least <= kind.least and right.least <= -1 <= right.most:
            low = self.bound(kind, False)
            self.forbid([at_most(left.term, low), Atom("==", right.term + 1)],
                        [[at_most(low + 1, left.term)], [at_most(left.term, low), Atom("!=", right.term + 1)]], f"{what} leaves {kind.name}")
        return self.lost_quotient(left, right, kind, rest)

    def lost_quotient(self, left: Value, right: Value, kind: Whole, rest: bool) -> Value:
        """Only bounds are known of it where the divisor is a variable."""
        text = f"{'%' if rest else '/'} by a variable"
        if left.least < 0 or right.least < 0:
            return self.lost(kind, "product", text)
        value = self.lost(kind, "product", text, 0, min(left.most, right.most - 1) if rest else left.most)
        guards = [at_most(value.term, left.term)]
        if rest:
            guards += [at_most(value.term, right.term - 1)]
        self.here_narrowed(value, guards)
        return value

    def here_narrowed(self, value: Value, guards: list[Atom]) -> None:
        """Guards on a draw that was just made: put on its edge, so that no state is left without a step."""
        edge = self.graph.edges[-1]
        drawn = edge.updates[next(iter(value.term.terms))]
        edge.guards += tuple(atom.put({next(iter(value.term.terms)): drawn}) for atom in guards)

    def divided_by(self, left: Value, divisor: int, kind: Whole, rest: bool) -> Value:
        size = abs(divisor)
        if divisor == -1 and left.least <= kind.least and kind.signed:
            left = self.in_range(-left.term, kind, -left.most, -left.least, "%" if rest else "/")
            left = Value(-left.term, kind, -left.most, -left.least)
        if size == 1:
            term = number(0) if rest else left.term.times(divisor)
            bounds = (0, 0) if rest else tuple(sorted((left.least * divisor, left.most * divisor)))
            return Value(term, kind, *bounds)
        if left.least >= 0:
            return self.part(left.term, left, divisor, kind, rest)
        if left.most <= 0:
            return self.part(left.term, left, divisor, kind, rest, negative=True)
        source, name, joined = self.here, self.temporary(), self.inner()
        for negative in (False, True):
            self.here = source
            self.emit([at_most(left.term, number(-1)) if negative else at_most(number(0), left.term)])
            value = self.part(left.term, left, divisor, kind, rest, negative)
            self.emit((), {name: value.term}, target=joined)
        bound = size - 1 if rest else max(abs(left.least), abs(left.most)) // size
        return Value(variable(name), kind, max(kind.least, -bound), min(kind.most, bound))

    def part(self, term, left: Value, divisor: int, kind: Whole, rest: bool, negative: bool = False) -> Value:
        """The quotient or the rest of a value whose sign is known."""
        size, sign = abs(divisor), -1 if negative else 1
        largest = max(abs(left.least), abs(left.most))
        quotient = self.floor_division(term.times(sign), size, 0, largest).times(sign)
        if rest:
            bound = min(size - 1, largest)
            return Value(term - quotient.times(size), kind, -bound if negative else 0, 0 if negative else bound)
        quotient = quotient if divisor > 0 else -quotient
        falls = negative == (divisor > 0)
        return Value(quotient, kind, -(largest // size) if falls else 0, 0 if falls else largest // size)

    def shifted(self, left: Value, right: Value, kind: Whole, op: str) -> Value:
        if right.least != right.most:
            self.forbid_outside(right, kind, op)
            if kind.signed and op == "<<":
                self.lost_overflow("<<", kind)
            return self.lost(kind, "bits", f"{op} by a variable", *((0, left.most) if op == ">>" and left.least >= 0 else (None, None)))
        count = right.least
        if not 0 <= count < kind.width:
            self.undefined(f"{op} by {count}")
            return self.lost(kind, "bits", f"{op} by {count}")
        if op == ">>":
            return Value(self.floor_division(left.term, 1 << count, left.least, left.most), kind, left.least >> count, left.most >> count)
        if kind.signed and left.least < 0:
            self.forbid([at_most(left.term, number(-1))], [[at_most(number(0), left.term)]], "<< of a negative number")
            left = Value(left.term, kind, 0, max(left.most, 0))
        return self.multiplied(left, self.constant_value(1 << count, kind) if (1 << count) <= kind.most else
                               Value(number(1 << count), kind, 1 << count, 1 << count), kind)

    def forbid_outside(self, right: Value, kind: Whole, op: str) -> None:
        if right.least < 0:
            self.forbid([at_most(right.term, number(-1))], [[at_most(number(0), right.term)]], f"{op} by a negative number")
        if right.most >= kind.width:
            self.forbid([at_most(number(kind.width), right.term)], [[at_most(right.term, number(kind.width - 1))]], f"{op} by {kind.width} or more")

    def complemented(self, value: Value, kind: Whole) -> Value:
        if kind.signed:
            return Value(-value.term - 1, kind, -value.most - 1, -value.least - 1)
        return Value(self.bound(kind, True) - value.term, kind, kind.most - value.most, kind.most - value.least)

    def negated(self, value: Value, kind: Whole) -> Value:
        return self.result(Value(-value.term, kind, -value.most, -value.least), kind, "-")

    def bits(self, left: Value, right: Value, kind: Whole, op: str) -> Value:
        """`&`, `|` and `^`: exact where one side is a constant that is a run of ones, or a complement of one."""
        if left.least == left.most:
            left, right = right, left
        if right.least == right.most:
            found = self.bits_with(left, right.least, kind, op)
            if found is not None:
                return found
        if left.least >= 0 and right.least >= 0:
            if op == "&":
                return self.lost(kind, "bits", "& of variables", 0, min(left.most, right.most))
            size = max(left.most, right.most).bit_length()
            return self.lost(kind, "bits", f"{op} of variables", 0, min(kind.most, (1 << size) - 1))
        return self.lost(kind, "bits", f"{op} of variables")

    def bits_with(self, left: Value, mask: int, kind: Whole, op: str) -> Value | None:
        """With a constant: the bits of the mask are cut out by two floor divisions, and then added or taken away."""
        self.masked |= left.term.names()
        size = 1 << kind.width
        mask %= size
        inverse = size - 1 - mask
        if mask == 0 or inverse == 0:
            return self.bits_with_all(left, inverse == 0, kind, op)
        if op == "&" and is_run(inverse) and (not is_run(mask) or mask >> (kind.width - 1)):
            return Value(left.term - self.cut(left, inverse).term, kind, 0 if left.least >= 0 else kind.least, left.most)
        if not is_run(mask) or (kind.signed and mask >> (kind.width - 1)):
            return None
        cut = self.cut(left, mask)
        if op == "&":
            return Value(cut.term, kind, cut.least, cut.most)
        largest = (1 << max(left.most, mask).bit_length()) - 1 if left.most >= 0 else kind.most
        taken = cut.term if op == "|" else cut.term.times(2)
        return Value(left.term - taken + mask, kind, 0 if left.least >= 0 else kind.least, min(largest, kind.most))

    def bits_with_all(self, left: Value, ones: bool, kind: Whole, op: str) -> Value:
        """With a constant whose bits are all 0, or all 1."""
        if not ones:
            return self.constant_value(0, kind) if op == "&" else left
        if op == "&":
            return left
        return self.constant_value(-1 if kind.signed else kind.most, kind) if op == "|" else self.complemented(left, kind)

    def cut(self, left: Value, mask: int) -> Value:
        """The bits of a run of ones, as a term: `x mod 2^high - x mod 2^low`."""
        low, high = (mask & -mask).bit_length() - 1, mask.bit_length()
        within = left.least >= 0 and left.most < 1 << high
        upper = number(0) if within else self.floor_division(left.term, 1 << high, left.least, left.most).times(1 << high)
        lower = self.floor_division(left.term, 1 << low, left.least, left.most).times(1 << low)
        return Value(lower - upper, left.type, 0, min(mask, left.most) if left.least >= 0 else mask)


def is_run(mask: int) -> bool:
    """Whether its ones stand next to one another."""
    if mask <= 0:
        return False
    lowest = mask & -mask
    return (mask + lowest) & mask == 0
