"""The types of C, as gcc has them on Linux for x86, and what they do to values."""
from __future__ import annotations

from dataclasses import dataclass, field

from .refusal import Refused


@dataclass(frozen=True)
class Whole:
    """A type of whole numbers; an `_Bool` has the width 1."""
    name: str
    width: int
    signed: bool
    rank: int

    @property
    def least(self) -> int:
        return -(1 << (self.width - 1)) if self.signed else 0

    @property
    def most(self) -> int:
        return (1 << (self.width - 1)) - 1 if self.signed else (1 << self.width) - 1

    def holds(self, other: Whole) -> bool:
        return self.least <= other.least and other.most <= self.most


@dataclass(frozen=True)
class Pointer:
    target: object


@dataclass(frozen=True)
class Array:
    element: object
    length: int | None


@dataclass(frozen=True)
class Floating:
    name: str = "double"


@dataclass(frozen=True)
class Void:
    pass


@dataclass(frozen=True)
class Function:
    result: object


@dataclass(eq=False)
class Record:
    """A struct or a union; its members are known once it is complete."""
    name: str
    union: bool
    members: dict[str, object] | None = None
    qualifiers: dict[str, frozenset[str]] = field(default_factory=dict)
    packed: bool = False


def whole_types(model: str) -> dict[str, Whole]:
    """By their names in one spelling."""
    long = 64 if model == "lp64" else 32
    return {
        "_Bool": Whole("_Bool", 1, False, 0),
        "char": Whole("char", 8, True, 1), "signed char": Whole("signed char", 8, True, 1), "unsigned char": Whole("unsigned char", 8, False, 1),
        "short": Whole("short", 16, True, 2), "unsigned short": Whole("unsigned short", 16, False, 2),
        "int": Whole("int", 32, True, 3), "unsigned int": Whole("unsigned int", 32, False, 3),
        "long": Whole("long", long, True, 4), "unsigned long": Whole("unsigned long", long, False, 4),
        "long long": Whole("long long", 64, True, 5), "unsigned long long": Whole("unsigned long long", 64, False, 5),
    }


def spelled(names: list[str]) -> str:
    """The one spelling of a type's names: `unsigned int` for `unsigned`."""
    words = list(names)
    unsigned, signed = "unsigned" in words, "signed" in words
    longs, shorts = words.count("long"), words.count("short")
    rest = [word for word in words if word not in ("unsigned", "signed", "long", "short", "int", "__signed__")]
    if "__int128" in rest or "__int128_t" in rest:
        raise Refused("a type of 128 bits")
    if rest == ["char"]:
        return "unsigned char" if unsigned else "signed char" if signed else "char"
    if rest and rest != []:
        return " ".join(rest)
    base = "short" if shorts else "long long" if longs > 1 else "long" if longs else "int"
    return f"unsigned {base}" if unsigned else base


class Types:
    """The types of one model, and the conversions between them."""

    def __init__(self, model: str):
        self.model = model
        self.wholes = whole_types(model)
        self.int = self.wholes["int"]
        self.bool = self.wholes["_Bool"]
        self.uint = self.wholes["unsigned int"]
        self.size = self.wholes["unsigned long" if model == "lp64" else "unsigned int"]
        self.difference = self.wholes["long" if model == "lp64" else "int"]

    def promoted(self, one: Whole) -> Whole:
        return self.int if one.rank < self.int.rank else one

    def unsigned_of(self, one: Whole) -> Whole:
        return one if not one.signed else self.wholes[f"unsigned {one.name}"]

    def common(self, one: Whole, other: Whole) -> Whole:
        """The usual arithmetic conversions."""
        one, other = self.promoted(one), self.promoted(other)
        if one.signed == other.signed:
            return one if one.rank >= other.rank else other
        signed, unsigned = (one, other) if one.signed else (other, one)
        if unsigned.rank >= signed.rank:
            return unsigned
        return signed if signed.holds(unsigned) else self.unsigned_of(signed)

    def of_literal(self, value: int, suffix: str, decimal: bool) -> Whole:
        """The first type of the list of the standard that holds the value."""
        unsigned, longs = "u" in suffix, suffix.count("l")
        for base in ("int", "long", "long long")[longs:]:
            signed = self.wholes[base]
            if not unsigned and value <= signed.most:
                return signed
            if (unsigned or not decimal) and value <= self.unsigned_of(signed).most:
                return self.unsigned_of(signed)
        raise Refused(f"the literal {value}, which no type holds")

    def size_of(self, one) -> int | None:
        """In bytes, where it is known: not of a struct with bit-fields."""
        if isinstance(one, Whole):
            return max(one.width, 8) // 8
        if isinstance(one, Pointer):
            return 8 if self.model == "lp64" else 4
        if isinstance(one, Floating):
            return {"float": 4, "double": 8}.get(one.name)
        if isinstance(one, Array) and one.length is not None and self.size_of(one.element) is not None:
            return one.length * self.size_of(one.element)
        return self.size_of_record(one) if isinstance(one, Record) else None

    def size_of_record(self, record: Record) -> int | None:
        """Members one after the other, each at a multiple of its alignment; those of a union at the same place."""
        if record.members is None or record.packed:
            return None
        size, alignment = 0, 1
        for member in record.members.values():
            one, step = self.size_of(member), self.alignment_of(member)
            if one is None:
                return None
            alignment = max(alignment, step)
            size = max(size, one) if record.union else -(-size // step) * step + one
        return -(-size // alignment) * alignment

    def alignment_of(self, one) -> int:
        if isinstance(one, Array):
            return self.alignment_of(one.element)
        if isinstance(one, Record):
            return max((self.alignment_of(member) for member in (one.members or {}).values()), default=1)
        size = self.size_of(one) or 1
        return min(size, 4) if self.model == "ilp32" else size


def type_name(one) -> str:
    if isinstance(one, (Whole, Floating)):
        return one.name
    if isinstance(one, Pointer):
        return f"{type_name(one.target)} *"
    if isinstance(one, Array):
        return f"{type_name(one.element)} []"
    if isinstance(one, Record):
        return f"{'union' if one.union else 'struct'} {one.name}"
    return "void"
