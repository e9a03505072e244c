"""What names mean: variables, constants, types and functions, by block."""
from __future__ import annotations

from dataclasses import dataclass

from t2.tokens import NO_NAMES

from .kinds import Array, Floating, Pointer, Record, Void, Whole

SYMBOLS = ("INT_MIN", "INT_MAX", "UINT_MAX", "LONG_MIN", "LONG_MAX", "ULONG_MAX")


@dataclass(eq=False)
class Slot:
    """A scalar of a whole type: one variable of the text."""
    name: str
    type: Whole
    volatile: bool = False
    c: str = ""
    function: str | None = None
    line: int | None = None
    copy: int = 1
    exposed: bool = False
    constant: int | None = None
    shared: bool = False


@dataclass(eq=False)
class Members:
    """An object of a struct type: its members are objects."""
    type: Record
    members: dict[str, object]


@dataclass(eq=False)
class Lost:
    """An object whose value has no form: what is read of it is drawn. `unknown` where a store may hit any exposed variable."""
    kind: str
    type: object
    what: str
    unknown: bool = False
    volatile: bool = False


@dataclass(eq=False)
class Alias:
    """A pointer that always points to one known object."""
    type: Pointer
    object: object


@dataclass(frozen=True)
class EnumConstant:
    value: int
    enum: str


@dataclass(frozen=True)
class TypeNamed:
    type: object
    qualifiers: frozenset[str]


@dataclass(eq=False)
class FunctionNamed:
    name: str
    result: object
    definition: object = None


class Names:
    """Gives each object of C one name in the text that no other has."""

    def __init__(self):
        self.taken: set[str] = {*NO_NAMES, *SYMBOLS}
        self.copies: dict[tuple[str | None, str], int] = {}

    def free(self, wanted: str) -> str:
        while wanted in self.taken:
            wanted += "_"
        self.taken.add(wanted)
        return wanted

    def variable(self, name: str, function: str | None, entry: str) -> tuple[str, int]:
        """The name in the text, and which declaration of the name in the function this is, from 1."""
        copy = self.copies[function, name] = self.copies.get((function, name), 0) + 1
        plain = name if function is None or function == entry else f"{function}.{name}"
        if plain in self.taken and function == entry and copy == 1:
            plain = f"{function}.{name}"
        return self.free(plain if copy == 1 else f"{plain}.{copy}"), copy


class Scope:
    """The blocks that are open, innermost last."""

    def __init__(self):
        self.blocks: list[dict[str, object]] = [{}]
        self.tags: list[dict[str, object]] = [{}]

    def open(self) -> None:
        self.blocks.append({})
        self.tags.append({})

    def close(self) -> None:
        self.blocks.pop()
        self.tags.pop()

    def declare(self, name: str, meaning) -> None:
        self.blocks[-1][name] = meaning

    def find(self, name: str):
        return next((block[name] for block in reversed(self.blocks) if name in block), None)

    def declare_tag(self, name: str, meaning) -> None:
        self.tags[-1][name] = meaning

    def find_tag(self, name: str, innermost: bool = False):
        blocks = self.tags[-1:] if innermost else list(reversed(self.tags))
        return next((block[name] for block in blocks if name in block), None)

    def function_level(self) -> tuple[list, list]:
        """Takes away all blocks but the outermost, for the body of a function that is called, and answers them for `restore`."""
        saved = self.blocks, self.tags
        self.blocks, self.tags = self.blocks[:1], self.tags[:1]
        return saved

    def restore(self, saved: tuple[list, list]) -> None:
        self.blocks, self.tags = saved

    def objects(self) -> list:
        """The objects of the open blocks of the function, without those of the file."""
        return [meaning for block in self.blocks[1:] for meaning in block.values() if isinstance(meaning, (Slot, Members))]


def slots_of(thing) -> list[Slot]:
    """The scalars of an object."""
    if isinstance(thing, Slot):
        return [thing]
    if isinstance(thing, Members):
        return [slot for member in thing.members.values() for slot in slots_of(member)]
    return []


def lost_kind(one) -> str:
    """The kind of draw that stands for a value of a type without a form."""
    if isinstance(one, Array):
        return "array"
    if isinstance(one, Floating):
        return "float"
    if isinstance(one, Record):
        return "union"
    return "pointer"


def fits(target, thing) -> bool:
    """Whether a pointer to a type sees an object as what it is."""
    if isinstance(thing, Slot):
        return isinstance(target, Void) or (isinstance(target, Whole) and (target.width, target.signed) == (thing.type.width, thing.type.signed))
    return isinstance(thing, Members) and (isinstance(target, Void) or target is thing.type)
