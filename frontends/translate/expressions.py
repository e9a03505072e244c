"""Expressions of C: what they come to, in C's order, and what they do."""
from __future__ import annotations

from pycparser import c_ast

from .builder import Value
from .declare import Declarations, line_of
from .effects import Effects
from .kinds import Array, Floating, Function, Pointer, Record, Void, Whole, type_name
from .linear import Atom, at_most, below, equal, number, unequal, variable
from .refusal import Refused
from .scope import Alias, EnumConstant, FunctionNamed, Lost, Members, Slot, fits, lost_kind, slots_of
from .values import Address, Opaque, Operations

COMPARED = {"<": below, "<=": at_most, "==": equal, "!=": unequal, ">": lambda one, other: below(other, one), ">=": lambda one, other: at_most(other, one)}


class Expressions(Declarations, Effects, Operations):
    """Needs `call` and `scope`."""

    def value(self, node):
        """A `Value`, an `Address`, an `Opaque`, or None of a call without a value."""
        outer = self.line
        self.line = line_of(node) or outer
        try:
            folded = self.folded(node)
            if folded is not None:
                return self.constant_value(*folded)
            return getattr(self, f"value_of_{type(node).__name__}", self.no_form)(node)
        finally:
            self.line = outer or self.line

    def no_form(self, node):
        raise Refused(f"an expression of the form {type(node).__name__}", line_of(node) or self.line)

    def whole(self, node) -> Value:
        """The value as one of a whole type; what has no form is drawn."""
        value = self.value(node)
        return self.as_whole(value, self.types.int)

    def as_whole(self, value, kind: Whole) -> Value:
        if isinstance(value, Value):
            return value
        if value is None:
            raise Refused("the value of what has none", self.line)
        if isinstance(value, Address):
            return self.constant_value(0, kind) if value.object is None else self.lost(kind, "pointer", "a pointer as a number")
        return self.lost(kind, value.kind, f"a value of the type {type_name(value.type)}")

    # Leaves.

    def value_of_Constant(self, node):
        return Opaque("pointer" if node.type == "string" or '"' in node.value else "float", Floating() if '"' not in node.value else Pointer(self.types.wholes["char"]))

    def value_of_ID(self, node):
        return self.read(self.place_of(node))

    def read(self, thing):
        """What an object holds."""
        if isinstance(thing, Slot):
            if thing.volatile:
                return self.draw(thing.type, f"volatile:{thing.name}", True)
            return Value(variable(thing.name), thing.type, thing.type.least, thing.type.most)
        if isinstance(thing, Alias):
            return Address(thing.object)
        if isinstance(thing, Members):
            return Opaque("union", thing.type, thing)
        if isinstance(thing, Lost):
            return self.read_lost(thing)
        raise Refused(f"the function name {getattr(thing, 'name', '')} as a value", self.line)

    def read_lost(self, thing: Lost):
        if isinstance(thing.type, Whole):
            if thing.volatile:
                return self.draw(thing.type, f"volatile:{thing.what}", True)
            return self.lost(thing.type, thing.kind, thing.what)
        return Opaque(lost_kind(thing.type), thing.type)

    # Objects.

    def place_of(self, node):
        """The object that an expression names; a `Lost` one where it is not known."""
        if isinstance(node, c_ast.ID):
            meaning = self.scope.find(node.name)
            if meaning is None:
                raise Refused(f"the name {node.name}, which is not declared", line_of(node))
            if isinstance(meaning, FunctionNamed):
                return Lost("pointer", Pointer(Function(meaning.result)), f"the function {node.name} as a value")
            return meaning
        if isinstance(node, c_ast.StructRef):
            return self.member(node)
        if isinstance(node, c_ast.ArrayRef):
            return self.element(node)
        if isinstance(node, c_ast.UnaryOp) and node.op == "*":
            return self.pointed(self.value(node.expr), node.expr)
        value = self.value(node)
        if isinstance(value, Opaque) and value.object is not None:
            return value.object
        if isinstance(value, Opaque):
            return Lost(value.kind, value.type, f"a value of the type {type_name(value.type)}")
        raise Refused(f"an object of the form {type(node).__name__}", line_of(node))

    def pointed(self, value, node):
        if isinstance(value, Address):
            if value.object is None:
                self.undefined("the null pointer is read or written")
            return value.object or Lost("pointer", self.types.int, "what the null pointer points to")
        kind = value.type.target if isinstance(value, Opaque) and isinstance(value.type, Pointer) else None
        if isinstance(value, Opaque) and isinstance(value.type, Array):
            return Lost("array", value.type.element, "an element of an array")
        if kind is None:
            kind = self.static_type(node)
            kind = kind.target if isinstance(kind, Pointer) else kind.element if isinstance(kind, Array) else self.types.int
        return Lost("pointer", kind, "what a pointer points to", True)

    def member(self, node):
        name = node.field.name
        thing = self.pointed(self.value(node.name), node.name) if node.type == "->" else self.place_of(node.name)
        if isinstance(thing, Members):
            if name not in thing.members:
                raise Refused(f"the member {name}, which {type_name(thing.type)} does not have", line_of(node))
            return thing.members[name]
        if isinstance(thing, Lost):
            record = thing.type
            if not isinstance(record, Record) or record.members is None or name not in record.members:
                raise Refused(f"the member {name} of {type_name(record)}", line_of(node))
            volatile = "volatile" in record.qualifiers.get(name, ())
            return Lost(thing.kind, record.members[name], f"the member {name} of {thing.what}", thing.unknown, volatile or thing.volatile)
        raise Refused(f"the member {name} of what is no struct", line_of(node))

    def element(self, node):
        base = self.place_of(node.name) if isinstance(node.name, (c_ast.ID, c_ast.StructRef, c_ast.ArrayRef)) else None
        self.value(node.subscript)
        if isinstance(base, Lost) and isinstance(base.type, Array):
            return Lost("array", base.type.element, "an element of an array", base.unknown, base.volatile)
        kind = base.type if isinstance(base, (Lost, Alias)) else self.static_type(node.name)
        if isinstance(kind, Pointer):
            return Lost("pointer", kind.target, "what a pointer points to", True)
        return Lost("array", self.types.int, "an element of an array", True)

    def static_type(self, node):
        """The type of an expression that is not evaluated, where it is easily seen."""
        if isinstance(node, c_ast.ID):
            meaning = self.scope.find(node.name)
            return self.types.int if isinstance(meaning, EnumConstant) else getattr(meaning, "type", None)
        if isinstance(node, c_ast.StructRef):
            record = self.static_type(node.name)
            record = record.target if node.type == "->" and isinstance(record, Pointer) else record
            return (record.members or {}).get(node.field.name) if isinstance(record, Record) else None
        if isinstance(node, c_ast.ArrayRef) or (isinstance(node, c_ast.UnaryOp) and node.op == "*"):
            kind = self.static_type(node.name if isinstance(node, c_ast.ArrayRef) else node.expr)
            return kind.target if isinstance(kind, Pointer) else kind.element if isinstance(kind, Array) else None
        if isinstance(node, c_ast.UnaryOp) and node.op == "&":
            return Pointer(self.static_type(node.expr))
        if isinstance(node, c_ast.Cast):
            return self.type_of(node.to_type)[0]
        if isinstance(node, c_ast.BinaryOp) and node.op in ("+", "-"):
            left = self.static_type(node.left)
            return left if isinstance(left, (Pointer, Array)) else self.static_type(node.right)
        folded = self.folded(node)
        return folded[1] if folded else None

    def value_of_StructRef(self, node):
        return self.read(self.place_of(node))

    def value_of_ArrayRef(self, node):
        return self.read(self.place_of(node))

    # Stores.

    def store(self, thing, value):
        """Puts a value, which is converted first, into an object; answers what the object then holds."""
        if isinstance(thing, Slot):
            stored = self.converted(self.as_whole(value, thing.type), thing.type)
            self.emit((), {thing.name: stored.term})
            if thing.volatile:
                return stored
            return Value(variable(thing.name), thing.type, stored.least, stored.most)
        if isinstance(thing, Members):
            return self.copy_members(thing, value)
        if isinstance(thing, Lost):
            return self.store_lost(thing, value)
        raise Refused("an assignment to a pointer that is taken to be fixed", self.line)

    def store_lost(self, thing: Lost, value):
        if isinstance(value, Address):
            self.expose(value.object)
        if thing.unknown:
            self.havoc(self.exposed_slots(), "a store through an unknown pointer")
        if isinstance(thing.type, Whole) and not isinstance(value, Opaque):
            return self.converted(self.as_whole(value, thing.type), thing.type)
        return value

    def copy_members(self, thing: Members, value):
        source = value.object if isinstance(value, Opaque) else None
        if isinstance(source, Members):
            held = [Value(self.held(variable(slot.name)), slot.type, slot.type.least, slot.type.most) for slot in slots_of(source)]
            for slot, one in zip(slots_of(thing), held):
                self.store(slot, one)
        else:
            self.havoc(slots_of(thing), "a struct whose value is not known")
        return Opaque("union", thing.type, thing)

    def havoc(self, slots: list[Slot], why: str) -> None:
        """Draws each of the variables anew."""
        for slot in slots:
            if not slot.volatile:
                drawn = self.lost(slot.type, f"havoc:{slot.name}", f"{slot.name}, after {why}")
                self.emit((), {slot.name: drawn.term})

    def expose(self, thing) -> None:
        """Notes that an unknown pointer may point to the object from now on."""
        for slot in slots_of(thing):
            self.exposed[slot.name] = slot

    def exposed_slots(self) -> list[Slot]:
        return [slot for slot in self.exposed.values()]

    def value_of_Assignment(self, node):
        self.refuse_assignment(node)
        if node.op == "=":
            value = self.value(node.rvalue)
            if isinstance(value, Value) and not isinstance(node.lvalue, c_ast.ID):
                value = Value(self.held(value.term), value.type, value.least, value.most)
            return self.store(self.place_of(node.lvalue), value)
        thing = self.place_of(node.lvalue)
        old = self.read(thing)
        right = self.value(node.rvalue)
        if not isinstance(old, Value):
            return self.store(thing, old if isinstance(old, (Opaque, Address)) else old)
        return self.store(thing, self.binary(node.op[:-1], old, self.as_whole(right, self.types.int)))

    def value_of_UnaryOp(self, node):
        if node.op in ("++", "--", "p++", "p--"):
            return self.stepped(node)
        if node.op == "&":
            return self.address(node.expr)
        if node.op == "*":
            return self.read(self.place_of(node))
        if node.op == "!":
            return self.truth(node)
        if node.op in ("sizeof", "_Alignof"):
            return self.lost(self.types.size, "union", f"{node.op} of what has no known size", 1)
        value = self.value(node.expr)
        if isinstance(value, Opaque) and value.kind == "float":
            return value
        value = self.as_whole(value, self.types.int)
        kind = self.types.promoted(value.type)
        value = self.converted(value, kind)
        if node.op == "+":
            return value
        return self.negated(value, kind) if node.op == "-" else self.complemented(value, kind)

    def stepped(self, node):
        """`++` and `--`, before and after."""
        thing = self.place_of(node.expr)
        old = self.read(thing)
        if not isinstance(old, Value):
            return self.store(thing, old)
        kept = Value(self.held(old.term), old.type, old.least, old.most)
        new = self.binary("+" if "+" in node.op else "-", kept, self.constant_value(1, self.types.int))
        stored = self.store(thing, new)
        return kept if node.op.startswith("p") else stored

    def address(self, node):
        if isinstance(node, c_ast.UnaryOp) and node.op == "*":
            return self.value(node.expr)
        thing = self.place_of(node)
        if isinstance(thing, (Slot, Members)):
            return Address(thing)
        return Opaque("pointer", Pointer(getattr(thing, "type", Void())))

    # Operators.

    def value_of_BinaryOp(self, node):
        if node.op in ("&&", "||") or node.op in COMPARED:
            return self.truth(node)
        self.refuse_unsequenced([node.left, node.right], node.op)
        left, right = self.value(node.left), self.value(node.right)
        for one in (left, right):
            if isinstance(one, Opaque) and isinstance(one.type, Floating):
                return one
        if not isinstance(left, Value) or not isinstance(right, Value):
            return self.pointer_sum(node.op, left, right)
        return self.binary(node.op, left, right)

    def pointer_sum(self, op: str, left, right):
        """Sums of pointers and numbers are pointers that are not known, their differences numbers that are not."""
        for one in (left, right):
            if isinstance(one, Address):
                self.expose(one.object)
        if op == "-" and not isinstance(left, Value) and not isinstance(right, Value):
            return self.lost(self.types.difference, "pointer", "a difference of pointers")
        side = right if isinstance(left, Value) else left
        return Opaque("pointer", side.type if isinstance(side, Opaque) else Pointer(getattr(side.object, "type", Void())))

    def binary(self, op: str, left: Value, right: Value) -> Value:
        if op in ("<<", ">>"):
            kind = self.types.promoted(left.type)
            return self.shifted(self.converted(left, kind), self.converted(right, self.types.promoted(right.type)), kind, op)
        kind = self.types.common(left.type, right.type)
        left, right = self.converted(left, kind), self.converted(right, kind)
        if op in ("+", "-", "*"):
            return {"+": self.added, "-": self.subtracted, "*": self.multiplied}[op](left, right, kind)
        if op in ("/", "%"):
            return self.divided(left, right, kind, op == "%")
        return self.bits(left, right, kind, op)

    def value_of_TernaryOp(self, node):
        yes, no, joined, name = self.inner(), self.inner(), self.inner(), self.temporary()
        self.branch(node.cond, yes, no)
        kinds, ends = [], []
        for place, part in ((yes, node.iftrue), (no, node.iffalse)):
            self.here = place
            value = self.value(part)
            ends.append((self.here, value))
            kinds.append(value)
        if all(isinstance(value, Value) for value in kinds):
            return self.joined_values(ends, joined, name)
        for place, value in ends:
            self.here = place
            self.emit(target=joined)
        pointers = [value for value in kinds if not isinstance(value, Value)]
        for one in pointers:
            if isinstance(one, Address):
                self.expose(one.object)
        if not pointers or pointers[0] is None:
            return None
        return Opaque("pointer", pointers[0].type) if isinstance(pointers[0], Opaque) else Opaque("pointer", Pointer(getattr(pointers[0].object, "type", Void())))

    def joined_values(self, ends, joined, name) -> Value:
        kind = self.types.common(ends[0][1].type, ends[1][1].type)
        least, most = [], []
        for place, value in ends:
            self.here = place
            value = self.converted(value, kind)
            self.emit((), {name: value.term}, target=joined)
            least.append(value.least)
            most.append(value.most)
        return Value(variable(name), kind, min(least), max(most))

    def value_of_Cast(self, node):
        kind, _ = self.type_of(node.to_type)
        value = self.value(node.expr)
        if isinstance(kind, Void):
            return None
        if isinstance(kind, Whole):
            return self.converted(self.as_whole(value, kind), kind)
        if isinstance(kind, Pointer):
            if isinstance(value, Value):
                return Address(None) if value.least == value.most == 0 else Opaque("pointer", kind)
            if isinstance(value, Address) and (value.object is None or fits(kind.target, value.object)):
                return value
            if isinstance(value, Address):
                self.expose(value.object)
            return Opaque("pointer", kind)
        return Opaque(lost_kind(kind), kind)

    def value_of_ExprList(self, node):
        for part in node.exprs[:-1]:
            self.value(part)
        return self.value(node.exprs[-1])

    def value_of_FuncCall(self, node):
        return self.call(node)

    def truth(self, node) -> Value:
        """A condition as the number 0 or 1."""
        yes, no, joined, name = self.inner(), self.inner(), self.inner(), self.temporary()
        self.branch(node, yes, no)
        for place, result in ((yes, 1), (no, 0)):
            self.here = place
            self.emit((), {name: number(result)}, target=joined)
        return Value(variable(name), self.types.int, 0, 1)

    # Conditions.

    def branch(self, node, yes, no) -> None:
        """Goes to one of two places; nothing comes next here."""
        outer = self.line
        self.line = line_of(node) or outer
        self.branched(node, yes, no)
        self.line = outer
        self.nowhere()

    def branched(self, node, yes, no) -> None:
        folded = self.folded(node)
        if folded is not None:
            self.emit(target=yes if folded[0] else no)
        elif isinstance(node, c_ast.UnaryOp) and node.op == "!":
            self.branch(node.expr, no, yes)
        elif isinstance(node, c_ast.BinaryOp) and node.op in ("&&", "||"):
            middle = self.inner()
            self.branch(node.left, *((middle, no) if node.op == "&&" else (yes, middle)))
            self.here = middle
            self.branch(node.right, yes, no)
        elif isinstance(node, c_ast.BinaryOp) and node.op in COMPARED:
            self.compared(node, yes, no)
        elif isinstance(node, c_ast.ExprList):
            for part in node.exprs[:-1]:
                self.value(part)
            self.branch(node.exprs[-1], yes, no)
        else:
            value = self.value(node)
            self.choose([] if not isinstance(value, Value) else None, value, yes, no)

    def choose(self, unknown, value, yes, no) -> None:
        """Goes by whether a value is 0."""
        if isinstance(value, Address):
            self.emit(target=no if value.object is None else yes)
            return
        if unknown is not None:
            value = self.lost(self.types.bool, value.kind if value else "pointer", "whether a value is 0 that has no form", 0, 1)
        self.leave(no, [Atom("==", value.term)])
        self.leave(yes, [at_most(number(1), value.term)] if value.least >= 0 else [Atom("!=", value.term)])

    def compared(self, node, yes, no) -> None:
        self.refuse_unsequenced([node.left, node.right], node.op)
        left, right = self.value(node.left), self.value(node.right)
        if not isinstance(left, Value) or not isinstance(right, Value):
            self.compared_pointers(node.op, left, right, yes, no)
            return
        kind = self.types.common(left.type, right.type)
        atom = COMPARED[node.op](self.converted(left, kind).term, self.converted(right, kind).term)
        for guard, target in ((atom, yes), (atom.denied(), no)):
            if guard.decided() is not False:
                self.leave(target, [guard])

    def compared_pointers(self, op: str, left, right, yes, no) -> None:
        """Two known objects are one or are not; of others nothing is known."""
        sides = [Address(None) if isinstance(one, Value) and one.least == one.most == 0 else one for one in (left, right)]
        if op in ("==", "!=") and all(isinstance(one, Address) for one in sides):
            self.emit(target=yes if (sides[0].object is sides[1].object) == (op == "==") else no)
            return
        for one in sides:
            if isinstance(one, Address):
                self.expose(one.object)
        kind = "float" if any(isinstance(one, Opaque) and isinstance(one.type, Floating) for one in sides) else "pointer"
        value = self.lost(self.types.bool, kind, f"{op} of values without a form", 0, 1)
        self.leave(no, [Atom("==", value.term)])
        self.leave(yes, [Atom("==", value.term - 1)])
