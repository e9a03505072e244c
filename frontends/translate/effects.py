"""Which objects an expression reads and writes, to refuse what C gives no order."""
from __future__ import annotations

from pycparser import c_ast

from .declare import line_of
from .refusal import Refused
from .scope import Alias, FunctionNamed, Members, Slot, slots_of

MEMORY = "what pointers point to"


class Found:
    """Names of objects; `called` are those that a function writes that is called."""

    def __init__(self):
        self.reads: set[str] = set()
        self.writes: set[str] = set()
        self.called: set[str] = set()

    def add(self, other: Found) -> None:
        self.reads |= other.reads
        self.writes |= other.writes
        self.called |= other.called


class Effects:
    """Needs `scope` and `functions`."""

    def effects(self, node, scope=None, seen=frozenset()) -> Found:
        found = Found()
        self.collect(node, found, scope or self.scope, seen)
        return found

    def names_of(self, node, scope) -> set[str]:
        """The names of the object that an expression may name."""
        if isinstance(node, c_ast.ID):
            meaning = scope.find(node.name)
            if isinstance(meaning, Alias):
                return {slot.name for slot in slots_of(meaning.object)}
            return {slot.name for slot in slots_of(meaning)} if isinstance(meaning, (Slot, Members)) else {node.name}
        if isinstance(node, c_ast.StructRef) and node.type == ".":
            base = node.name
            meaning = scope.find(base.name) if isinstance(base, c_ast.ID) else None
            member = meaning.members.get(node.field.name) if isinstance(meaning, Members) else None
            return {slot.name for slot in slots_of(member)} if member is not None else self.names_of(base, scope)
        if isinstance(node, c_ast.StructRef) or (isinstance(node, c_ast.UnaryOp) and node.op == "*"):
            base = node.name if isinstance(node, c_ast.StructRef) else node.expr
            meaning = scope.find(base.name) if isinstance(base, c_ast.ID) else None
            return {slot.name for slot in slots_of(meaning.object)} if isinstance(meaning, Alias) else {MEMORY}
        if isinstance(node, c_ast.ArrayRef):
            return self.names_of(node.name, scope)
        if isinstance(node, c_ast.Cast):
            return self.names_of(node.expr, scope)
        return {MEMORY}

    def collect(self, node, found: Found, scope, seen) -> None:
        if node is None or isinstance(node, c_ast.Constant):
            return
        if isinstance(node, c_ast.FuncCall):
            self.collect_call(node, found, scope, seen)
            return
        if isinstance(node, c_ast.Assignment):
            found.writes |= self.names_of(node.lvalue, scope)
            if node.op != "=" or not isinstance(node.lvalue, c_ast.ID):
                self.collect(node.lvalue, found, scope, seen)
            self.collect(node.rvalue, found, scope, seen)
            return
        if isinstance(node, c_ast.UnaryOp) and node.op in ("++", "--", "p++", "p--"):
            found.writes |= self.names_of(node.expr, scope)
        if isinstance(node, c_ast.UnaryOp) and node.op in ("sizeof", "&"):
            return
        if isinstance(node, (c_ast.ID, c_ast.StructRef, c_ast.ArrayRef)) or (isinstance(node, c_ast.UnaryOp) and node.op == "*"):
            found.reads |= self.names_of(node, scope)
        for name, child in node.children():
            if not (isinstance(node, c_ast.StructRef) and name == "field"):
                self.collect(child, found, scope, seen)

    def collect_call(self, node, found: Found, scope, seen) -> None:
        for argument in (node.args.exprs if node.args else []):
            self.collect(argument, found, scope, seen)
            if isinstance(argument, c_ast.UnaryOp) and argument.op == "&":
                found.called |= self.names_of(argument.expr, scope)
                found.reads |= self.names_of(argument.expr, scope)
        name = node.name.name if isinstance(node.name, c_ast.ID) else None
        definition = self.functions.get(name)
        if definition is None or name in seen:
            return
        inner = self.effects_of_body(name, definition, seen)
        found.reads |= inner.reads
        found.called |= inner.called | inner.writes

    def effects_of_body(self, name: str, definition, seen) -> Found:
        """What a function does to the objects of the file; what is local to it is left out, unless a global has its name."""
        if name not in self.known_effects:
            found = Found()
            self.collect(definition.body, found, FileScope(self.scope), seen | {name})
            globals_ = self.global_names()
            found.reads &= globals_
            found.writes &= globals_
            found.called &= globals_
            self.known_effects[name] = found
        return self.known_effects[name]

    def global_names(self) -> set[str]:
        names = {MEMORY}
        for meaning in self.scope.blocks[0].values():
            if not isinstance(meaning, FunctionNamed):
                names |= {slot.name for slot in slots_of(meaning)}
        return names

    def refuse_unsequenced(self, operands: list, what: str) -> None:
        """Refuses operands of which one writes what another one reads or writes."""
        if not any(self.may_write(operand) for operand in operands):
            return
        found = [self.effects(operand) for operand in operands]
        for at, one in enumerate(found):
            written = one.writes | one.called
            for other in found[:at] + found[at + 1:]:
                both = written & (other.reads | other.writes | other.called)
                if both:
                    raise Refused(f"side effects without an order in the operands of {what}, on {', '.join(sorted(both))}", line_of(operands[at]))

    def refuse_assignment(self, node) -> None:
        """Refuses an assignment whose sides write what it writes, or what the other side reads."""
        if not self.may_write(node.lvalue) and not self.may_write(node.rvalue):
            return
        right, target = self.effects(node.rvalue), self.names_of(node.lvalue, self.scope)
        left = self.effects(node.lvalue)
        both = (right.writes & target) | ((right.writes | right.called) & (left.reads - target)) | (left.writes & right.reads)
        if node.op != "=":
            both |= right.called & target
        if both - {MEMORY}:
            raise Refused(f"side effects without an order in an assignment, on {', '.join(sorted(both))}", line_of(node))

    def may_write(self, node) -> bool:
        if isinstance(node, (c_ast.Assignment, c_ast.FuncCall)):
            return True
        if isinstance(node, c_ast.UnaryOp) and node.op in ("++", "--", "p++", "p--"):
            return True
        return node is not None and any(self.may_write(child) for _, child in node.children())


class FileScope:
    """The names of the file alone."""

    def __init__(self, scope):
        self.scope = scope

    def find(self, name: str):
        return self.scope.blocks[0].get(name)
