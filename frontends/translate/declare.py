"""The types and constants that declarations say."""
from __future__ import annotations

from pycparser import c_ast

from .constants import Constants
from .kinds import Array, Floating, Function, Pointer, Record, Void, Whole, spelled
from .refusal import Refused
from .scope import EnumConstant, TypeNamed


def line_of(node) -> int | None:
    """The line of a node, or of the first of its children that has one."""
    if node is None:
        return None
    if getattr(node, "coord", None) and node.coord.line:
        return node.coord.line
    return next((line for _, child in node.children() if (line := line_of(child))), None)


class Declarations(Constants):
    """Types of declarators; needs `scope` and `types`."""

    def type_of(self, node) -> tuple[object, frozenset[str]]:
        """The type that a declarator says, and its qualifiers."""
        if isinstance(node, (c_ast.Decl, c_ast.Typename)):
            kind, qualifiers = self.type_of(node.type)
            return kind, qualifiers | frozenset(node.quals or [])
        if isinstance(node, c_ast.TypeDecl):
            kind, qualifiers = self.type_of(node.type)
            return kind, qualifiers | frozenset(node.quals or [])
        if isinstance(node, c_ast.PtrDecl):
            return Pointer(self.type_of(node.type)[0]), frozenset(node.quals or [])
        if isinstance(node, c_ast.ArrayDecl):
            element, qualifiers = self.type_of(node.type)
            length = self.constant(node.dim) if node.dim is not None else None
            return Array(element, length), qualifiers
        if isinstance(node, c_ast.FuncDecl):
            return Function(self.type_of(node.type)[0]), frozenset()
        if isinstance(node, c_ast.IdentifierType):
            return self.type_named(node)
        if isinstance(node, (c_ast.Struct, c_ast.Union)):
            return self.record(node), frozenset()
        if isinstance(node, c_ast.Enum):
            return self.enum(node), frozenset()
        raise Refused(f"a declaration of the form {type(node).__name__}", line_of(node))

    def type_named(self, node) -> tuple[object, frozenset[str]]:
        names = list(node.names)
        if len(names) == 1:
            meaning = self.scope.find(names[0])
            if isinstance(meaning, TypeNamed):
                return meaning.type, meaning.qualifiers
        if names == ["void"]:
            return Void(), frozenset()
        if any(name in ("float", "double", "_Complex") for name in names):
            return Floating(" ".join(names)), frozenset()
        try:
            spelling = spelled(names)
        except Refused as refusal:
            raise Refused(refusal.what, line_of(node)) from None
        if spelling not in self.types.wholes:
            raise Refused(f"the type {spelling}", line_of(node))
        return self.types.wholes[spelling], frozenset()

    def record(self, node) -> Record:
        """A struct or union; one that is declared again with members completes the one that is known."""
        union = isinstance(node, c_ast.Union)
        tag = ("union " if union else "struct ") + (node.name or f"at line {line_of(node)}, {id(node)}")
        known = self.scope.find_tag(tag, innermost=node.decls is not None)
        if known is None:
            known = Record(node.name or "without a name", union)
            self.scope.declare_tag(tag, known)
        if node.decls is not None and known.members is None:
            known.members = {}
            for member in node.decls:
                if isinstance(member, c_ast.Decl):
                    self.add_member(known, member)
        return known

    def add_member(self, record: Record, member) -> None:
        kind, qualifiers = self.type_of(member)
        if member.bitsize is not None and isinstance(kind, Whole):
            width = self.constant(member.bitsize)
            record.packed = True
            kind = Whole(kind.name, width, kind.signed, min(kind.rank, 2 if width < 32 else kind.rank)) if kind.name != "_Bool" else kind
        if member.name is None:
            if isinstance(kind, Record) and kind.members:
                record.members.update(kind.members)
                record.qualifiers.update(kind.qualifiers)
            return
        record.members[member.name] = kind
        record.qualifiers[member.name] = qualifiers

    def enum(self, node) -> Whole:
        """As gcc has it: `unsigned int` where no member is negative, else `int`; the members themselves are `int`."""
        tag = f"enum {node.name or f'at line {line_of(node)}, {id(node)}'}"
        if node.values is None or (self.scope.find_tag(tag, innermost=True) is not None):
            known = self.scope.find_tag(tag)
            if known is None:
                raise Refused(f"{tag}, which is not declared", line_of(node))
            return known
        value, values = -1, []
        for member in node.values.enumerators:
            value = self.constant(member.value) if member.value is not None else value + 1
            values.append(value)
            self.scope.declare(member.name, EnumConstant(value, node.name or ""))
        kind = self.types.int if min(values) < 0 else self.types.uint
        kind = Whole(kind.name, kind.width, kind.signed, kind.rank)
        self.enum_types[id(kind)] = kind, {value: member.name for value, member in zip(values, node.values.enumerators)}
        self.scope.declare_tag(tag, kind)
        return kind
