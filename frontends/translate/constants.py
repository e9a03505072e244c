"""Constant expressions: their values and types as C has them."""
from __future__ import annotations

import re

from pycparser import c_ast

from .kinds import Pointer, Whole
from .refusal import Refused
from .scope import EnumConstant, Slot

ESCAPES = {"n": 10, "t": 9, "r": 13, "0": 0, "a": 7, "b": 8, "f": 12, "v": 11, "\\": 92, "'": 39, '"': 34, "?": 63, "e": 27}


def wrapped(value: int, kind: Whole) -> int:
    """The value of the type that is the same modulo its width."""
    if kind.name == "_Bool":
        return int(value != 0)
    return (value - kind.least) % (1 << kind.width) + kind.least


def character(text: str) -> int:
    """The value of a character constant of type int."""
    body = text[text.index("'") + 1:-1]
    if not body.startswith("\\"):
        return ord(body) if len(body) == 1 and ord(body) < 128 else bad_character(text)
    if re.fullmatch(r"\\[0-7]{1,3}", body):
        value = int(body[1:], 8)
    elif re.fullmatch(r"\\x[0-9a-fA-F]+", body):
        value = int(body[2:], 16)
    elif body[1:] in ESCAPES:
        return ESCAPES[body[1:]]
    else:
        return bad_character(text)
    return (value + 128) % 256 - 128


def bad_character(text: str) -> int:
    raise Refused(f"the character constant {text}")


class Constants:
    """Evaluates; needs `scope` and `types`, and `type_of` for casts and sizes."""

    def constant(self, node) -> int:
        found = self.folded(node)
        if found is None:
            raise Refused("an expression where a constant is wanted", node.coord.line if getattr(node, "coord", None) else None)
        return found[0]

    def folded(self, node) -> tuple[int, Whole] | None:
        """The value and the type, or None where it is no constant or its value is not defined."""
        if isinstance(node, c_ast.Constant):
            return self.literal(node)
        if isinstance(node, c_ast.ID):
            return self.named_constant(node.name)
        if isinstance(node, c_ast.UnaryOp):
            return self.folded_unary(node)
        if isinstance(node, c_ast.BinaryOp):
            return self.folded_binary(node)
        if isinstance(node, c_ast.TernaryOp):
            return self.folded_choice(node)
        if isinstance(node, c_ast.Cast):
            return self.folded_cast(node)
        return None

    def literal(self, node) -> tuple[int, Whole] | None:
        text = node.value
        if "char" in node.type and "'" in text:
            return character(text), self.types.int
        match = re.fullmatch(r"(0[xX][0-9a-fA-F]+|0[bB][01]+|\d+)([uUlL]*)", text)
        if not match:
            return None
        digits, suffix = match.group(1), match.group(2).lower()
        if digits.lower().startswith("0x"):
            value, decimal = int(digits, 16), False
        elif digits.lower().startswith("0b"):
            value, decimal = int(digits[2:], 2), False
        elif digits.startswith("0") and len(digits) > 1:
            value, decimal = int(digits, 8), False
        else:
            value, decimal = int(digits), True
        return value, self.types.of_literal(value, suffix, decimal)

    def named_constant(self, name: str) -> tuple[int, Whole] | None:
        meaning = self.scope.find(name)
        if isinstance(meaning, EnumConstant):
            return meaning.value, self.types.int
        if isinstance(meaning, Slot) and meaning.constant is not None:
            return meaning.constant, meaning.type
        return None

    def folded_unary(self, node) -> tuple[int, Whole] | None:
        if node.op == "sizeof":
            return self.size(node.expr)
        if node.op not in ("-", "+", "~", "!"):
            return None
        inner = self.folded(node.expr)
        if inner is None:
            return None
        if node.op == "!":
            return int(inner[0] == 0), self.types.int
        kind = self.types.promoted(inner[1])
        value = {"-": -inner[0], "+": inner[0], "~": ~inner[0]}[node.op]
        return self.defined(value, kind)

    def defined(self, value: int, kind: Whole) -> tuple[int, Whole] | None:
        """The value in its type: it wraps where that is unsigned, and is no constant where a signed one overflows."""
        if kind.least <= value <= kind.most:
            return value, kind
        return None if kind.signed else (wrapped(value, kind), kind)

    def folded_binary(self, node) -> tuple[int, Whole] | None:
        left = self.folded(node.left)
        if left is not None and node.op in ("&&", "||") and bool(left[0]) == (node.op == "||"):
            return int(node.op == "||"), self.types.int
        right = self.folded(node.right)
        if left is None or right is None:
            return None
        if node.op in ("&&", "||"):
            return int(right[0] != 0), self.types.int
        if node.op in ("<<", ">>"):
            kind = self.types.promoted(left[1])
            if not 0 <= right[0] < kind.width or (node.op == "<<" and kind.signed and left[0] < 0):
                return None
            return self.defined(left[0] << right[0] if node.op == "<<" else left[0] >> right[0], kind)
        kind = self.types.common(left[1], right[1])
        return self.operated(node.op, wrapped(left[0], kind), wrapped(right[0], kind), kind)

    def operated(self, op: str, left: int, right: int, kind: Whole) -> tuple[int, Whole] | None:
        compared = {"<": left < right, "<=": left <= right, ">": left > right, ">=": left >= right, "==": left == right, "!=": left != right}
        if op in compared:
            return int(compared[op]), self.types.int
        if op in ("/", "%"):
            if right == 0:
                return None
            quotient = abs(left) // abs(right) * (1 if (left < 0) == (right < 0) else -1)
            if not kind.least <= quotient <= kind.most:
                return None
            return (quotient if op == "/" else left - quotient * right), kind
        value = {"+": left + right, "-": left - right, "*": left * right, "&": left & right, "|": left | right, "^": left ^ right}.get(op)
        return None if value is None else self.defined(value, kind)

    def folded_choice(self, node) -> tuple[int, Whole] | None:
        asked, yes, no = self.folded(node.cond), self.folded(node.iftrue), self.folded(node.iffalse)
        if asked is None or yes is None or no is None:
            return None
        kind = self.types.common(yes[1], no[1])
        return wrapped(yes[0] if asked[0] else no[0], kind), kind

    def folded_cast(self, node) -> tuple[int, Whole] | None:
        kind, _ = self.type_of(node.to_type)
        inner = self.folded(node.expr)
        if inner is None or isinstance(kind, Pointer) or not isinstance(kind, Whole):
            return None
        return wrapped(inner[0], kind), kind

    def size(self, node) -> tuple[int, Whole] | None:
        """`sizeof`, of a type or of an expression, which is not evaluated."""
        kind = self.type_of(node)[0] if isinstance(node, c_ast.Typename) else self.static_type(node)
        size = self.types.size_of(kind) if kind is not None else None
        return None if size is None else (size, self.types.size)
