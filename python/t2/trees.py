"""The trees of sums, conditions and formulas, and the parser that reads them, as docs/language.md has them.

| kind | of |
| --- | --- |
| `number`, `wide`, `name`, `draw`, `minus`, `sum`, `product`, `quotient`, `remainder` | sums |
| `truth`, `compare`, `not`, `and`, `or` | conditions |
| `at`, `term`, `next`, `fix` | formulas besides |

A difference is a sum with a `minus` in it. In a tree whose names have numbers, a `variable` stands for each `name`.
"""
from dataclasses import dataclass, field, replace

from t2.tokens import LABELS, LEXICON, QUOTIENTS, WITH_QUOTIENTS, Token

RELATIONS = ("<", "<=", ">", ">=", "==", "!=")
OPPOSITE = {"<": ">=", "<=": ">", ">": "<=", ">=": "<", "==": "!=", "!=": "=="}
ONE = ("AX", "EX", "AF", "EF", "AG", "EG")
TWO = ("AU", "EU", "AW", "EW", "AR", "ER", "AM", "EM")


@dataclass(frozen=True)
class Tree:
    """A part of a tree, and where it stands. What `word` is depends on the kind: a relation, an operator, a truth value, a name, a label. The
    number is that of a number, a variable, a draw or a location."""
    kind: str
    word: str = ""
    parts: tuple["Tree", ...] = ()
    number: int = 0
    start: int = field(default=0, compare=False)
    end: int = field(default=0, compare=False)

    def __iter__(self):
        """Each node of the tree, in the order of the text."""
        yield self
        for part in self.parts:
            yield from part


Read = tuple[Tree, int] | None


def joined(kind: str, parts: list[Tree]) -> Tree:
    """The parts under one node, or the only one of them."""
    return parts[0] if len(parts) == 1 else Tree(kind, "", tuple(parts), 0, parts[0].start, parts[-1].end)


class Parser:
    """Reads from a token on. Each rule answers what it read and the next token's number, or None. What was looked for at the furthest token
    that was looked at is kept for messages."""
    lexicon = LEXICON
    ands, ors, products = ("&&",), ("||",), ("*",)
    relations = {it: it for it in RELATIONS}
    truths = {"true": "true", "false": "false"}

    def __init__(self, text: str, has_quotients: bool = False):
        if has_quotients:
            self.lexicon, self.products = WITH_QUOTIENTS, ("*", *QUOTIENTS)
        self.text, self.tokens = text, self.lexicon.tokens(text)
        self.furthest, self.wanted, self.memo = 0, [], {}

    @property
    def seen(self) -> Token:
        """The furthest token that was looked at: where nothing could be read, the one at fault."""
        return self.tokens[self.furthest]

    def want(self, at: int, shown: str) -> None:
        if at > self.furthest:
            self.furthest, self.wanted = at, []
        if at == self.furthest and shown not in self.wanted:
            self.wanted.append(shown)

    def take(self, at: int, kind: str, shown: str = "") -> int | None:
        """The next token's number, where the token is of this kind."""
        if self.tokens[at].kind == kind:
            return at + 1
        self.want(at, shown or f"`{kind}`")
        return None

    def kept(self, rule: str, at: int) -> Read:
        """What a rule answers at a token, asked once."""
        if (rule, at) not in self.memo:
            self.memo[rule, at] = getattr(self, rule)(at)
        return self.memo[rule, at]

    def chain(self, at: int, rule: str, symbols: tuple[str, ...], join) -> Read:
        """One or more of a rule with symbols between them; `join` is given the parts, each with the symbol before it."""
        first = self.kept(rule, at)
        if first is None:
            return None
        parts, at = [("", first[0])], first[1]
        while symbol := next((it for it in symbols if self.take(at, it)), None):
            more = self.kept(rule, at + 1)
            if more is None:
                return None
            parts.append((symbol, more[0]))
            at = more[1]
        return join(parts), at

    # ---- conditions

    def condition(self, at: int) -> Read:
        return self.chain(at, "conjunct", self.ors, lambda parts: joined("or", [part for _, part in parts]))

    def conjunct(self, at: int) -> Read:
        return self.chain(at, "test", self.ands, lambda parts: joined("and", [part for _, part in parts]))

    def test(self, at: int) -> Read:
        return self.kept("plain", at) or self.kept("comparison", at)

    def plain(self, at: int) -> Read:
        token = self.tokens[at]
        for word, value in self.truths.items():
            if self.take(at, word):
                return Tree("truth", value, (), 0, token.start, token.end), at + 1
        if self.take(at, "!"):
            return self.signed("not", at, "plain")
        return self.bracketed(at, "condition")

    def signed(self, kind: str, at: int, rule: str) -> Read:
        """What a rule reads behind a sign."""
        inner = self.kept(rule, at + 1)
        return inner and (Tree(kind, "", (inner[0],), 0, self.tokens[at].start, inner[0].end), inner[1])

    def bracketed(self, at: int, rule: str) -> Read:
        if not self.take(at, "("):
            return None
        inner = self.kept(rule, at + 1)
        if inner is None or not self.take(inner[1], ")"):
            return None
        return replace(inner[0], start=self.tokens[at].start, end=self.tokens[inner[1]].end), inner[1] + 1

    def comparison(self, at: int) -> Read:
        left = self.kept("sum", at)
        if left is None:
            return None
        sign = next((it for it in self.relations if self.take(left[1], it, f"a relation ({', '.join(RELATIONS)})")), None)
        right = sign and self.kept("sum", left[1] + 1)
        return right and (Tree("compare", self.relations[sign], (left[0], right[0]), 0, left[0].start, right[0].end), right[1])

    # ---- sums

    def sum(self, at: int) -> Read:
        return self.chain(at, "product", ("+", "-"), added)

    def product(self, at: int) -> Read:
        return self.chain(at, "factor", self.products, multiplied)

    def factor(self, at: int) -> Read:
        token = self.tokens[at]
        for kind, shown in (("number", "a number"), ("wide", "a number"), ("name", "a name")):
            if self.take(at, kind, shown):
                return Tree(kind, token.text, (), int(token.text) if kind == "number" else 0, token.start, token.end), at + 1
        if self.take(at, "-"):
            return self.signed("minus", at, "factor")
        return self.draw(at) or self.bracketed(at, "sum")

    def draw(self, at: int) -> Read:
        if not self.take(at, "nondet") or not self.take(at + 1, "(") or not self.take(at + 2, ")"):
            return None
        return Tree("draw", "", (), 0, self.tokens[at].start, self.tokens[at + 2].end), at + 3


def added(parts: list[tuple[str, Tree]]) -> Tree:
    """A sum of what `+` and `-` stand before."""
    return joined("sum", [Tree("minus", "", (part,), 0, part.start, part.end) if sign == "-" else part for sign, part in parts])


def multiplied(parts: list[tuple[str, Tree]]) -> Tree:
    """A product; a quotient or remainder is of all that stands before it."""
    factors: list[Tree] = []
    for sign, part in parts:
        if sign in ("/", "%"):
            whole = joined("product", factors)
            factors = [Tree("quotient" if sign == "/" else "remainder", "", (whole, part), 0, whole.start, part.end)]
        else:
            factors.append(part)
    return joined("product", factors)


class FormulaParser(Parser):
    """A formula has no draws; it has `term`, `at` and operators."""

    def whole(self) -> Tree | None:
        """The formula that the text is, if it is one."""
        found = self.condition(0)
        return found[0] if found and self.take(found[1], "end", "the end of the formula") else None

    def plain(self, at: int) -> Read:
        token = self.tokens[at]
        if token.text == "term":
            return Tree("term", "", (), 0, token.start, token.end), at + 1
        self.want(at, "`term`")
        if token.text == "at":
            return self.place(at)
        self.want(at, "`at`")
        return self.operator(at) if token.kind == "[" else super().plain(at)

    def place(self, at: int) -> Read:
        token = self.tokens[at + 1] if self.take(at + 1, "(") else None
        if token is None:
            return None
        label = self.tokens[at + 2]
        if label.kind not in LABELS or label.text in ("term", "at"):
            return self.want(at + 2, "a label")
        return self.take(at + 3, ")") and (Tree("at", label.text, (), 0, self.tokens[at].start, self.tokens[at + 3].end), at + 4)

    def operator(self, at: int) -> Read:
        word = self.tokens[at + 1].text
        if word not in (*ONE, *TWO):
            return self.want(at + 1, f"an operator ({' '.join((*ONE, *TWO))})")
        here, parts = self.take(at + 2, "]"), []
        for _ in range(1 if word in ONE else 2):
            inner = here and self.bracketed(here, "condition")
            if not inner:
                return None
            parts, here = [*parts, inner[0]], inner[1]
        kind = "next" if word[1] == "X" else "fix"
        return Tree(kind, word, tuple(parts), 0, self.tokens[at].start, self.tokens[here - 1].end), here

    def factor(self, at: int) -> Read:
        if self.tokens[at].text not in ("term", "at"):
            return super().factor(at)
        for it in ("a number", "a name"):
            self.want(at, it)
        return None

    def draw(self, at: int) -> Read:
        return None


def listed(wanted: list[str]) -> str:
    """What could stand at a place, in words."""
    wanted = [it for it in wanted if it not in ("`]`",)] or wanted
    return wanted[0] if len(wanted) == 1 else ", ".join(wanted[:-1]) + " or " + wanted[-1]


def names_in(node: Tree) -> list[str]:
    """The names in a tree, in the order of the text."""
    return [it.word for it in node if it.kind in ("name", "variable")]


def has_name(node: Tree) -> bool:
    """Whether a name or a draw stands in the tree."""
    return any(it.kind in ("name", "variable", "draw") for it in node)
