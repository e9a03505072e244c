"""Certificates of version 1 and 2 (docs/certificates.md): nodes with their pieces and with what is shown of each piece.

The text of a certificate does not say of which formula it is. Where no formula is given, the path and the shape of each fixed point are
those by which its lines fit; so they may be others than those of the formula where that makes no difference to any line.
"""
import copy
import re
from collections import deque
from dataclasses import dataclass, field, replace

from t2.formulas import FALSE, TRUE, arguments, node_kind
from t2.linear import Case, Row, Terms
from t2.program import Program
from t2.tokens import Fault
from t2.trees import Tree

KINDS = {"atom": 0, "and": None, "or": None, "next": 1, "fix": 2, "term": 0, "noterm": 0}
NUMBER = re.compile(r"0|-?[1-9][0-9]{0,18}")
# how many rows a target owes where it is not there
NO_TARGET = -1


class Misfit(Exception):
    """The line does not fit here."""

    def __init__(self, at: int, text: str):
        self.at = at
        super().__init__(text)


@dataclass
class Piece:
    location: int
    goes: bool
    rows: list[Row]
    ranks: list[Row] = field(default_factory=list)
    # covers of the children or end sides, of which an `or` and the hold side of a fixed point have one; a choice; covers by case
    inside: list[tuple] = field(default_factory=list)
    choice: tuple | None = None
    steps: dict[int, tuple] = field(default_factory=dict)


@dataclass
class Node:
    kind: str
    pieces: list[Piece]
    ranks: int
    line: int
    children: list["Node"] = field(default_factory=list)
    path: str = ""
    shape: str = ""
    formula: Tree | None = None
    number: int = 0

    def at(self, location: int) -> list[Piece]:
        """The targets at a location, in order."""
        return [piece for piece in self.pieces if piece.location == location]

    @property
    def hold_side(self) -> "Node":
        return self.children[0 if self.shape in "UW" else 1]

    @property
    def end_sides(self) -> list["Node"]:
        return self.children[1:] if self.shape in "UW" else self.children

    @property
    def falls(self) -> bool:
        """Whether an end has to come: the ranks fall."""
        return self.kind == "term" or self.kind == "fix" and self.shape in "UM"


@dataclass
class Certificate:
    """What is proved has a cover of the start, and what is disproved a piece there and values."""
    version: int
    proved: bool
    root: Node
    start: tuple | None = None
    piece: int = 0
    values: tuple[int, ...] = ()


def certificate_lines(text: str) -> list[list[str]]:
    """The lines of a certificate in the output of the program, each as its words."""
    lines = text.replace("\r\n", "\n").split("\n")
    first = next((at for at, line in enumerate(lines) if line.startswith("T2CERT")), None)
    if first is None:
        answer = next((line.strip() for line in lines if line.strip()), "")
        hint = f" (the first line is `{answer}`): `t2verdict .. --certificate` writes one" if answer else ""
        raise Fault(f"no certificate is there{hint}")
    return [line.split(" ") for line in lines[first:] if line]


class CertificateReader:
    """Reads the lines of a certificate of a program. The formula, where it is known, is the one that the root shows."""

    def __init__(self, lines: list[list[str]], program: Program, cases: list[Case]):
        self.lines, self.program, self.cases = lines, program, cases
        self.variables = len(program.variables)
        self.leaving: dict[int, list[Case]] = {at: [] for at in range(len(program.labels))}
        for case in cases:
            self.leaving[case.source].append(case)
        self.shared: dict[int, Node] = {}
        self.known: dict[tuple[int, int], list[tuple[Node, int]]] = {}
        self.furthest = Misfit(0, "no certificate")

    # ---- lines

    def word(self, at: int) -> str:
        return self.lines[at][0] if at < len(self.lines) else ""

    def misfit(self, at: int, text: str) -> Misfit:
        found = Misfit(at, text)
        if at >= self.furthest.at:
            self.furthest = found
        return found

    def numbers(self, at: int, word: str, count: int | None = None, skipped: int = 1) -> tuple[int, ...]:
        """The numbers of a line that begins with the word, from the word with the number `skipped` on."""
        if self.word(at) != word:
            raise self.misfit(at, f"`{word}` is wanted")
        words = self.lines[at][skipped:]
        if not all(NUMBER.fullmatch(one) for one in words):
            raise self.misfit(at, "a number is wanted")
        if count is not None and len(words) != count:
            raise self.misfit(at, f"{count} numbers are wanted and {len(words)} are there")
        return tuple(int(one) for one in words)

    def row(self, at: int, word: str, columns: int, skipped: int = 1) -> Row:
        return self.numbers(at, word, columns + 1, skipped)

    # ---- covers and choices

    def shown(self, at: int, count: int | None, known: int) -> tuple[list[Row], int]:
        """The multipliers of `count` lines `by`, or of those that are there where no count is known, and the line after them."""
        lists: list[Row] = []
        while len(lists) < count if count is not None else self.word(at) == "by":
            lists.append(self.numbers(at, "by", known + 1))
            at += 1
        return lists, at

    def cover(self, at: int, known: int, columns: int, owed) -> tuple[tuple, int]:
        """A cover of a place with `known` rows; `owed` tells how many rows a target and a fall owe, or None where it is not known."""
        word = self.word(at)
        if word == "split":
            row = self.row(at, "split", columns)
            met, at = self.cover(at + 1, known + 1, columns, owed)
            denied, at = self.cover(at, known + 1, columns, owed)
            return ("split", row, met, denied), at
        if word == "empty":
            return ("empty", self.numbers(at, "empty", known)), at + 1
        target, fall = self.numbers(at, "into", 2)
        lists, at = self.shown(at + 1, self.owed(at, owed, target, fall), known)
        return ("into", target, fall, lists), at

    def owed(self, at: int, owed, target: int, fall: int) -> int | None:
        count = owed(target, fall)
        if count == NO_TARGET:
            raise self.misfit(at, f"there is no target {target} with the fall {fall}")
        return count

    def choice(self, at: int, location: int, known: int, stops: bool, owed) -> tuple[tuple, int]:
        """A choice at a location; `owed` is told the case, the target and the fall."""
        word = self.word(at)
        if word == "split":
            row = self.row(at, "split", self.variables)
            met, at = self.choice(at + 1, location, known + 1, stops, owed)
            denied, at = self.choice(at, location, known + 1, stops, owed)
            return ("split", row, met, denied), at
        if word == "empty":
            return ("empty", self.numbers(at, "empty", known)), at + 1
        if word == "nostep" and stops:
            return self.no_step(at + 1, location, known)
        return self.take(at, location, known, owed)

    def no_step(self, at: int, location: int, known: int) -> tuple[tuple, int]:
        covers = []
        for case in self.leaving[location]:
            cover, at = self.cover(at, known + len(case.guards), self.variables + case.draws, lambda target, fall: NO_TARGET)
            covers.append(cover)
        return ("nostep", covers), at

    def take(self, at: int, location: int, known: int, owed) -> tuple[tuple, int]:
        number, target, fall = self.numbers(at, "take", 3)
        case = self.cases[number] if 0 <= number < len(self.cases) else None
        if case is None or case.source != location:
            raise self.misfit(at, f"no case {number} leaves the location {self.program.labels[location]}")
        count = self.owed(at, lambda target, fall: owed(case, target, fall), target, fall)
        draws, floors, at = [], 0, at + 1
        for _ in range(case.draws):
            is_floor = self.lines[at][1:2] == ["floor"] if at < len(self.lines) else False
            numbers = self.numbers(at, "draw", self.variables + 1 + is_floor, 2 if is_floor else 1)
            draws.append((numbers[1:], numbers[0]) if is_floor else (numbers, 1))
            floors, at = floors + is_floor, at + 1
        lists, at = self.shown(at, count + len(case.guards), known + 2 * floors)
        return ("take", number, target, fall, draws, lists), at

    # ---- nodes

    def piece(self, at: int, ranks: int) -> tuple[Piece, int]:
        words = self.lines[at] if at < len(self.lines) else []
        if len(words) != 4 or words[0] != "piece" or words[2] not in ("done", "go"):
            raise self.misfit(at, "a piece is wanted")
        location, rows = self.number(at, words[1]), self.number(at, words[3])
        if location >= len(self.program.labels):
            raise self.misfit(at, f"the program has no location {location}")
        goes = words[2] == "go"
        found = Piece(location, goes, [self.row(at + 1 + one, "row", self.variables) for one in range(rows)])
        at += 1 + rows
        for _ in range(ranks if goes else 0):
            found.ranks.append(self.row(at, "rank", self.variables))
            at += 1
        return found, at

    def number(self, at: int, word: str) -> int:
        if not NUMBER.fullmatch(word) or int(word) < 0:
            raise self.misfit(at, "a number is wanted")
        return int(word)

    def node(self, at: int, formula: Tree | None) -> list[tuple[Node, int]]:
        """The ways to read a node from a line on, one for each line that may follow it, and the number of that line."""
        if self.word(at) == "same":
            (number,) = self.numbers(at, "same", 1)
            if number not in self.shared:
                raise self.misfit(at, f"no node is called {number}")
            return [(copy.deepcopy(self.shared[number]), at + 1)]
        if (at, id(formula)) in self.known:
            return self.known[at, id(formula)]
        name = self.numbers(at, "share", 1)[0] if self.word(at) == "share" else None
        found = self.plain_node(at + (name is not None), formula)
        if name is not None:
            self.shared[name] = found[0][0]
        self.known[at, id(formula)] = found
        return found

    def plain_node(self, at: int, formula: Tree | None) -> list[tuple[Node, int]]:
        words = self.lines[at] if at < len(self.lines) else []
        if len(words) != 4 or words[0] != "node" or words[1] not in KINDS:
            raise self.misfit(at, "a node is wanted")
        if formula is not None and words[1] != node_kind(formula):
            raise self.misfit(at, f"the formula wants a node of the kind `{node_kind(formula)}`")
        count, ranks, begins, pieces = self.number(at, words[2]), self.number(at, words[3]), at, []
        at += 1
        for _ in range(count):
            piece, at = self.piece(at, ranks)
            pieces.append(piece)
        ways: dict[int, Node] = {}
        for children, end in self.child_lists(at, words[1], formula):
            for path, shape in shapes(words[1], ranks, formula):
                fresh = [replace(piece, inside=[], steps={}) for piece in pieces]
                node = Node(words[1], fresh, ranks, begins + 1, children, path, shape, formula)
                try:
                    ways.setdefault(self.proofs(node, end), node)
                except Misfit:
                    continue
        if not ways:
            raise self.furthest
        return [(node, end) for end, node in ways.items()]

    def child_lists(self, at: int, kind: str, formula: Tree | None) -> list[tuple[list[Node], int]]:
        """The ways to read the children of a node, which are two or more where its kind does not tell how many. Of ways with the same end,
        as many children and the same pieces one is enough."""
        wanted = arguments(formula) if formula is not None else None
        count = len(wanted) if wanted is not None else KINDS[kind]
        found, open_ones, seen = [], deque([([], at)]), set()
        while open_ones:
            children, end = open_ones.popleft()
            key = (end, len(children), tuple(child.line for child in children if child.pieces))
            if key in seen:
                continue
            seen.add(key)
            if len(children) == count or count is None and len(children) > 1:
                found.append((children, end))
            if len(children) == count or count is None and self.word(end) not in ("node", "share", "same"):
                continue
            argument = wanted[len(children)] if wanted is not None else None
            open_ones += [(children + [child], after) for child, after in self.ways(end, argument)]
        return found

    def ways(self, at: int, formula: Tree | None) -> list[tuple[Node, int]]:
        """The ways to read a node, none where no node fits."""
        try:
            return self.node(at, formula)
        except Misfit:
            return []

    # ---- what is shown of each piece

    def proofs(self, node: Node, at: int) -> int:
        for piece in node.pieces:
            at = self.piece_proofs(node, piece, at)
        return at

    def piece_proofs(self, node: Node, piece: Piece, at: int) -> int:
        kind = node.kind
        if kind == "atom":
            return self.inside(piece, at, self.atom_owed(node.formula, piece))
        if kind == "and":
            return self.all_inside(piece, at, node.children)
        if kind == "or":
            return self.inside(piece, at, into([target for child in node.children for target in child.at(piece.location)]))
        if kind == "fix" and not piece.goes:
            return self.all_inside(piece, at, node.end_sides)
        if kind == "fix":
            at = self.inside(piece, at, into(node.hold_side.at(piece.location)))
        into_node = node.children[0] if kind == "next" else node
        if kind == "noterm" or node.path == "E":
            return self.chosen(node, piece, at, into_node)
        if node.falls and kind == "fix":
            piece.choice, at = self.choice(at, piece.location, len(piece.rows), False, anywhere)
        return self.stepped(node, piece, at, into_node)

    def inside(self, piece: Piece, at: int, owed) -> int:
        cover, at = self.cover(at, len(piece.rows), self.variables, owed)
        piece.inside.append(cover)
        return at

    def all_inside(self, piece: Piece, at: int, children: list[Node]) -> int:
        for child in children:
            at = self.inside(piece, at, into(child.at(piece.location)))
        return at

    def atom_owed(self, formula: Tree | None, piece: Piece):
        """The targets of an atom: the lists of rows of its comparison, or one without rows where it is true at the location."""
        if formula is None:
            return lambda target, fall: None if fall == 0 else NO_TARGET
        lists = Terms(self.variables, 0, 0).lists(at_location(formula, piece.location))
        return lambda target, fall: len(lists[target]) if fall == 0 and 0 <= target < len(lists) else NO_TARGET

    def chosen(self, node: Node, piece: Piece, at: int, into_node: Node) -> int:
        stops = node.kind == "fix" and not node.falls

        def owed(case: Case, target: int, fall: int) -> int | None:
            return into(into_node.at(case.target), node)(target, fall)

        piece.choice, at = self.choice(at, piece.location, len(piece.rows), stops, owed)
        return at

    def stepped(self, node: Node, piece: Piece, at: int, into_node: Node) -> int:
        for case in self.leaving[piece.location]:
            known = len(piece.rows) + len(case.guards)
            piece.steps[case.number], at = self.cover(at, known, self.variables + case.draws, into(into_node.at(case.target), node))
        return at

    # ---- the whole

    def certificate(self, proved: Tree | None, denied: Tree | None) -> Certificate:
        """The certificate of the formula `proved`, or of `denied` where it says so."""
        if self.lines[0] not in (["T2CERT", "1"], ["T2CERT", "2"]):
            raise Fault("the certificate is of a version that is not known")
        if self.word(1) not in ("proved", "disproved"):
            raise Fault("line 2 of the certificate is neither `proved` nor `disproved`")
        is_proved = self.word(1) == "proved"
        for root, at in self.ways(2, proved if is_proved else denied):
            try:
                return self.ended(int(self.lines[0][1]), is_proved, root, at)
            except Misfit:
                continue
        raise Fault(f"line {self.furthest.at + 1} of the certificate: {self.furthest}")

    def ended(self, version: int, proved: bool, root: Node, at: int) -> Certificate:
        found = Certificate(version, proved, root)
        if proved:
            found.start, at = self.cover(at, 0, self.variables, into(root.at(0)))
        else:
            found.piece, *values = self.numbers(at, "at", self.variables + 1)
            found.values, at = tuple(values), at + 1
            if not 0 <= found.piece < len(root.at(0)):
                raise self.misfit(at - 1, f"there is no piece {found.piece} at the start")
        if self.lines[at:] != [["end"]]:
            raise self.misfit(at, "`end` is wanted")
        for number, node in enumerate(nodes_of(root)):
            node.number = number
        return found


def shapes(kind: str, ranks: int, formula: Tree | None) -> list[tuple[str, str]]:
    """The paths and shapes that a node may have."""
    if kind not in ("next", "fix"):
        return [("", "")]
    if formula is not None:
        return [(formula.word[0], formula.word[1] if kind == "fix" else "")]
    letters = [""] if kind == "next" else "UM" if ranks else "WRUM"
    return [(path, letter) for letter in letters for path in "EA"]


def into(targets: list[Piece], falling: Node | None = None):
    """How many rows are owed on entering a target, where a step of a node that falls goes there."""
    falls = falling is not None and falling.falls

    def count(target: int, fall: int) -> int:
        if not 0 <= target < len(targets):
            return NO_TARGET
        piece = targets[target]
        if falls and piece.goes:
            return len(piece.rows) + fall + 1 if 1 <= fall <= falling.ranks else NO_TARGET
        return len(piece.rows) if fall == 0 else NO_TARGET

    return count


def anywhere(case: Case, target: int, fall: int) -> int:
    """Wherever a case leads there is one target without rows."""
    return 0 if target == fall == 0 else NO_TARGET


def at_location(formula: Tree, location: int) -> Tree:
    """An atom at a location: a comparison stays."""
    if formula.kind == "at":
        return TRUE if formula.number == location else FALSE
    if formula.kind == "not":
        return FALSE if formula.parts[0].number == location else TRUE
    return formula


def nodes_of(root: Node) -> list[Node]:
    """The nodes by their numbers: each comes before its children, and these come in order."""
    return [root] + [node for child in root.children for node in nodes_of(child)]


def read_certificate(
    text: str, program: Program, cases: list[Case], proved: Tree | None = None, denied: Tree | None = None
) -> Certificate:
    """The certificate in a text, of a formula in normal form and its negation where they are known."""
    return CertificateReader(certificate_lines(text), program, cases).certificate(proved, denied)
