"""A checker of certificates for tests alone: whether the multipliers refute what they are to refute, with the rows of python/t2. Where the
program accepts a certificate and this does not, the rows or the numbers of the cases are others than the program's."""
from t2.certificates import Certificate, Node, Piece, at_location, nodes_of
from t2.linear import Case, Row, Terms, plus, raised, scaled
from t2.program import Program


def refutes(rows: list[Row], multipliers: Row) -> bool:
    if len(rows) != len(multipliers) or any(number < 0 for number in multipliers):
        return False
    total = [sum(number * row[at] for number, row in zip(multipliers, rows)) for at in range(len(rows[0]))] if rows else [0]
    return not any(total[:-1]) and total[-1] > 0


def denial(row: Row) -> Row:
    return raised(1, scaled(-1, row))


def widened(row: Row, columns: int) -> Row:
    """The row over more columns."""
    return row[:-1] + (0,) * (columns - len(row) + 1) + row[-1:]


class Obligations:
    """The obligations of a certificate whose formula is known; `unmet` has the nodes of those that are not met."""

    def __init__(self, program: Program, cases: list[Case], certificate: Certificate):
        self.variables, self.cases = len(program.variables), cases
        self.unmet: list[str] = []
        for node in nodes_of(certificate.root):
            for piece in node.pieces:
                self.check(f"node {node.number}", self.is_met(node, piece))
        if certificate.start is not None:
            self.check("root", self.cover([], self.variables, certificate.start, self.into(certificate.root, 0)))

    def check(self, name: str, met: bool) -> None:
        if not met:
            self.unmet.append(name)

    # ---- what is owed on entering targets

    def into(self, node: Node, location: int, change=lambda row: row, fall=None):
        """The rows of target k and fall j at a location, each changed."""
        def owed(target: int, place: int) -> list[Row]:
            piece = node.at(location)[target]
            return [change(row) for row in piece.rows] + (fall(piece, place, change) if fall is not None and piece.goes else [])
        return owed

    def fall(self, piece: Piece, columns: int):
        """The rows of a fall from the ranks of a piece."""
        old = [widened(rank, columns) for rank in piece.ranks]

        def rows(target: Piece, place: int, change) -> list[Row]:
            differences = [plus(change(new), scaled(-1, rank)) for rank, new in zip(old, target.ranks)]
            return differences[:place - 1] + [raised(1, differences[place - 1]), scaled(-1, old[place - 1])]
        return rows

    def stepped(self, case: Case, columns: int):
        """The change of a row by a case."""
        terms = [case.updates.get(at, tuple(int(at == other) for other in range(columns)) + (0,)) for at in range(self.variables)]
        return lambda row: composed(row, terms, columns)

    # ---- covers and choices

    def cover(self, known: list[Row], columns: int, tree: tuple, owed) -> bool:
        if tree[0] == "split":
            return self.cover(known + [tree[1]], columns, tree[2], owed) and self.cover(known + [denial(tree[1])], columns, tree[3], owed)
        if tree[0] == "empty":
            return refutes(known, tree[1])
        return all(refutes(known + [denial(row)], list_) for row, list_ in zip(owed(tree[1], tree[2]), tree[3], strict=True))

    def choice(self, known: list[Row], piece: Piece, tree: tuple, into: Node | None, falls: bool) -> bool:
        """A choice into the pieces of a node, or wherever the case leads."""
        if tree[0] == "split":
            sides = ((tree[1], tree[2]), (denial(tree[1]), tree[3]))
            return all(self.choice(known + [row], piece, side, into, falls) for row, side in sides)
        if tree[0] == "empty":
            return refutes(known, tree[1])
        if tree[0] == "nostep":
            leaving = [case for case in self.cases if case.source == piece.location]
            return all(self.guarded(known, case, cover, None) for case, cover in zip(leaving, tree[1], strict=True))
        return self.taken(known, piece, tree, into, falls)

    def taken(self, known: list[Row], piece: Piece, tree: tuple, into: Node | None, falls: bool) -> bool:
        _, number, target, place, draws, lists = tree
        case, terms = self.cases[number], [term for term, _ in draws]
        if any(divisor != 1 for _, divisor in draws):
            return False
        columns = [tuple(int(at == other) for other in range(self.variables)) + (0,) for at in range(self.variables)] + terms
        rows = [composed(guard, columns, self.variables) for guard in case.guards]
        updates = [composed(case.updates[at], columns, self.variables) if at in case.updates else columns[at] for at in range(self.variables)]
        if into is not None:
            fall = self.fall(piece, self.variables) if falls else None
            rows += self.into(into, case.target, lambda row: composed(row, updates, self.variables), fall)(target, place)
        return all(refutes(known + [denial(row)], list_) for row, list_ in zip(rows, lists, strict=True))

    def guarded(self, known: list[Row], case: Case, cover: tuple, owed) -> bool:
        columns = self.variables + case.draws
        return self.cover([widened(row, columns) for row in known] + case.guards, columns, cover, owed)

    # ---- nodes

    def is_met(self, node: Node, piece: Piece) -> bool:
        if node.kind == "atom":
            lists = Terms(self.variables, 0, 0).lists(at_location(node.formula, piece.location))
            return self.cover(piece.rows, self.variables, piece.inside[0], lambda target, _: lists[target])
        if node.kind == "or":
            targets = [target for child in node.children for target in child.at(piece.location)]
            return self.cover(piece.rows, self.variables, piece.inside[0], lambda target, _: targets[target].rows)
        parts = node.children if node.kind == "and" else [] if node.kind != "fix" else [node.hold_side] if piece.goes else node.end_sides
        inside = all(self.cover(piece.rows, self.variables, cover, self.into(part, piece.location)) for part, cover in zip(parts, piece.inside, strict=True))
        return inside and (not piece.goes or node.kind == "and" or self.is_stepped(node, piece))

    def is_stepped(self, node: Node, piece: Piece) -> bool:
        into = node.children[0] if node.kind == "next" else node
        if node.kind == "noterm" or node.path == "E":
            return self.choice(piece.rows, piece, piece.choice, into, node.falls)
        if piece.choice is not None and not self.choice(piece.rows, piece, piece.choice, None, False):
            return False
        leaving = [case for case in self.cases if case.source == piece.location]
        return sorted(piece.steps) == [case.number for case in leaving] and all(self.is_case_met(node, piece, into, case) for case in leaving)

    def is_case_met(self, node: Node, piece: Piece, into: Node, case: Case) -> bool:
        columns = self.variables + case.draws
        fall = self.fall(piece, columns) if node.falls else None
        return self.guarded(piece.rows, case, piece.steps[case.number], self.into(into, case.target, self.stepped(case, columns), fall))


def composed(row: Row, terms: list[Row], columns: int) -> Row:
    """The row with a term put in for each of its columns."""
    total = (0,) * columns + (row[-1],)
    for number, term in zip(row[:-1], terms, strict=True):
        total = plus(total, scaled(number, term))
    return total
