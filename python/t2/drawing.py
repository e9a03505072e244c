"""Pictures of programs and certificates in the language of Graphviz."""
from html import escape

from t2.certificates import Node, Piece
from t2.program import Program
from t2.runs import Run
from t2.spelling import rows_texts, term_text

RUN = "firebrick"
FADED = "gray50"


def quoted(text: str) -> str:
    """A string whose lines stand one below the other."""
    return '"' + "".join(line.replace("\\", "\\\\").replace('"', '\\"') + "\\l" for line in text.split("\n")) + '"'


def cell(lines: list[str], color: str = "", bold: bool = False) -> str:
    """A row of a table with one cell."""
    texts = [escape(line) for line in lines]
    if bold:
        texts = [f"<b>{text}</b>" for text in texts]
    if color:
        texts = [f'<font color="{color}">{text}</font>' for text in texts]
    return '<tr><td align="left" balign="left">' + "<br/>".join(texts) + "</td></tr>"


def is_closed(node: Node) -> bool:
    """Whether each step from a piece of the node leads into another, so that runs from its pieces never come elsewhere."""
    return node.kind == "term" or node.kind == "fix" and node.path == "A" and all(piece.goes for piece in node.pieces)


class Drawing:
    """A program with the pieces of a node, and with a run where one is added."""

    def __init__(self, program: Program, node: Node, has_start: bool):
        self.program, self.node = program, node
        # whether no run of the program comes to a location without a piece
        self.holds_all = has_start and is_closed(node)
        self.visits: dict[int, list[str]] = {}
        self.taken: dict[int, list[int]] = {}

    def add_run(self, run: Run) -> None:
        """Writes the states of a run at their locations, and the numbers of its steps at their edges."""
        for at, state in enumerate(run.states):
            back = f" (is state {run.back})" if run.back is not None and at + 1 == len(run.states) else ""
            values = ", ".join(f"{name} = {value}" for name, value in zip(self.program.variables, state.values))
            self.visits.setdefault(state.location, []).append(f"state {at}{back}: {values or 'no variables'}")
        for at, step in enumerate(run.steps):
            self.taken.setdefault(step.case.edge, []).append(at + 1)

    # ---- locations

    def name(self, number: int) -> str:
        """The label of a location, in which there is no quote and no backslash."""
        return f'"{self.program.labels[number]}"'

    def piece_lines(self, piece: Piece) -> list[str]:
        names = self.program.variables
        lines = rows_texts(piece.rows, names) or ["all values"]
        if not piece.goes:
            lines.append("the end is reached")
        if piece.ranks:
            lines.append(f"rank ({', '.join(term_text(rank, names) for rank in piece.ranks)})")
        return lines

    def location(self, number: int) -> str:
        pieces = self.node.at(number)
        cells = [cell([self.program.shown(number)] + (["START"] if number == 0 else []), bold=True)]
        cells += [cell(self.piece_lines(piece)) for piece in pieces]
        if not pieces:
            cells.append(cell(["unreached" if self.holds_all else "no piece"], FADED))
        if number in self.visits:
            cells.append(cell(self.visits[number], RUN))
        border = 2 if number == 0 else 1
        color = f' color="{FADED}"' if not pieces and number not in self.visits else ""
        table = f'<table border="0" cellborder="{border}" cellspacing="0" cellpadding="4"{color}>{"".join(cells)}</table>'
        return f"  {self.name(number)} [label=<{table}>];"

    # ---- edges

    def edge(self, number: int) -> str:
        edge = self.program.edges[number]
        lines = [f"{edge.process}:"] if edge.process else []
        lines += [f"AT({mark})" for mark in edge.marks] + edge.texts()
        style = ""
        if number in self.taken:
            steps = self.taken[number]
            lines.insert(0, f"step{'s' if len(steps) > 1 else ''} {', '.join(map(str, steps))}")
            style = f', color="{RUN}", fontcolor="{RUN}", penwidth=2'
        label = f'label={quoted(chr(10).join(lines))}' if lines else 'label=""'
        return f"  {self.name(edge.source)} -> {self.name(edge.target)} [{label}{style}];"

    def text(self) -> str:
        lines = ["digraph program {", '  node [shape=plain, fontname="monospace"];', '  edge [fontname="monospace"];']
        lines += [self.location(number) for number in range(len(self.program.labels))]
        lines += [self.edge(number) for number in range(len(self.program.edges))]
        return "\n".join(lines + ["}"])
