"""What a program's text says, item by item and without numbers: up to its end, or to the first fault."""
import re
from dataclasses import dataclass, field

from t2.tokens import LABELS, Token
from t2.trees import Parser, Read, Tree

HEADING = re.compile(r"^CERTIFICATE:\r?$\n?", re.M)


@dataclass(frozen=True)
class Assume:
    """The edge can be taken only where the condition is true."""
    condition: Tree


@dataclass(frozen=True)
class Assign:
    """The variable gets the value of the sum."""
    variable: Tree
    value: Tree


Command = Assume | Assign


@dataclass
class EdgeText:
    """An edge, from its FROM to the `;` behind the label of its TO."""
    source: Token
    target: Token
    start: int
    end: int
    commands: list[Command]
    marks: list[Token]


@dataclass
class ProcessText:
    """A program, which has a label where it is one of several. The start is the label behind the first START."""
    label: Token | None = None
    start: Token | None = None
    second_start: Token | None = None
    edges: list[EdgeText] = field(default_factory=list)
    sections: list[Token] = field(default_factory=list)


@dataclass
class Text:
    """What was read. After a fault it is what stands before it: the token at fault, and what could stand there."""
    tokens: list[Token]
    processes: list[ProcessText] = field(default_factory=list)
    fault: Token | None = None
    wanted: list[str] = field(default_factory=list)

    @property
    def edges(self) -> list[EdgeText]:
        return [edge for process in self.processes for edge in process.edges]


class TextParser(Parser):
    """Reads the items of a program, or of several processes."""

    def read(self) -> Text:
        self.result = Text(self.tokens)
        kinds = {token.kind for token in self.tokens}
        ended = self.several() if "PROCESS" in kinds and not kinds & {"bad", "wide"} else self.process(0, ProcessText(), ("end",))
        if ended is None:
            self.result.fault, self.result.wanted = self.seen, self.wanted
        return self.result

    def several(self) -> int | None:
        """Processes with their headings, all of which are looked at first."""
        heads = [0] + [at for at, token in enumerate(self.tokens) if at and token.kind == "PROCESS"]
        labels = []
        for at in heads:
            label = self.take(at, "PROCESS") and self.labelled(at + 1)
            if label is None:
                return None
            labels.append(label)
        ends = (self.process(at + 4, ProcessText(label), ("end", "PROCESS")) for at, label in zip(heads, labels))
        return next((end for end in ends if end is None), 0)

    def process(self, at: int | None, into: ProcessText, ends: tuple[str, ...]) -> int | None:
        """The items of one program, which goes up to a token of one of these kinds."""
        self.result.processes.append(into)
        while at is not None and self.tokens[at].kind not in ends:
            at = self.item(at, into)
        return at

    def item(self, at: int, into: ProcessText) -> int | None:
        token = self.tokens[at]
        if token.kind == "section":
            into.sections.append(token)
            return at + 1
        if token.kind == "mark":
            return self.behind_mark(at)
        if self.take(at, "START"):
            label = self.labelled(at + 1)
            if label is None:
                return None
            if into.start is not None:
                into.second_start = into.second_start or token
            into.start = into.start or label
            return at + 4
        return self.edge(at + 1, into) if self.take(at, "FROM") else None

    def behind_mark(self, at: int) -> int:
        return at + 1 + (self.tokens[at + 1].kind == ";")

    def labelled(self, at: int) -> Token | None:
        """The label between a `:` and a `;`."""
        if not self.take(at, ":"):
            return None
        label = self.tokens[at + 1]
        if label.kind not in LABELS:
            return self.want(at + 1, "a label")
        return label if self.take(at + 2, ";") else None

    def edge(self, at: int, into: ProcessText) -> int | None:
        source, start = self.labelled(at), self.tokens[at - 1].start
        if source is None:
            return None
        commands: list[Command] = []
        marks: list[Token] = []
        at += 3
        while not self.take(at, "TO"):
            if self.tokens[at].kind == "mark":
                marks.append(self.tokens[at])
                at = self.behind_mark(at)
                continue
            found = self.command(at)
            if found is None:
                return None
            commands += found[0]
            at = found[1]
        target = self.labelled(at + 1)
        if target is None:
            return None
        into.edges.append(EdgeText(source, target, start, self.tokens[at + 3].end, commands, marks))
        return at + 4

    def command(self, at: int) -> tuple[list[Command], int] | None:
        """The command, and the next token's number."""
        token = self.tokens[at]
        if self.take(at, "assume"):
            inner = self.bracketed(at + 1, "condition")
            return inner and self.take(inner[1], ";") and ([Assume(inner[0])], inner[1] + 1)
        if not self.take(at, "name", "a name") or not self.take(at + 1, ":="):
            return None
        value: Read = self.kept("sum", at + 2)
        if not value or not self.take(value[1], ";"):
            return None
        return [Assign(Tree("name", token.text, (), 0, token.start, token.end), value[0])], value[1] + 1


def parted(text: str) -> tuple[str, str | None]:
    """The text before the first line `CERTIFICATE:`, and the one after it where there is such a line."""
    found = HEADING.search(text)
    return (text[:found.start()], text[found.end():]) if found else (text, None)


def read_bytes(data: bytes) -> str:
    """A text in which each character is a byte, so that columns count bytes."""
    return data.decode("latin-1")
