"""Reads files of the tool T2: program texts, and those that differ from them in what is said in `T2FileParser`."""
from __future__ import annotations

from bisect import bisect_left
from itertools import count

from t2.texts import Assign as AssignText, Command as CommandText, EdgeText, ProcessText, TextParser
from t2.tokens import NO_BRACKET, RESERVED, SYMBOLS, Lexicon, Places, Token
from t2.trees import Read, Tree, has_name, listed

from .conditions import FALSE, TRUE, Condition, both, compare, conjuncts, either, linear, negate
from .faults import Refused
from .polynomials import Polynomial, closed, named, number
from .programs import DRAW, Assign, Assume, Command, Edge, Names, Program
from .tokens import shortened

OTHER_WORDS = ("skip", "TRUE", "FALSE")
OTHER_SYMBOLS = ("=<", "<>", "=", "/\\", "\\/", "/", "%")
NAME = r"[A-Za-z_](?:[\w.'^$]|!(?=\w))*"
QUOTED = rf"(?:\"[^\"\n]*\"|[^\")])*|{NO_BRACKET}"
MOST_WORDS = 60


def read_t2(text: str) -> Program:
    try:
        return T2Reader(text).program()
    except RecursionError:
        raise Refused(1, "the text nests too deep") from None


class T2FileParser(TextParser):
    """Files of T2 have further words and symbols, `skip`, draws without brackets, names with `!`, products of names, brackets within the quotation
    marks of a mark, and sections within edges."""
    lexicon = Lexicon((*RESERVED, *OTHER_WORDS), (*SYMBOLS, *OTHER_SYMBOLS), NAME, QUOTED)
    ands, ors, products = ("&&", "/\\"), ("||", "\\/"), ("*", "/", "%")
    relations = {**TextParser.relations, "=<": "<=", "=": "==", "<>": "!="}
    truths = {"true": "true", "false": "false", "TRUE": "true", "FALSE": "false"}

    def draw(self, at: int) -> Read:
        """A draw, whose node says whether it has its brackets."""
        token = self.tokens[at]
        if not self.take(at, "nondet"):
            return None
        end = at + 3 if self.tokens[at + 1].kind == "(" and self.tokens[at + 2].kind == ")" else at + 1
        return Tree("draw", token.text if end == at + 1 else "", (), 0, token.start, self.tokens[end - 1].end), end

    def command(self, at: int) -> tuple[list[CommandText], int] | None:
        token = self.tokens[at]
        if token.kind == "section":
            self.result.processes[-1].sections.append(token)
            return [], at + 1
        if token.kind == "skip":
            end = self.take(at + 1, ";")
            return end and ([], end)
        return super().command(at)


class T2Reader:
    """Makes a program of what the parser read. The text stays as it is where it is a program text already."""

    def __init__(self, text: str):
        self.text, self.places = text, Places(text)
        parser = T2FileParser(text)
        self.read = parser.read()
        self.starts = [token.start for token in self.read.tokens]
        self.draws = count(1)
        self.variables, self.labels = Names(), Names(labels=True)
        self.result = Program("")
        self.changed = any(differs(token) for token in self.read.tokens)

    def line(self, token: Token | Tree) -> int:
        return self.places.line(token.start)

    def program(self) -> Program:
        self.check()
        for process in self.read.processes:
            self.process(process)
        heading = self.read.processes[0].label
        if not self.changed:
            self.result.unchanged = self.text
        elif heading is not None:
            raise Refused(self.line(heading), "several processes in a file that is no program text")
        return self.result

    def process(self, process: ProcessText) -> None:
        """A program; several of them stay as they are, so that an ERROR of one of them names no location."""
        for edge in process.edges:
            self.changed |= any(edge.start < section.start < edge.end for section in process.sections)
            self.result.edges.append(self.edge(edge))
        if process.start is None:
            raise Refused(self.line(self.read.tokens[-1]), "there is no START")
        self.result.start = self.labels.name(process.start.text, process.start.text)
        for section in process.sections if process.label is None else []:
            self.section(section)

    def check(self) -> None:
        """What is no file of T2 is refused for its first fault."""
        for token in self.read.tokens:
            if token.kind == "bad":
                raise Refused(self.line(token), f"{token.text!r} is not expected here")
        fault, second = self.read.fault, next((it.second_start for it in self.read.processes if it.second_start), None)
        if fault is not None:
            raise Refused(self.line(fault), f"{listed(self.read.wanted)} is expected, and {f'`{fault.text}`' if fault.text else 'the end'} is there")
        if second is not None:
            raise Refused(self.line(second), "a second START")

    def section(self, token: Token) -> None:
        """ERROR names the location that no run is to reach. The other sections mean nothing here."""
        word, label = token.text.split(":", 1)
        if word.startswith("ERROR"):
            label = label.rstrip(";").strip()
            self.result.error = self.labels.name(label, label)

    def edge(self, edge: EdgeText) -> Edge:
        source, target = (self.labels.name(label.text, label.text) for label in (edge.source, edge.target))
        return Edge(self.line(self.token_at(edge.start)), source, target, [one for command in edge.commands for one in self.command(command)])

    def command(self, command: CommandText) -> list[Command]:
        if isinstance(command, AssignText):
            return [self.assignment(command)]
        condition = linear(self.condition(command.condition), lambda one: self.result.lost.append((one.line, one.words, "guard")))
        return [Assume(part) for part in conjuncts(condition)]

    def assignment(self, command: AssignText) -> Assign:
        value, variable = self.sum(command.value), command.variable
        if not value.is_linear():
            self.result.lost.append((self.line(variable), self.words(command.value.start, command.value.end), "value"))
            value = named(DRAW)
        return Assign(self.variables.name(variable.word, variable.word), value)

    def token_at(self, start: int) -> Token:
        return self.read.tokens[bisect_left(self.starts, start)]

    def words(self, start: int, end: int) -> str:
        """What stands between two places, as words."""
        first, end = bisect_left(self.starts, start), bisect_left(self.starts, end)
        return shortened(" ".join(token.text for token in self.read.tokens[first:end]))

    def condition(self, node: Tree) -> Condition:
        if node.kind == "truth":
            return TRUE if node.word == "true" else FALSE
        if node.kind == "compare":
            left, right = map(self.sum, node.parts)
            return compare(left, node.word, right, self.line(node), self.words(node.parts[0].start, node.parts[1].end))
        parts = [self.condition(part) for part in node.parts]
        return negate(parts[0]) if node.kind == "not" else (both if node.kind == "and" else either)(parts)

    def sum(self, node: Tree) -> Polynomial:
        """The polynomial of a sum. A product of names leaves the text changed, even where the polynomial does not have it."""
        if node.kind == "number":
            return number(node.number)
        if node.kind == "wide":
            raise Refused(self.line(node), f"the number {node.word[:30]} is 2^62 or more")
        if node.kind == "name":
            return named(self.variables.name(node.word, node.word))
        if node.kind == "draw":
            self.changed |= node.word != ""
            return named(f"{DRAW}{next(self.draws)}")
        parts = [self.sum(part) for part in node.parts]
        if node.kind == "minus":
            return -parts[0]
        if node.kind in ("quotient", "remainder"):
            self.changed = True
            return closed()
        self.changed |= node.kind == "product" and sum(map(has_name, node.parts)) > 1
        result = parts[0]
        for part in parts[1:]:
            result = result * part if node.kind == "product" else result + part
        return result


def differs(token: Token) -> bool:
    """Whether no program text has this token, or takes it otherwise: marks end at the first bracket there."""
    if token.kind == "mark":
        return ")" in token.text[:-1]
    return token.kind in ("wide", *OTHER_WORDS, *OTHER_SYMBOLS) or token.kind == "name" and ("!" in token.text or not token.text.isascii())
