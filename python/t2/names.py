"""Names for people: labels, variables and draws, with their places in C where a translator's table is there."""
import json

from t2.program import Edge, Program
from t2.tokens import Fault


class Names:
    """The names of a program; with a table those in C stand beside them."""

    def __init__(self, program: Program, table: dict | None = None):
        self.program, self.table = program, table or {}

    def part(self, name: str, kind: type):
        found = self.table.get(name)
        return found if isinstance(found, kind) else kind()

    def location(self, number: int) -> str:
        """The label, and the line and the function in C."""
        entry = self.part("locations", dict).get(self.program.labels[number])
        shown = self.program.shown(number)
        return shown if not isinstance(entry, dict) else f"{shown} ({self.place(entry)})"

    def place(self, entry: dict) -> str:
        """`demo.c:12, main`, with the kind of the place where it is none of a statement."""
        words = [self.line(entry)] if entry.get("line") is not None else []
        words += [str(entry[key]) for key in ("function", "kind") if entry.get(key) not in (None, "statement")]
        return ", ".join(words) or "no place in C"

    def is_before_start(self, number: int) -> bool:
        """Whether the variables of C have no values here yet."""
        entry = self.part("locations", dict).get(self.program.labels[number])
        return isinstance(entry, dict) and entry.get("kind") == "start"

    def variable(self, number: int) -> str:
        """The name, and the one in C where it is another."""
        name = self.program.variables[number]
        entry = self.part("variables", dict).get(name)
        if not isinstance(entry, dict) or entry.get("c") in (None, name):
            return name
        return f"{name} ({entry['c']} of {entry['function']})" if entry.get("function") else f"{name} ({entry['c']})"

    def edge(self, number: int) -> dict:
        """What the table says of an edge: its edges stand in the order of the text's."""
        edges = self.part("edges", list)
        entry = edges[number] if number < len(edges) else None
        return entry if isinstance(entry, dict) else {}

    def edge_place(self, number: int) -> str:
        """Where an edge stands: its line, its marks, and the line in C."""
        edge: Edge = self.program.edges[number]
        words = [f"line {edge.line}"] + [f"AT({mark})" for mark in edge.marks]
        if edge.process:
            words.insert(0, f"process {edge.process}")
        if self.edge(number).get("line") is not None:
            words.append(self.line(self.edge(number)))
        return ", ".join(words)

    def draw(self, number: int, at: int, value: int) -> str:
        """A number that an edge draws, and what it stands for in C."""
        draws = self.edge(number).get("draws")
        entry = draws[at] if isinstance(draws, list) and at < len(draws) else None
        stands = f" ({entry.get('kind', 'draw')}, {self.line(entry)})" if isinstance(entry, dict) else ""
        return f"nondet() = {value}{stands}"

    def calls(self, number: int, draws: list[int]) -> list[str]:
        """What the calls of C on this edge give, where the table lists them."""
        listed = self.edge(number).get("calls")
        found = []
        for call in (one for one in listed if isinstance(one, dict)) if isinstance(listed, list) else []:
            drawn = call.get("draw")
            value = draws[drawn] if isinstance(drawn, int) and 0 <= drawn < len(draws) else call.get("value")
            found.append(f"__VERIFIER_nondet_{call.get('type')}() gives {value} in {self.line(call)}")
        return found

    def line(self, entry: dict) -> str:
        """`demo.c:12`"""
        source = self.part("source", str)
        return f"{source}:{entry.get('line', '?')}" if source else f"line {entry.get('line', '?')}"


def read_table(name: str | None) -> dict | None:
    """The table of a translator."""
    if name is None:
        return None
    try:
        with open(name, encoding="utf-8") as file:
            table = json.load(file)
    except OSError as fault:
        raise Fault(f"{name}: {fault.strerror}") from None
    except ValueError:
        raise Fault(f"{name}: no JSON") from None
    if not isinstance(table, dict):
        raise Fault(f"{name}: the table is no object")
    return table
