#!/usr/bin/env python3
"""Says on standard error what an answer means: explain.py STATUS KEPT WORD.. with the answer on the open file 4 and, where KEPT is `yes`, the text
that was read on the open file 7. The launcher calls it where the answer is neither Proved nor Disproved."""
import os
import re
import sys

HERE = os.path.dirname(os.path.realpath(__file__))
sys.path.insert(0, os.path.join(os.path.dirname(HERE), "python"))

import faults  # noqa: E402
import unknowns  # noqa: E402
from cases import Named, ways  # noqa: E402
from t2.texts import TextParser, parted  # noqa: E402

MOST = 16_777_217
OBLIGATIONS = {
    "atom": "a piece has states at which the comparison, truth value or location test is false",
    "child": "a piece of `and` or `or` is not inside the pieces of its children",
    "hold": "a `go` piece of a fixed point is not inside the piece of its hold side that the cover names",
    "done": "a `done` piece of a fixed point has states outside its end sides",
    "step": "a step leaves the node's pieces, or no rank falls on it",
    "successor": "a piece has a state at which the program stops",
    "choice": "the step that is named cannot be taken at every state there, or leads elsewhere",
    "root": "the pieces of node 0 do not have the initial states that the claim needs",
}
TOGETHER = {
    "processes": "there are {:,} processes; a text has at most 8",
    "variables": "all processes together have {:,} variables; there are at most 512",
    "locations": "the product of the processes has {:,} locations, one for each choice of a location of each; there are at most 1,024",
    "edges": "the product of the processes has {:,} edges, each once for each choice of locations of the other processes; there are at most 4,096",
}
TOO_DEEP = "the formula, with a ! before it, has more than 400 parts one inside the other"
STATUSES = {
    4: "standard input could not be read",
    5: "standard output could not be written",
    6: "there was no more memory; nothing is said of the property",
}


def read_open(number: int) -> bytes:
    """What an open file holds from its beginning, or nothing."""
    try:
        return os.pread(number, MOST, 0)
    except OSError:
        return b""


def option(words: list[str], name: str) -> str:
    """The value of a word, as bytes in Latin-1."""
    for at, word in enumerate(words):
        value = word.partition("=")[2] if word.startswith(f"{name}=") else words[at + 1] if word == name and at + 1 < len(words) else None
        if value is not None:
            return os.fsencode(value).decode("latin-1")
    return ""


def refused_text(line: str, text: str) -> list[str]:
    place = re.fullmatch(r"Refused text (.+) line (\d+) column (\d+)", line)
    if place:
        return faults.of_text(place[1], int(place[2]), int(place[3]), text)
    edge = re.fullmatch(r"Refused text (wide|too many) edge (\d+)", line)
    if edge:
        return refused_edge(edge[1], int(edge[2]), text)
    if line == "Refused text no start":
        return no_start(text)
    product = re.fullmatch(r"Refused text (?:product )?(\w+) (\d+)", line)
    if product and product[1] in TOGETHER:
        return [TOGETHER[product[1]].format(int(product[2]))]
    return ["more bytes came than are read: 1,048,576 of a program, 16,777,216 with --check"]


def refused_edge(kind: str, number: int, text: str) -> list[str]:
    named = Named(text)
    if number >= len(named.program.edges):
        return []
    edge = named.program.edges[number]
    if kind == "wide":
        said = "a coefficient or constant comes to 2^62 (4611686018427387904) or more"
    else:
        said = f"it has {ways(edge):,} ways to be taken, by its || and !=, which is too many: there are at most 8,192 in all, with 8,000,000 numbers"
    return [f"line {edge.line}: {named.edge(edge)}: {said}", *faults.marked(text, edge.start, edge.line), "write it with smaller numbers, or as several edges"]


def no_start(text: str) -> list[str]:
    if not text.strip():
        return ["the text is empty: a program is read from standard input, or from a file that is the last word"]
    process = next((it for it in TextParser(text).read().processes if it.start is None), None)
    first = process.edges[0].source.text if process and process.edges else "0"
    of = f" in the process {process.label.text}" if process and process.label else ""
    return [f"nothing says where runs begin{of}: START: {first}; would have them begin at {first}"]


def formula_of(words: list[str]) -> str:
    """The formula of the words, if they have one."""
    return option(words, "--ctl") or option(words, "--finitely")


def refused_property(line: str, text: str, words: list[str]) -> list[str]:
    formula, named = formula_of(words), Named(text)
    if any(it.startswith("--safety") for it in words):
        return faults.unknown(option(words, "--safety"), True, named.program)
    place = re.fullmatch(r"Refused property (.+) column (\d+)", line)
    if place:
        return faults.of_formula(place[1], int(place[2]), formula, named.program)
    return refused_copies(line.removeprefix("Refused property "), text, named)


def refused_copies(fault: str, text: str, named: Named) -> list[str]:
    """What is at fault in a property without a place in its text: it is too long, or its program has no two copies of each edge."""
    edges = re.fullmatch(r"edges (\d+)", fault)
    if edges:
        return [f"with two copies of each edge the program has {int(edges[1]):,} edges; there are at most 4,096", "leave out edges, or join two in a row to one"]
    edge = re.fullmatch(r"cases edge (\d+)", fault)
    if edge:
        return refused_copy(int(edge[1]), text, named)
    if fault == "temporal":
        return ["the formula speaks of runs: with --finitely it is of one state, of comparisons, at(LABEL), !, && and ||", "a location or a variable may say what is meant: --finitely 'at(error)'"]
    return [TOO_DEEP if fault == "deep" else "the formula has more than 65,536 bytes"]


def refused_copy(number: int, text: str, named: Named) -> list[str]:
    if number >= len(named.program.edges):
        return []
    edge = named.program.edges[number]
    said = "with what is assumed after it, a number comes to 2^62 or more, or there are more than 8,192 ways to be taken in all, or 8,000,000 numbers"
    return [f"line {edge.line}: {named.edge(edge)}: {said}", *faults.marked(text, edge.start, edge.line), "write it, or the formula, with smaller numbers, or with fewer || and !="]


def refused_certificate(line: str, rest: str | None) -> list[str]:
    if rest is None:
        return ["no certificate is there: it follows the program, after a line that is CERTIFICATE: and nothing else"]
    place = re.fullmatch(r"Certificate refused line (\d+)", line)
    if place:
        rows = rest.split("\n")
        number = int(place[1])
        shown = faults.readable(rows[number - 1][:100]) if number <= len(rows) else ""
        return [f"line {number} of the certificate is none that can stand there" + (f": {shown}" if shown.strip() else ": the certificate ends there")]
    obligation = re.fullmatch(r"Certificate refused obligation (\d+) node (\d+) (\w+)", line)
    if not obligation:
        return []
    return [f"obligation {obligation[1]}, of node {obligation[2]}, is not met: {OBLIGATIONS.get(obligation[3], obligation[3])}, or a multiplier is wrong", "the property may hold all the same, by another certificate"]


def said(status: int, answer: str, text: str | None, words: list[str]) -> list[str]:
    """What is said of an answer. The text that was read may not be known."""
    lines = answer.split("\n")
    if lines[0] == "Refused words":
        import words as command_line  # what it takes to load is not wanted elsewhere

        return command_line.explained(words)
    if text is None:
        return [] if status in (2, 3, 7) else of_status(status)
    program, rest = parted(text) if "--check" in words else (text, None)
    if lines[0].startswith("Refused text"):
        return refused_text(lines[0], program)
    if lines[0].startswith("Refused property"):
        return refused_property(lines[0], program, words)
    if lines[0].startswith("Certificate refused"):
        return refused_certificate(lines[0], rest)
    if lines[0].startswith("Unknown"):
        asked = unknowns.Asked(program, formula_of(words), words)
        return unknowns.explained(asked, lines)
    return of_status(status)


def of_status(status: int) -> list[str]:
    return [STATUSES.get(status, f"the program ended with status {status}, which is none of its own")]


def main(given: list[str]) -> int:
    status, is_kept, words = int(given[0]), given[1] == "yes", given[2:]
    text = read_open(7).decode("latin-1") if is_kept else None
    answer = read_open(4).decode("latin-1")
    try:
        lines = said(status, answer, text, words)
    except RecursionError:
        lines = []
    for number, line in enumerate(lines):
        print(f"t2verdict: {line}" if number == 0 else line, file=sys.stderr)
    return 0


if __name__ == "__main__":
    try:
        main(sys.argv[1:])
    except OSError:
        # standard error is closed, say
        pass
