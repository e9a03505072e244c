#!/usr/bin/env python3
"""Warns of what is allowed in a program and often not meant. It refuses nothing, and its status is 0 whatever it warns of.

    examples/lint.py [--ctl FORMULA] [FILE]

Each warning is one line, FILE:LINE:COLUMN: and the text. Runs are taken to stop on purpose at the only location that no edge leaves, at one
called end, stop, error or the like, and at those of a comment `// stop LABEL ..`, but not at one that differs by a letter from another.
"""
import re
import sys
from collections import Counter
from pathlib import Path

sys.dont_write_bytecode = True
sys.path.insert(0, str(Path(__file__).resolve().parent.parent / "python"))
from t2.texts import Assign, ProcessText, Text, TextParser, parted, read_bytes  # noqa: E402
from t2.tokens import Places, Token  # noqa: E402
from t2.trees import FormulaParser, names_in  # noqa: E402

Warning_ = tuple[int, str]
STOPS = {"end", "stop", "exit", "done", "halt", "final", "error", "err", "fail", "failed", "bad", "ret", "return", "quit", "finish", "finished", "abort"}


def differs_by_a_letter(one: str, other: str) -> bool:
    """Whether two names differ only in case or `_`, or by one letter that is put in, left out, replaced or swapped with the next one."""
    if one == other:
        return False
    if one.lower().replace("_", "") == other.lower().replace("_", ""):
        return True
    short, long = sorted((one, other), key=len)
    if len(short) < 3 or len(long) - len(short) > 1:
        return False
    at = next((it for it in range(len(short)) if short[it] != long[it]), len(short))
    if any(it.isdigit() for it in (short[at : at + 1], long[at : at + 1])):
        return False
    if len(long) > len(short):
        return short[at:] == long[at + 1 :]
    return short[at + 1 :] == long[at + 1 :] or short[at : at + 2] == long[at : at + 2][::-1] and short[at + 2 :] == long[at + 2 :]


def meant_stops(text: str) -> set[str]:
    """The labels of comments `// stop LABEL ..`."""
    return {it for line in re.findall(r"//[ \t]*stop\b([^\n]*)", text) for it in re.findall(r"[\w.'^$]+", line)}


def of_labels(program: ProcessText, text: str) -> list[Warning_]:
    """Locations that no edge leaves, and those that no edge enters."""
    left, entered = {}, {}
    for edge in program.edges:
        left.setdefault(edge.source.text, edge.source)
        entered.setdefault(edge.target.text, edge.target)
    found, meant = [], meant_stops(text)
    if program.start and program.start.text not in left:
        found.append((program.start.start, f"no edge leaves the start {program.start.text}: a run is its initial state alone{near(program.start.text, left)}"))
    ends = [it for it in entered if it not in left]
    for label in ends:
        token, is_usual = entered[label], len(ends) == 1 or label.lower().rstrip("0123456789_") in STOPS
        if label not in meant and (near(label, left) or not is_usual):
            found.append((token.start, f"no edge leaves {label}: runs stop there{near(label, left)} (a comment `// stop {label}` says that it is meant)"))
    for label, token in left.items():
        if label not in entered and not (program.start and label == program.start.text):
            found.append((token.start, f"no edge leads to {label}: no run comes there{near(label, entered)}"))
    return found


def near(label: str, among: dict[str, Token]) -> str:
    found = next((it for it in among if differs_by_a_letter(label, it)), "")
    return f"; is {found} meant?" if found else ""


def of_names(read_text: Text) -> list[Warning_]:
    """Variables that are read and never written beside one that is written and differs by a letter."""
    read, written = {}, set()
    for command in (it for edge in read_text.edges for it in edge.commands):
        if isinstance(command, Assign):
            written.add(command.variable.word)
        for node in command.value if isinstance(command, Assign) else command.condition:
            if node.kind == "name":
                read.setdefault(node.word, node.start)
    found = []
    for name, at in read.items():
        other = next((it for it in sorted(written) if differs_by_a_letter(name, it)), None)
        if name not in written and other:
            found.append((at, f"{name} is read and never written, so it has any value; is {other} meant?"))
    return found


def of_sections(program: ProcessText) -> list[Warning_]:
    """Sections that are passed over."""
    found = []
    for token in program.sections:
        word = re.match(r"\w+", token.text)[0]
        label = re.search(r":\s*([^;]*?)\s*;", token.text, re.S)[1]
        more = f": to ask whether a run comes there, give --safety {label}" if word == "ERROR" and re.fullmatch(r"[\w.'^$]+", label) else ""
        found.append((token.start, f"{word} is passed over{more}"))
    return found


def of_bytes(text: str, tokens: list[Token]) -> list[Warning_]:
    """A byte order mark, a missing last line end, and two signs side by side."""
    found = []
    if text.startswith("\xef\xbb\xbf"):
        found.append((0, "a byte order mark stands before the text, three bytes that editors do not show: the text is refused for it"))
    if text and not text.endswith("\n"):
        found.append((len(text), "the last line has no line end: a line CERTIFICATE: that is put behind it would be a part of that line"))
    for one, other in zip(tokens, tokens[1:]):
        if one.kind == other.kind == "-" and one.end == other.start:
            found.append((one.start, "-- is two signs, which cancel each other: nothing is counted down by it"))
    return found


def of_formula(formula: str, read: Text) -> list[str]:
    """A formula [AG](f) that speaks of the start, where every value is possible."""
    node = FormulaParser(formula).whole()
    start = "_" + ".".join(it.start.text if it.start else "" for it in read.processes)
    if len(read.processes) == 1 and read.processes[0].label is None:
        start = start[1:]
    if node is None or node.word != "AG" or not all(it.start for it in read.processes):
        return []
    inner = node.parts[0]
    leaves_out = inner.kind == "or" and any(it.kind == "at" and it.word == start for it in inner.parts)
    if leaves_out or not names_in(inner):
        return []
    text = formula[inner.start : inner.end].strip("()") if inner.kind == "compare" else formula[inner.start : inner.end]
    return [f"[AG] speaks of the start {start} too, where each variable has any value: [AG](at({start}) || {text}) leaves it out"]


def warnings(text: str) -> list[Warning_]:
    read = TextParser(text).read()
    found = [*of_bytes(text, read.tokens), *of_names(read)]
    for process in read.processes:
        found += of_sections(process)
        if read.fault is None:
            found += of_labels(process, text)
    if read.fault is not None and not text.startswith("\xef\xbb\xbf"):
        found.append((read.fault.start, "no program has this here, and what follows was not looked at: t2verdict tells more"))
    return sorted(Counter(found))


def read_input(name: str | None) -> str:
    return parted(read_bytes(Path(name).read_bytes() if name else sys.stdin.buffer.read()))[0]


def main(given: list[str]) -> int:
    formula = None
    if given[:1] == ["--ctl"] and len(given) > 1:
        formula, given = given[1], given[2:]
    if len(given) > 1 or any(it.startswith("-") for it in given):
        print("usage: lint.py [--ctl FORMULA] [FILE]", file=sys.stderr)
        return 2
    try:
        text = read_input(given[0] if given else None)
        found = warnings(text)
    except OSError as error:
        print(f"lint.py: {given[0] if given else 'standard input'}: {error.strerror}", file=sys.stderr)
        return 2
    except RecursionError:
        print("lint.py: the text nests too deep to be looked at", file=sys.stderr)
        return 2
    name = given[0] if given else "-"
    places = Places(text)
    for at, said in found:
        line, column = places.of(at)
        print(f"{name}:{line}:{column}: {said}")
    for said in of_formula(formula, TextParser(text).read()) if formula else []:
        print(f"{name}: {said}")
    return 0


if __name__ == "__main__":
    sys.exit(main(sys.argv[1:]))
