"""Compares a C program with its texts: the C program's runs are runs of each text, and runs of a text are runs of the C program."""
from __future__ import annotations

import os
import random
import sys
import tempfile

sys.path.insert(0, os.path.dirname(os.path.dirname(os.path.abspath(__file__))))

from translate.command import table_of  # noqa: E402
from translate.pipeline import Options, Wanted, built  # noqa: E402
from translate.refusal import Refused  # noqa: E402
from translate.source import parse  # noqa: E402
from translate.writing import Written  # noqa: E402

import cruns  # noqa: E402
import match  # noqa: E402

MODES = [("plain", {"plain": True}), ("joined", {}), ("joined, numbers", {"symbols": False}), ("checked", {"checked": True, "symbols": False}),
         ("plain, checked", {"checked": True, "plain": True})]
DRAWS = [0, 1, 2, 3, -1, 5, 8, 100, 200, 255, 256, 1000, -300, 7, 2147483647, -2147483648, 4, 0, 1, 0, 1]


def text_of(path: str, mode: dict, observed: frozenset[str], tree) -> match.Text:
    options = Options(path, **mode)
    wanted = Wanted(keep=lambda place: place.label is not None, universal=False, observed=observed)
    result = built(options, wanted, tree)
    written = Written(result.graph, path, [])
    return match.Text(written.text(), table_of(options, result, written, []))


class Comparison:
    """What was compared of one program, and what was wrong."""

    def __init__(self, path: str, observed: list[str], seed: int, runs: int):
        self.path, self.observed, self.runs = path, observed, runs
        self.random = random.Random(seed)
        self.wrong: list[str] = []
        self.refused: str | None = None
        self.compared = self.trapped = self.replayed = self.lost = self.presumed = 0
        with tempfile.TemporaryDirectory() as directory:
            self.compare(directory)

    def compare(self, directory: str) -> None:
        with open(self.path) as file:
            program = cruns.Compiled(file.read(), directory, self.observed)
        if program.fault:
            self.wrong.append(f"cc: {program.fault.splitlines()[0] if program.fault else ''}")
            return
        recorded = [program.run([self.random.choice(DRAWS) for _ in range(self.random.choice((4, 12, 40)))]) for _ in range(self.runs)]
        tree = parse(self.path, "lp64")
        for name, mode in MODES:
            try:
                text = text_of(self.path, mode, frozenset(self.observed), tree)
                bare = text_of(self.path, mode, frozenset(), tree) if name == "joined" else None
            except Refused as fault:
                self.refused = fault.text(self.path)
                return
            if text.table["lost"]:
                self.lost += 1
                continue
            before = len(self.wrong)
            self.follow(name, mode, text, bare, recorded)
            self.replay(name, mode, text, program)
            if any("conversion" in row["what"] for row in text.table["presumes"]) and not mode.get("checked") and len(self.wrong) > before:
                del self.wrong[before:]
                self.presumed += 1

    def follow(self, name: str, mode: dict, text, bare, recorded) -> None:
        for how, taken, values in recorded:
            if how == "endless" or (how == "trap" and not mode.get("checked")):
                self.trapped += 1
                continue
            for which, one, wanted in ((name, text, values), (name + ", without values", bare, {})):
                if one is None:
                    continue
                fault = match.follow(one, how, taken, wanted)
                self.compared += 1
                if fault:
                    self.wrong.append(f"{which}: {fault}; draws {[value for _, value in taken]}")

    def replay(self, name: str, mode: dict, text, program) -> None:
        for _ in range(self.runs):
            place, taken, values, stuck = match.walk(text, self.random, 200)
            how, drawn, held = program.run([value for _, value in taken])
            if how == "endless" or (how == "trap" and not mode.get("checked")):
                self.trapped += 1
                continue
            self.replayed += 1
            kind = text.kind(place)
            if kind == "statement" or kind == "start":
                fault = f"the text has no step at {place}" if stuck else None if drawn == taken[:len(drawn)] else "C draws otherwise"
            elif not match.ends_as(kind, how):
                fault = f"C ends in {how} and the text in {kind}"
            else:
                fault = f"C drew {len(drawn)} of {len(taken)}" if drawn != taken and how != "trap" else "; ".join(text.observed(values, held)) if how != "trap" else None
            if fault:
                self.wrong.append(f"{name}, replayed: {fault}; draws {[value for _, value in taken]}")
