"""Runs of programs and formulas that are made by chance: each step is taken again by the other interpreter of this folder, the run is the same
with the formula and without it, and the multipliers of the certificate fit the rows of python/t2. Whether a program is answered is not tested
here."""
import random
import re
import subprocess
import tempfile
from pathlib import Path

from checks import Checks, call, verdict
from obligations import Obligations
from plain import Printed, faults
from t2.certificates import read_certificate
from t2.formulas import negation, normal, read_formula
from t2.linear import cases_of
from t2.program import read_program

RELATIONS = ("<", "<=", ">", ">=", "==", "!=")


class Made:
    """Makes programs over x and y and formulas over their names, from a seed."""

    def __init__(self, seed: int):
        self.random = random.Random(seed)

    def sum(self) -> str:
        kind = self.random.random()
        if kind < 0.3:
            return self.random.choice(["0 - 2", "-3", "-1", "0", "1", "2", "4"])
        if kind < 0.6:
            return self.random.choice("xy")
        factor = self.random.choice(["", "", "2 * ", "3 * "])
        return f"{factor}{self.random.choice('xy')} {self.random.choice('+-')} {self.random.choice(['1', '2', '3', 'x', '3 * y'])}"

    def condition(self, depth: int = 0) -> str:
        kind = self.random.random()
        if depth < 2 and kind < 0.25:
            return f"({self.condition(depth + 1)} {'&&' if kind < 0.15 else '||'} {self.condition(depth + 1)})"
        if depth < 2 and kind < 0.3:
            return f"!({self.condition(depth + 1)})"
        return f"{self.sum()} {self.random.choice(RELATIONS)} {self.sum()}"

    def command(self) -> str:
        kind = self.random.random()
        if kind < 0.45:
            return f"  assume({self.condition()});\n"
        return f"  {self.random.choice('xy')} := {self.sum() if kind < 0.9 else 'nondet()'};\n"

    def program(self) -> str:
        """A program whose first edge names both variables."""
        count = self.random.randint(2, 4)
        text = "START: 0;\nFROM: 0; x := x; y := y; TO: 1;\n"
        for source in range(count):
            for _ in range(self.random.randint(0, 3)):
                commands = "".join(self.command() for _ in range(self.random.randint(0, 3)))
                text += f"FROM: {source};\n{commands}TO: {self.random.randrange(count)};\n"
        return text

    def formula(self, labels: list[str], depth: int = 0) -> str:
        kind = self.random.random()
        if depth > 2 or kind < 0.2:
            return self.atom(labels)
        one = self.formula(labels, depth + 1)
        if kind < 0.25:
            return f"!({one})"
        path = self.random.choice("AE")
        if kind < 0.6:
            return f"[{path}{self.random.choice('XFG')}]({one})"
        other = self.formula(labels, depth + 1)
        if kind < 0.8:
            return f"({one} {self.random.choice(['&&', '||'])} {other})"
        return f"[{path}{self.random.choice('UWRM')}]({one})({other})"

    def atom(self, labels: list[str]) -> str:
        kind = self.random.random()
        if kind < 0.3:
            return f"at({self.random.choice(labels)})"
        if kind < 0.45:
            return "term" if kind < 0.4 else "!term"
        return f"{self.random.choice('xy')} {self.random.choice(RELATIONS)} {self.random.randint(-2, 5)}"


def unmet(text: str, formula: str, out: str) -> list[str]:
    """The obligations of a certificate that are not met by the rows of python/t2."""
    program = read_program(text)
    tree, cases = read_formula(formula, program), cases_of(program)
    return Obligations(program, cases, read_certificate(out, program, cases, normal(tree), negation(tree))).unmet


def traces(checks: Checks, seed: int) -> bool:
    """Whether there is a certificate; its runs are tested."""
    made = Made(seed)
    text = made.program()
    formula = made.formula(sorted(set(re.findall(r"(?:FROM|TO): (\d)", text))))
    try:
        out = verdict([f"--ctl={formula}", "--certificate"], text)
    except subprocess.TimeoutExpired:
        return False
    if "T2CERT" not in out:
        return False
    with tempfile.NamedTemporaryFile("w", suffix=".t2") as file:
        file.write(text)
        file.flush()
        found = [call("trace", [str(Path(file.name)), "-", *words], out) for words in ([], [f"--ctl={formula}"])]
    checks.same(f"seed {seed}: obligations", unmet(text, formula, out), [])
    for status, printed, messages in found:
        checks.that(f"seed {seed}: status", (status, messages) == (0, ""), (formula, text, messages))
        checks.same(f"seed {seed}: steps", faults(text, Printed(printed)), [])
    checks.same(f"seed {seed}: the same run", Printed(found[0][1]).runs, Printed(found[1][1]).runs)
    return True


def run(checks: Checks, seeds: range = range(12)) -> None:
    answered = sum(traces(checks, seed) for seed in seeds)
    checks.that("some programs have certificates", answered > 0)
