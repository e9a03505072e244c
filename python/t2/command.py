"""What the commands of this folder have in common: how they are called, what they read, and how they fail."""
import argparse
import os
import re
import sys
from dataclasses import dataclass

from t2.certificates import Certificate, read_certificate
from t2.copies import doubled
from t2.formulas import TERM, negation, never_at, normal, read_formula
from t2.linear import Case, cases_of
from t2.program import Program, read_program
from t2.runs import NoStep
from t2.texts import parted, read_bytes
from t2.tokens import Fault
from t2.trees import Tree

USAGE, AT_FAULT, NOT_A_STEP = 2, 3, 4
OUTPUT = "what t2verdict wrote with --certificate; standard input where it is not given"


@dataclass
class Given:
    """A program, its cases, and the property in normal form and its negation where one is named."""
    text: str
    program: Program
    cases: list[Case]
    proved: Tree | None
    denied: Tree | None


class Parser(argparse.ArgumentParser):
    """Says in one line which words are wrong."""

    def error(self, message: str):
        self.exit(USAGE, f"{self.prog}: {message} (--help tells the words)\n")


def parser(about: str, has_copies: bool = False) -> argparse.ArgumentParser:
    """The words of a command that reads a program and may be told the property, and with copies the one of which there are no certificates."""
    made = Parser(description=about, allow_abbrev=False)
    task = made.add_mutually_exclusive_group()
    task.add_argument("--termination", action="store_true", help="the property is that every run ends")
    task.add_argument("--safety", metavar="LABEL", help="the property is that no run comes to the location")
    task.add_argument("--ctl", metavar="FORMULA", help="the property is this formula")
    if has_copies:
        task.add_argument("--finitely", metavar="FORMULA", help="the program with two copies of each edge: one where this formula holds after it")
    return made


def count_of(word: str) -> int:
    if not re.fullmatch("[0-9]{1,7}", word) or not 1 <= int(word) <= 1_000_000:
        raise argparse.ArgumentTypeError("a number from 1 to 1,000,000 is wanted")
    return int(word)


def read_input(name: str | None) -> str:
    """What a file holds, or standard input where none is named."""
    try:
        if name is None or name == "-":
            return read_bytes(sys.stdin.buffer.read())
        with open(name, "rb") as file:
            return read_bytes(file.read())
    except OSError as fault:
        raise Fault(f"{name}: {fault.strerror}") from None


def named_property(args: argparse.Namespace, program: Program) -> Tree | None:
    """The formula that the words name, if they name one."""
    if args.termination:
        return TERM
    if args.safety is not None:
        return never_at(args.safety, program)
    try:
        return read_formula(args.ctl, program) if args.ctl is not None else None
    except Fault as fault:
        raise Fault(f"--ctl: {fault}") from None


def with_copies(word: str | None, program: Program) -> Program:
    """The program with two copies of each edge, where a formula is given that tells them apart."""
    try:
        return program if word is None else doubled(program, read_formula(word, program))
    except Fault as fault:
        raise Fault(f"--finitely: {fault}") from None


def given(args: argparse.Namespace, name: str | None) -> Given:
    """The program in a file and the property that the words name."""
    text = read_input(name)
    try:
        program = read_program(text)
    except Fault as fault:
        raise Fault(f"{name or 'standard input'}: {fault}") from None
    program = with_copies(getattr(args, "finitely", None), program)
    formula = named_property(args, program)
    proved = None if formula is None else normal(formula)
    denied = None if formula is None else negation(formula)
    return Given(text, program, cases_of(program), proved, denied)


def certificate_for(about: Given, output: str | None, is_piped: bool) -> Certificate:
    """The certificate in the output of the program, or else after the program's text, or else on standard input."""
    after = parted(about.text)[1]
    if output is None and (after is not None or not is_piped):
        text = after or ""
    elif output is None and sys.stdin.isatty():
        raise Fault("no OUTPUT is named, and nothing is piped in")
    else:
        text = read_input(output)
    return read_certificate(text, about.program, about.cases, about.proved, about.denied)


def initial_values(certificate: Certificate, program: Program, word: str | None) -> tuple[int, ...]:
    """The values of the certificate, or those that are asked for."""
    if not certificate.proved:
        if word is not None:
            raise Fault("--start: the certificate names the initial values itself")
        return certificate.values
    values = dict.fromkeys(program.variables, 0)
    for part in (word or "").split(",") if word else []:
        name, _, number = (one.strip() for one in part.partition("="))
        if name not in values or not re.fullmatch("-?[0-9]+", number):
            raise Fault(f"--start: `{part}` gives no variable of the program a number")
        values[name] = int(number)
    return tuple(values.values())


def run(name: str, main) -> None:
    """Calls the command, and ends with its status or with one line of what is at fault."""
    sys.set_int_max_str_digits(0)
    try:
        status = main()
        sys.stdout.flush()
    except Fault as fault:
        print(f"{name}: {fault}", file=sys.stderr)
        status = AT_FAULT
    except NoStep as fault:
        print(f"{name}: not a run of the program: {fault}", file=sys.stderr)
        status = NOT_A_STEP
    except BrokenPipeError:
        os.dup2(os.open(os.devnull, os.O_WRONLY), sys.stdout.fileno())
        status = 0
    except RecursionError:
        print(f"{name}: nested too deep", file=sys.stderr)
        status = AT_FAULT
    sys.exit(status)
