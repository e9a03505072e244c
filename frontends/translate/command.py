"""The command line of c2t2."""
from __future__ import annotations

import json
import os
import shlex
import sys

from .pipeline import Options, Result, built
from .questions import Asked, Question, text_names, understood, wanted_of
from . import formula as formulas
from .refusal import Refused, WrongWords
from .source import parse
from .writing import Written

USAGE = """usage: c2t2 FILE.c [--entry NAME] [--int unbounded|checked] [--model lp64|ilp32] [--bounds symbols|numbers]
            [--plain] [--strict] [--question Q] [-o OUT.t2] [--table OUT.json]"""
CHOICES = {"--int": ("unbounded", "checked"), "--model": ("lp64", "ilp32"), "--bounds": ("symbols", "numbers")}
VALUED = ("--entry", "--int", "--model", "--bounds", "--question", "-o", "--table")
FLAGS = ("--plain", "--strict")


def words_of(arguments: list[str]) -> dict[str, str]:
    """The words by name; the file is `FILE`."""
    found: dict[str, str] = {}
    rest = list(arguments)
    while rest:
        word = rest.pop(0)
        name, equals, value = word.partition("=")
        if word in FLAGS:
            value = "yes"
        elif name in VALUED and not (equals and name == "-o"):
            if not equals and not rest:
                raise WrongWords(f"{name} has no word after it")
            value = value if equals else rest.pop(0)
        elif word.startswith("-") and word != "-":
            raise WrongWords(f"the word {word} has no meaning")
        else:
            name, value = "FILE", word
        if name in found:
            raise WrongWords("two files" if name == "FILE" else f"{name} is given twice")
        if name in CHOICES and value not in CHOICES[name]:
            raise WrongWords(f"{name} is {' or '.join(CHOICES[name])}, not {value}")
        found[name] = value
    if "FILE" not in found:
        raise WrongWords("no file is given")
    return found


def options_of(words: dict[str, str], question: Question | None) -> Options:
    overflow = question is not None and question.kind == "overflow"
    if overflow and words.get("--int") == "unbounded":
        raise WrongWords("overflow is asked with --int checked")
    checked = words.get("--int") == "checked" or overflow
    return Options(words["FILE"], words.get("--entry", "main"), checked, words.get("--model", "lp64"), words.get("--bounds", "symbols") == "symbols",
                   "--plain" in words, "--strict" in words)


def translate(options: Options, question: Question | None) -> tuple[str, dict]:
    """The text and the table."""
    wanted, tree = wanted_of(question, options), parse(options.source, options.model)
    if question is not None and question.formula is not None and formulas.names_of(question.formula):
        names = text_names(built(options, wanted, tree))
        wanted.observed = frozenset(names[one] for one in formulas.names_of(question.formula) if one in names)
    result = built(options, wanted, tree)
    stops = ["error"] if question is not None and question.kind == "assert" else []
    stops += ["overflow"] if options.checked and (question is None or question.kind == "overflow") else []
    written = Written(result.graph, title(options), stops)
    rows = Asked(options, result, written).rows(question)
    return written.text(), table_of(options, result, written, rows)


def title(options: Options) -> str:
    return f"{options.source}: {options.entry}, --int {'checked' if options.checked else 'unbounded'}"


def table_of(options: Options, result: Result, written: Written, rows: list[dict]) -> dict:
    variables = {}
    for name in written.names:
        slot = result.translator.slots.get(name)
        variables[name] = {"c": slot.c if slot else name, "function": slot.function if slot else None, "line": slot.line if slot else None,
                           "type": slot.type.name if slot else None, "copy": slot.copy if slot else 1}
    return {"version": 1, "source": options.source, "entry": options.entry, "int": "checked" if options.checked else "unbounded",
            "model": options.model, "bounds": "symbols" if options.symbols else "numbers", "symbols": result.symbols,
            "locations": written.locations(), "edges": written.edges, "variables": variables,
            "drawn": [{"line": line, "what": what} for line, what in result.translator.log.drawn],
            "lost": result.lost, "presumes": result.presumes, "questions": rows}


def put(path: str, text: str) -> None:
    try:
        with open(path, "w") as file:
            file.write(text)
    except OSError as fault:
        raise WrongWords(f"{path} can't be written: {fault.strerror}") from None


def show(text: str) -> None:
    """Writes on standard output; whoever reads it may stop early."""
    try:
        sys.stdout.write(text)
        sys.stdout.flush()
    except BrokenPipeError:
        os.dup2(os.open(os.devnull, os.O_WRONLY), sys.stdout.fileno())


def tell(table: dict, question: Question | None) -> None:
    for row in table["drawn"]:
        print(f"{table['source']}:{row['line']}: warning: drawn: {row['what']}", file=sys.stderr)
    if question is not None:
        for row in table["questions"]:
            for note in row.get("notes", []) if "given" not in row else []:
                print(f"{table['source']}: note: {note}", file=sys.stderr)
            given = f" (given {row['given']})" if "given" in row else ""
            print(f"words{given}: {shlex.join(row['words'])}", file=sys.stderr)


def main(arguments: list[str]) -> int:
    try:
        words = words_of(arguments)
        question = understood(words["--question"]) if "--question" in words else None
        text, table = translate(options_of(words, question), question)
        if "-o" in words:
            put(words["-o"], text)
        else:
            show(text)
        if "--table" in words:
            put(words["--table"], json.dumps(table, indent=1) + "\n")
        tell(table, question)
    except WrongWords as fault:
        print(f"c2t2: {fault}\n{USAGE}", file=sys.stderr)
        return 2
    except Refused as fault:
        print(fault.text(words["FILE"]), file=sys.stderr)
        return 3
    except RecursionError:
        print(f"{words['FILE']}: refused: nested too deep", file=sys.stderr)
        return 3
    return 0
