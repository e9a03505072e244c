"""What is said of a refused text or formula: the line with a mark under the place, what could stand there, and a hint."""
import re

from t2.program import Program
from t2.texts import Text, TextParser
from t2.tokens import LEXICON, RESERVED, Places, Token, offset_of
from t2.trees import ONE, RELATIONS, TWO, FormulaParser, listed

WIDTH = 100
NEAR = 5000
SENTENCES = {
    "deep": "level 65 of brackets, `!` and signs is opened here; at most 64 nest",
    "wide": "a number of 2^62 (4611686018427387904) or more; numbers in a text are below it",
    "not linear": "a product of two parts that may vary; one factor at most has a variable or a draw in it",
    "two starts": "a second START; a program has one",
    "variables": "this name brings in variable 513; a program has at most 512",
    "locations": "this label brings in location 1,025; a program has at most 1,024",
    "edges": "this is edge 4,097; a program has at most 4,096",
    "draws": "this is draw 65 of its edge; an edge has at most 64",
    "label": "this label has a `.`, which joins the labels of processes: _a.b is where one process is at a and the other at b",
}
# What stands at the place, or just before it, and what is written instead.
HINTS = [
    (r"\xef\xbb\xbf", "a byte order mark stands here, three bytes that editors do not show: save the file without it"),
    (r"/\*", "this comment is never closed"),
    (r"=>", "at least is written >=, and an implication !(a) || (b)"),
    (r"(?<=-)>", "there is no implication: write !(a) || (b)"),
    (r"=<", "at most is written <="),
    (r"(?<=<)>", "not equal is written !="),
    (r"=", "a single = is no symbol: == compares, := assigns"),
    (r"&", "and is written &&"),
    (r"\|", "or is written ||"),
    (r"/", "there is no division"),
    (r"%", "there is no remainder"),
    (r"\xe2\x89\xa4", "at most is written <="),
    (r"\xe2\x89\xa5", "at least is written >="),
    (r"\xe2\x89\xa0", "not equal is written !="),
    (r"\xc2\xac", "not is written !"),
    (r"\xc2\xa0", "a blank that is none: a no-break space of two bytes"),
    (r"[\x80-\xff]", "a byte outside of ASCII: names, numbers and symbols are ASCII"),
    (r"[{}]", "there are no braces: an edge is FROM: .. TO: ..;"),
    (r"[\"']", "there are no quotation marks: labels and names stand bare"),
    (r"\+\+|--|[+*-]=", "an assignment is written x := x + 1;"),
]
CONNECTIVES = {"and": "&&", "or": "||", "not": "! before brackets", "AND": "&&", "OR": "||", "NOT": "! before brackets"}
LETTERS = ("A", "E", "G", "F", "X", "U", "W", "R")
NO_COMMANDS = {
    "while": "a loop is edges that lead back to a location",
    "for": "a loop is edges that lead back to a location",
    "if": "a choice is two edges from one location, each with its assume(..)",
    "else": "a choice is two edges from one location, each with its assume(..)",
    "goto": "where an edge leads is said by its TO: LABEL;",
    "int": "variables are not declared",
    "var": "variables are not declared",
    "skip": "an edge may have no command, and there is none that does nothing",
    "havoc": "a variable gets any value by x := nondet();",
    "assert": "a property is asked on the command line: --safety LABEL or --ctl FORMULA",
}


def line_at(text: str, at: int) -> tuple[str, int]:
    """The line around a byte, cut to what fits, and where the byte is in it."""
    first, last = text.rfind("\n", 0, at) + 1, text.find("\n", at)
    line, column = text[first : last if last >= 0 else len(text)].rstrip("\r"), at - first
    skipped = max(0, column - WIDTH // 2) if len(line) > WIDTH else 0
    return line[skipped : skipped + WIDTH], column - skipped


def readable(text: str) -> str:
    """Text as a terminal shows it: bytes as UTF-8 where they are, and no control characters."""
    decoded = text.encode("latin-1").decode("utf-8", "replace")
    return "".join(it if it.isprintable() else " " if it in "\t\f" else "?" for it in decoded)


def marked(text: str, at: int, number: int | None = None) -> list[str]:
    """The line, after its number, and a mark under the place."""
    line, column = line_at(text, at)
    head = "  " if number is None else f"{number:>5} | "
    return [head + readable(line), " " * (len(head) - 2 if number is not None else 0) + ("| " if number is not None else "  ") + " " * len(readable(line[:column])) + "^"]


def named(token: Token, text: str) -> str:
    """What stands at a place, as it is said."""
    if token.kind == "end":
        return "the end of the text"
    if token.kind == "bad":
        shown = readable(text[token.start : token.start + 4])[:1]
        return f"`{shown}`" if shown.isascii() and shown not in "? " or shown.isprintable() and ord(shown) > 159 and shown != "\ufffd" else "this byte"
    return f"`{readable(token.text.splitlines()[0][:40])}`"


def similar(word: str, among: list[str]) -> str:
    import difflib  # what it takes to load is not wanted elsewhere

    near = difflib.get_close_matches(word, among, 1, 0.6)
    lower = [it for it in among if it.lower() == word.lower()]
    return (lower or near or [""])[0]


def hint_by_place(text: str, at: int) -> str:
    for pattern, sentence in HINTS:
        if re.compile(pattern).match(text, at):
            return sentence
    return ""


def hint_by_tokens(before: Token | None, here: Token, wanted: list[str]) -> str:
    """A hint from the token at the place and the one before it."""
    was = before.text if before else ""
    for word in (here.text, was):
        if word in NO_COMMANDS:
            return f"there is no {word}: {NO_COMMANDS[word]}"
    if here.text in CONNECTIVES:
        return connective_hint(here.text)
    if here.text == "CERTIFICATE":
        return "without --check the text is the program alone; with it, the heading is a line CERTIFICATE: with nothing else in it"
    for word in RESERVED:
        if f"`{word}`" in wanted and here.kind == "name" and similar(here.text, [word]):
            return f"did you mean {word}? Small and capital letters differ"
    if before and before.kind == "name" and here.text in ("(", ":") and similar(was, ["assume", "START", "FROM", "TO", "nondet"]):
        return f"did you mean {similar(was, ['assume', 'START', 'FROM', 'TO', 'nondet'])}?"
    if was in CONNECTIVES:
        return connective_hint(was)
    if was == "assume" and here.text != "(":
        return "an assumption has brackets: assume(x > 0);"
    if was == "nondet":
        return "a draw has brackets: nondet()"
    if before and before.kind == "number" and here.kind == "name":
        return f"a product has a sign: {was} * {here.text}"
    if "`:=`" in wanted and here.text in ("==", "<", ">", "<=", ">="):
        return "a command is x := .. or assume(..)"
    if here.text in RELATIONS and "`&&`" in wanted:
        return "a chain of relations is written as two comparisons: 0 <= x && x <= 5"
    return "a ; may be missing before this" if "`;`" in wanted else ""


def operator_hint(word: str) -> str:
    shown = word if word in (*ONE, *TWO) else "AG"
    return f"operators stand in square brackets, their arguments in round ones: [{shown}](..)" + "(..)" * (shown in TWO)


def connective_hint(word: str) -> str:
    return f"{word} is written {CONNECTIVES[word]}" if word in CONNECTIVES else ""


def formula_hint(before: Token | None, here: Token, wanted: list[str]) -> str:
    """A hint that is of formulas alone."""
    was, operators = before.text if before else "", (*ONE, *TWO)
    if was in operators or was in LETTERS:
        return operator_hint(was)
    if was == "[" or here.text in operators:
        near = similar(here.text, list(operators))
        return f"an operator is one of {' '.join(operators)}" + (f"; did you mean {near}?" if near else "")
    if was == "]" and here.text != "(":
        return "the argument of an operator stands in brackets: [AG](x >= 0)"
    if wanted == ["`(`"] and was == ")":
        return "this operator has two arguments: [AU](..)(..)"
    if was == "at" and here.text != "(":
        return "a location is at(LABEL)"
    if here.text == "nondet":
        return "a formula has no draws"
    if was == "!" and here.kind in ("name", "number"):
        return "! stands before brackets, at(..), term or an operator: !(x > 0)"
    if any(it.startswith("a relation") for it in wanted) and here.kind in ("end", ")", "&&", "||"):
        return "a number is no truth value: compare it, as in x != 0"
    return ""


def syntax(text: str, at: int, tokens: list, parsed_at: int, wanted: list[str], is_formula: bool) -> list[str]:
    """What could stand at a fault of the syntax, where the parser here finds the same place, and a hint."""
    number = next((n for n, it in enumerate(tokens) if it.start <= at < max(it.end, it.start + 1)), len(tokens) - 1)
    before, here, agrees = (tokens[number - 1] if number else None), tokens[number], parsed_at == at
    told = f"{named(here, text)} cannot stand here"
    if agrees and wanted:
        told += f"; {listed(wanted)} can"
    hint = formula_hint(before, here, wanted) if is_formula and agrees else ""
    by_place = hint_by_place(text, at)
    hint = hint or (by_place.removesuffix(", := assigns") if is_formula else by_place) or (hint_by_tokens(before, here, wanted) if agrees else "")
    return [told] + ([hint] if hint else [])


def no_processes(text: str, read: Text) -> list[str]:
    """Why a text with a heading is not read as processes."""
    bad = next((it for it in read.tokens if it.kind in ("bad", "wide")), None)
    if bad is None:
        return []
    line, column = Places(text).of(bad.start)
    hint = hint_by_place(text, bad.start)
    return [f"it is not read as processes, since {named(bad, text)} in line {line}, column {column} can stand nowhere", *([hint] if hint else [])]


def window(text: str, at: int) -> tuple[int, int]:
    """What is read of a long text around a fault: from an edge some way before it. If no edge begins there after all, the fault that is found is
    another one, and only the place is told."""
    return (max(0, text.rfind("FROM", 0, at - NEAR)) if at > NEAR else 0), at + NEAR if len(text) > at + NEAR else len(text)


def of_text(kind: str, line: int, column: int, text: str) -> list[str]:
    """What is said of a program's text that is refused at a place."""
    at = offset_of(text, line, column)
    if kind == "syntax":
        first, last = window(text, at)
        read = TextParser(text[first:last]).read()
        said = syntax(text[first:last], at - first, read.tokens, read.fault.start if read.fault else -1, read.wanted, False)
        said += no_processes(text[first:last], read) if read.fault and read.fault.kind == "PROCESS" else []
    else:
        said = [SENTENCES[kind.removeprefix("too many ")]]
    return [f"line {line}, column {column}: {said[0]}", *marked(text, at, line), *said[1:]]


def of_formula(kind: str, column: int, formula: str, program: Program) -> list[str]:
    """What is said of a formula, or of a label, that is refused at a place."""
    at = column - 1
    if kind == "syntax":
        parser = FormulaParser(formula)
        parser.whole()
        said = syntax(formula, at, parser.tokens, parser.seen.start, parser.wanted, True)
    elif kind == "unknown name":
        said = unknown_name(formula, at, program)
    else:
        said = [SENTENCES[kind]]
    return [f"column {column} of the formula: {said[0]}", *marked(formula, at), *said[1:]]


def unknown_name(formula: str, at: int, program: Program) -> list[str]:
    token = LEXICON.token_at(formula, at)
    is_label = bool(re.search(r"\bat\s*\(\s*\Z", formula[:at]))
    said = unknown(token.text, is_label, program)
    if is_label or said[0].endswith("?"):
        return said
    more = operator_hint(token.text) if token.text in LETTERS or token.text in (*ONE, *TWO) else connective_hint(token.text)
    return said + ([more] if more else [])


def unknown(name: str, is_label: bool, program: Program) -> list[str]:
    """What is said of a name that the program does not have."""
    among, what = (program.labels, "location") if is_label else (program.variables, "variable")
    shown = ", ".join(among[:12]) + (", .." if len(among) > 12 else "")
    near = similar(name, among)
    said = [f"the program has no {what} {readable(name)}" + (f"; did you mean {near}?" if near else "")]
    return said + [f"its {what}s are {shown}" if among else f"it has no {what}s"]
