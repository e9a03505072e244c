"""What an answer Unknown means in the names of the program, and what to try."""
import re

from cases import Named, subformula

MOST_CASES = 6
SMALLER = "smaller constants, or counting in larger units, make smaller numbers; no option moves the limit of 2^62"


class Asked:
    """What was asked: the program's text and what was read of it, the formula, and the words."""

    def __init__(self, text: str, formula: str, words: list[str]) -> None:
        self.named, self.formula, self.words = Named(text), formula, words
        self.program = self.named.program

    @property
    def is_finitely(self) -> bool:
        return any(it.partition("=")[0] == "--finitely" for it in self.words)

    def case(self, number: int) -> str:
        """What a case is of. Where something is to come only finitely often, it is one of the program with two copies of each edge."""
        told = self.named.copied_case(number, self.formula) if self.is_finitely else self.named.case(number)
        return f"case {number} ({told})" if told else f"case {number}"

    def part(self, number: int) -> str:
        """The text of a subformula."""
        text = subformula(self.formula, number)
        return f"`{text}`" if text else f"subformula {number}"

    def limit(self, name: str, left_out: int) -> str:
        """What an option was set to."""
        for at, word in enumerate(self.words):
            if word.startswith(f"{name}="):
                return word.partition("=")[2]
            if word == name and at + 1 < len(self.words):
                return self.words[at + 1]
        return str(left_out)


def system(asked: Asked, words: list[str]) -> str:
    """What a linear system of the search is of."""
    if words[0] == "visits":
        return system(asked, words[1:])
    if words[0] == "nest":
        return f"whether {words[2]} terms that fall one after another rank the loop of component {words[1]}"
    if words[0] == "empty":
        return f"whether {asked.case(int(words[1]))} can be taken"
    if words[0] == "rank":
        return f"a ranking of the loop in which {asked.case(int(words[3]))} lies"
    if words[0] == "later":
        return f"a ranking of {words[1]} cases under rows that were found to hold"
    return f"what follows from {words[1]} rows"


def visits(told: list[str], one: bool) -> list[str]:
    """The same where something is to come only finitely often."""
    return [
        f"no linear term was found that falls over {'this case' if one else 'one of these cases'} of a loop and grows over {'none' if one else 'none of them'}, so it is not known whether the formula comes to hold only finitely often there:",
        *told,
        "try: an assumption at the loop that says what bounds how often it comes, if something does; or a variable that counts what is left",
    ]


def rank(asked: Asked, detail: list[str]) -> list[str]:
    numbers = [int(it) for it in detail[1:]]
    told = [f"  {asked.case(it)}" for it in numbers[:MOST_CASES]] + (["  .."] if len(numbers) > MOST_CASES else [])
    one = len(numbers) == 1
    if asked.is_finitely:
        return visits(told, one)
    return [
        f"no linear term was found that falls over {'this case' if one else 'one of these cases'} of a loop and grows over {'none' if one else 'none of them'}, and some loop has no 2 to 4 terms that fall one after another, so it is not known whether the runs through {'it' if one else 'them'} end:",
        *told,
        "try: an assumption at the loop that says what holds there, if it does; phases that follow one another as loops of their own",
    ]


def invariant(asked: Asked, detail: list[str]) -> list[str]:
    values = [f"{name} = {value}" for name, value in zip(asked.program.variables, detail[3:])]
    state = ", ".join(values[:12]) + (", .." if len(values) > 12 else "")
    return [
        f"no run of at most 8 steps comes to location {detail[1]}, but what was found to hold on every run does not exclude it{' with ' + state if state else ''}: whether a longer run comes there is not known",
        "try: if no run has these values, an assumption before the location that says why; or look for the longer run",
    ]


def template(asked: Asked, detail: list[str]) -> list[str]:
    if detail[0] == "draw":
        return [
            f"going back over the draw of {asked.case(int(detail[2]))} may not be exact, so whether the property holds is not known",
            "try: a part of the formula by itself; --termination or --safety where that is the question",
        ]
    return [
        f"where {asked.part(int(detail[1]))} holds still changed after 8 rounds, and no other search settled it: whether the property holds is not known",
        "try: this part by itself; --termination or --safety where that is the question",
    ]


def disjuncts(asked: Asked, detail: list[str]) -> list[str]:
    now = asked.limit("--disjuncts", 256)
    what = "paths come to" if any(it.startswith("--safety") for it in asked.words) else "pieces of states are needed at"
    more = "a larger --disjuncts, up to 4096" if now != "4096" else "fewer != and || in the formula and in assumptions"
    return [f"{detail[3]} {what} location {detail[1]}, and --disjuncts allows {now}, so whether the property holds is not known", f"try: {more}"]


def splits(asked: Asked, detail: list[str]) -> list[str]:
    now = asked.limit("--splits", 64)
    raised = "a larger --splits, up to 128; " if now != "128" else ""
    return [
        f"whether some whole numbers meet the conditions of an edge or of the property was not settled by {detail[1]} splits of the fractions that meet them, and so neither was the property",
        f"try: {raised}where two conditions speak of the remainder of one value, put one into the other",
    ]


def width(asked: Asked, detail: list[str]) -> list[str]:
    if detail[0] == "composed":
        column, names = int(detail[2]), asked.program.variables
        of = f"the coefficient of {names[column]}" if column < len(names) else "the constant"
        return [f"a number of the search, or that a run or the formula has, comes to 2^62 or more, {of} in a row, so whether the property holds is not known", f"try: {SMALLER}"]
    return [f"a number of the linear system that tells {system(asked, detail[1:])} comes to 2^62 or more, so whether the property holds is not known", f"try: {SMALLER}"]


def pivots(asked: Asked, detail: list[str]) -> list[str]:
    now = asked.limit("--pivots", 100000)
    more = "a larger --pivots, up to 1000000; " if now != "1000000" else ""
    return [f"the linear system that tells {system(asked, detail[1:])} was not settled by {now} bases, so whether the property holds is not known", f"try: {more}fewer variables or guards at one location"]


def size(asked: Asked, detail: list[str]) -> list[str]:
    rows, columns = detail[-3], detail[-1]
    return [f"the linear system that tells {system(asked, detail[1:])} has {rows} rows and {columns} columns, more than 4,000,000 entries, so whether the property holds is not known", "try: fewer variables, fewer cases in one loop, fewer guards"]


CAUSES = {"rank": rank, "invariant": invariant, "template": template, "disjuncts": disjuncts, "splits": splits, "width": width, "pivots": pivots, "size": size}


def explained(asked: Asked, lines: list[str]) -> list[str]:
    """What is said of an answer of two lines."""
    cause = re.fullmatch(r"Unknown (\w+)", lines[0])
    if not cause or cause[1] not in CAUSES or len(lines) < 2:
        return []
    return CAUSES[cause[1]](asked, lines[1].split())
