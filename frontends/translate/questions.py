"""What is asked, in words of C, and the words for t2verdict."""
from __future__ import annotations

import re
from dataclasses import dataclass

from . import claims
from . import formula as formulas
from .formula import FALSE, Tree
from .graph import STOPS, Place
from .pipeline import Options, Result, Wanted
from .refusal import WrongWords
from .scope import EnumConstant
from .stutter import joinable
from .writing import Written, base_name


@dataclass
class Question:
    text: str
    kind: str
    line: int | None = None
    formula: Tree | None = None


def understood(text: str) -> Question:
    if text in ("termination", "assert", "overflow"):
        return Question(text, text)
    if re.fullmatch(r"assert:\d+", text):
        return Question(text, "assert", int(text[7:]))
    if text.startswith("ctl:"):
        return Question(text, "ctl", None, formulas.read(text[4:]))
    if re.fullmatch(r"[A-Za-z_]\w*", text):
        return Question(text, "place")
    raise WrongWords(f"the question {text}")


def named(place: Place, name: str) -> bool:
    """Whether the name of C is that of the place: its label, `f_LINE`, or its kind."""
    if place.kind != "statement" and place.kind != "inner":
        return place.kind == name
    if place.label == name:
        return True
    return f"{place.function}_{place.line}" == name


def wanted_of(question: Question | None, options: Options) -> Wanted:
    """What the question needs of the text."""
    if question is None:
        return Wanted(keep=lambda place: place.label is not None)
    if question.kind == "place":
        return Wanted(stop_at=lambda place: place.kind in ("statement", "inner") and named(place, question.text))
    if question.kind != "ctl":
        return Wanted(line=question.line)
    names = set(formulas.labels_of(question.formula))
    letters = formulas.letters(question.formula)
    return Wanted(keep=lambda place: any(named(place, name) for name in names), first=letters != "A" or not eventual(question.formula),
                  every=not joinable(question.formula), universal=letters in ("A", ""))


def eventual(formula: Tree) -> bool:
    """Whether it says only that each run comes to one of some places."""
    return formula.word == "AF" and only_places(formula.parts[0])


def only_places(formula: Tree) -> bool:
    return formula.kind == "at" or (formula.kind in ("or", "and") and all(only_places(part) for part in formula.parts))


class Asked:
    """Turns questions into words, over a text that was written."""

    def __init__(self, options: Options, result: Result, written: Written):
        self.options, self.result, self.written = options, result, written
        self.places = result.graph.places
        self.kinds = {place.kind for place in self.places}

    def rows(self, question: Question | None) -> list[dict]:
        if question is None:
            rows = [self.termination("termination")]
            rows += [self.never("assert", "error")] if "error" in self.kinds else []
            return rows + ([self.never("overflow", "overflow")] if self.options.checked else [])
        if question.kind == "termination":
            return [self.termination(question.text)]
        if question.kind in ("assert", "overflow"):
            return [self.never(question.text, "error" if question.kind == "assert" else "overflow")]
        if question.kind == "place":
            return [self.place(question)]
        return self.ctl(question)

    def row(self, question: str, words: list[str], formula: str, **more) -> dict:
        presumes = [] if question == "overflow" else self.result.presumes
        sound = claims.sound(claims.path_letters(formula), self.result.lost, "checked" if self.options.checked else "unbounded", self.result.symbols, presumes)
        return {"question": question, "words": words, "sound": sound, "formula": formula, **more}

    def termination(self, question: str) -> dict:
        return self.row(question, ["--termination"], "term")

    def never(self, question: str, label: str) -> dict:
        return self.row(question, ["--safety", label], f"[AG](!at({label}))")

    def place(self, question: Question) -> dict:
        labels = [self.written.labels.of[place] for place in self.places if place.kind in ("statement", "inner") and named(place, question.text)]
        if not labels and not self.is_there(question.text):
            raise WrongWords(f"no label and no statement is called {question.text}")
        return self.never(question.text, labels[0] if labels else self.unreached(question.text))

    def is_there(self, name: str) -> bool:
        """Whether the program has such a place, though the text may not."""
        return any(named(place, name) for place in self.result.translator.all_places if place.kind == "statement")

    def unreached(self, name: str) -> str:
        """The label of a place that no run comes to: it stands in the text, with no way there."""
        self.written.never.append(base_name(Place("statement", label=name)))
        return self.written.never[-1]

    def ctl(self, question: Question) -> list[dict]:
        formula = formulas.normal(self.translated(question.formula))
        passed = [kind for kind in ("assumed", "overflow") if kind in self.kinds]
        rows = [self.formula_row(question, formula, passed)]
        if "error" in self.kinds and speaks_of_time(formula) and "error" not in formulas.labels_of(formula):
            rows.append({**self.formula_row(question, formula, passed + ["error"]), "given": "assert"})
        return rows

    def formula_row(self, question: Question, formula: Tree, passed: list[str]) -> dict:
        stops = formulas.any_of(*(formulas.at(kind) for kind in passed))
        passing = formulas.passing(formula, stops)
        return self.row(question.text, ["--ctl", formulas.text(self.behind_start(passing))], formulas.text(passing), passes=passed, notes=self.notes(question))

    def notes(self, question: Question) -> list[str]:
        """What to know of the locals that a formula speaks of."""
        names = text_names(self.result)
        slots = [self.result.translator.slots[names[one]] for one in dict.fromkeys(formulas.names_of(question.formula)) if one in names]
        return [f"{slot.c} is a local of {slot.function}, declared in line {slot.line}: before that it may have any value" for slot in slots if slot.function]

    def behind_start(self, formula: Tree) -> Tree:
        """The formula at the states after the edge that sets the globals."""
        if formula.word == "AU" and formula.parts[0] == formulas.TRUE and only_places(formula.parts[1]):
            return formula
        if formula.word == "AW" and formula.parts[1] == FALSE and "E" not in formulas.letters(formula):
            return formulas.operator("AW", formulas.any_of(formulas.at("start"), formula.parts[0]), FALSE)
        return formulas.operator("AX", formula)

    def translated(self, formula: Tree) -> Tree:
        """The formula in the names and labels of the text."""
        return formulas.changed(formula, lambda part: self.place_named(part.word) if part.kind == "at" else self.name(part.word) if part.kind == "name" else None)

    def place_named(self, name: str) -> Tree:
        labels = self.labels_called(name)
        if not labels and (name in STOPS or self.is_there(name)):
            return FALSE
        if not labels:
            raise WrongWords(f"at({name}): no label and no statement is called so")
        return formulas.any_of(*(formulas.at(label) for label in labels))

    def labels_called(self, name: str) -> list[str]:
        """The text's labels for a name: those of a C label or of `f_LINE`, else those of a stop, else the label itself."""
        of = self.written.labels.of
        labels = [of[place] for place in self.places if place.kind in ("statement", "inner") and named(place, name)]
        if not labels and not self.is_there(name):
            labels = [of[place] for place in self.places if place.kind == name]
        return labels or [label for label in of.values() if label == name]

    def name(self, word: str) -> Tree:
        names = text_names(self.result)
        if word in names:
            constant = self.result.translator.slots[names[word]].constant
            return Tree("name", names[word]) if constant is None else number(constant)
        meaning = self.result.translator.scope.find(word)
        if isinstance(meaning, EnumConstant):
            return number(meaning.value)
        raise WrongWords(f"the formula speaks of {word}, which is no variable of the program, or of more than one")


def number(value: int) -> Tree:
    size = Tree("number", str(abs(value)), (), abs(value))
    return size if value >= 0 else Tree("minus", "", (size,))


def text_names(result: Result) -> dict[str, str]:
    """Names of C with the text's: globals, and locals of the entry, by themselves, others as `f.x`."""
    names = {}
    for slot in result.translator.slots.values():
        for name in (slot.name, f"{slot.function}.{slot.c}" if slot.function else slot.c, slot.c if slot.function == result.translator.entry else slot.name):
            names.setdefault(name, slot.name)
    return names


def speaks_of_time(formula: Tree) -> bool:
    return formula.word in ("AU", "AX", "EU", "EW") or any(speaks_of_time(part) for part in formula.parts)

