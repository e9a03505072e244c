"""Single functions against values worked out by hand: formulas, claims, constants and words of the command line."""
from __future__ import annotations

import os
import subprocess
import sys
import tempfile

from translate import claims
from translate import formula as formulas
from translate.intervals import narrowed
from translate.kinds import Types
from translate.linear import Atom, Linear
from translate.stutter import joinable

C2T2 = os.path.join(os.path.dirname(os.path.dirname(os.path.abspath(__file__))), "c2t2")

NORMAL = [("!([AG](x > 0))", "[EM](x <= 0)(true)"), ("!([AF](at(L)))", "[ER](false)(!at(L))"), ("!(x > 0 && at(L))", "x <= 0 || !at(L)"),
          ("[EF](term)", "[EF](term)"), ("!!term", "term"), ("[AG](!at(L))", "[AG](!at(L))"), ("(x + 1) * 2 >= y", "(x + 1) * 2 >= y")]
LETTERS = [("[AG](!at(L))", "A"), ("!([AG](!at(L)))", "E"), ("term", "A"), ("!term", "E"), ("[AG]([EF](at(L)))", "AE"), ("x > 0", ""),
           ("[AG](!at(L) || !([EF](at(M))))", "A")]
JOINED = [("[AG](!at(L) || x > 0)", True), ("[AG](x > 0)", False), ("[AU](at(M))(at(L))", False), ("[AG](!at(L) || [AF](at(M)))", True),
          ("[AG]([EF](at(M)))", True), ("[AG]([AF](at(M)) || [EF](at(L)))", False), ("[AF]([AG](!at(L)))", True), ("[AX](at(L))", False),
          ("[AF]([EG](!at(L)))", False), ("[EG](at(L))", False), ("[EG]([EF](at(L)))", True), ("x == 0", True)]
PASSING = [("[AF](at(L))", "[AF](at(L) || at(S))"), ("[AG](!at(L))", "[AG](!at(L) || at(S))"), ("[EF](at(L))", "[EF](at(L) && !at(S))"),
           ("[EG](x > 0)", "[EG](x > 0 && !at(S))"), ("[AX](x > 0)", "[AX](x > 0 || at(S))"), ("[EX](x > 0)", "[EX](x > 0 && !at(S))")]
LOST, PRESUMED = [{"line": 3, "what": "an element of an array"}], [{"line": 5, "what": "+ leaves int"}]
CLAIMS = [(("Proved", "A", [], "unbounded"), "yes"), (("Proved", "A", LOST, "unbounded"), "yes"), (("Disproved", "A", LOST, "unbounded"), "not known"),
          (("Disproved", "A", [], "unbounded"), "no"), (("Disproved", "A", [], "unbounded", True), "not known"), (("Proved", "E", LOST, "unbounded"), "not known"),
          (("Proved", "E", [], "unbounded"), "yes"), (("Disproved", "E", LOST, "unbounded"), "no"), (("Proved", "AE", LOST, "unbounded"), "not known"),
          (("Disproved", "AE", LOST, "unbounded"), "not known"), (("Proved", "AE", [], "unbounded"), "yes"), (("Disproved", "AE", [], "checked"), "no"),
          (("Proved", "A", [], "unbounded", False, PRESUMED), "yes"), (("Disproved", "A", [], "unbounded", False, PRESUMED), "not known"),
          (("Disproved", "A", [], "unbounded", False, PRESUMED, True), "no"), (("Disproved", "A", [], "checked", False, PRESUMED), "no"),
          (("Disproved", "A", [], "unbounded", False, [{"line": 5, "what": "the conversion to int leaves int"}], True), "not known"),
          (("Unknown rank", "A", [], "unbounded"), "not known"), (("", "A", [], "unbounded"), "not known")]
COMMON = [("int", "unsigned int", "unsigned int", "unsigned int"), ("char", "unsigned short", "int", "int"), ("unsigned int", "long", "long", "unsigned long"),
          ("unsigned long", "long long", "unsigned long long", "long long"), ("_Bool", "_Bool", "int", "int")]
WORDS = [([], 2), (["none.c", "--int", "wrap"], 2), (["none.c", "--plain", "--plain"], 2), (["none.c", "--question"], 2), (["one.c", "two.c"], 2),
         (["none.c", "--wrong"], 2), (["none.c"], 3), (["FILE", "--question", "ctl: [AG](x >"], 2), (["FILE", "--question", "ctl: at(nowhere)"], 2),
         (["FILE", "--question", "nowhere"], 2), (["FILE", "--question", "overflow", "--int", "unbounded"], 2), (["FILE", "--entry", "other"], 3), (["FILE", "--int=checked"], 0),
         (["FILE", "-o", "/nowhere/text"], 2)]


def same(seen, wanted, what: str) -> tuple[str, str | None]:
    return what, None if seen == wanted else f"is {seen!r} and not {wanted!r}"


def atom(relation: str, terms: dict[str, int], constant: int) -> Atom:
    return Atom(relation, Linear(terms, constant))


def formula_checks() -> list[tuple[str, str | None]]:
    rows = [same(formulas.text(formulas.normal(formulas.read(text))), wanted, f"normal form of {text}") for text, wanted in NORMAL]
    rows += [same(claims.path_letters(text), wanted, f"path letters of {text}") for text, wanted in LETTERS]
    rows += [same(joinable(formulas.read(text)), wanted, f"joinable {text}") for text, wanted in JOINED]
    rows += [same(formulas.text(formulas.passing(formulas.normal(formulas.read(text)), formulas.at("S"))), wanted, f"passing over S: {text}") for text, wanted in PASSING]
    return rows + [same(claims.claim(*given)[0], wanted, f"claim {given}") for given, wanted in CLAIMS]


def number_checks() -> list[tuple[str, str | None]]:
    wide, narrow = Types("lp64"), Types("ilp32")
    rows = [same((wide.common(wide.wholes[one], wide.wholes[other]).name, narrow.common(narrow.wholes[one], narrow.wholes[other]).name), (first, second),
                 f"common type of {one} and {other}") for one, other, first, second in COMMON]
    x_at_most_n = atom("<=", {"x": 1, "n": -1}, 1)
    rows.append(same(narrowed([x_at_most_n], {"x": (0, None), "n": (None, 9)}), {"x": (0, 8), "n": (1, 9)}, "x < n with x >= 0 and n <= 9"))
    rows.append(same(narrowed([x_at_most_n, atom("<=", {"n": 1}, 0)], {"x": (0, None)}), None, "x < n with x >= 0 and n <= 0"))
    rows.append(same(narrowed([atom("==", {"x": 3, "y": -1}, 0)], {"y": (4, 8)})["x"], (2, 2), "3 * x == y with 4 <= y <= 8"))
    rows.append(same(narrowed([atom("!=", {"x": 1}, -4)], {"x": (4, 8)})["x"], (5, 8), "x != 4 with 4 <= x <= 8"))
    rows.append(same(atom("<=", {"x": 2}, -1).text(), "x <= 0", "2 * x <= 1"))
    rows.append(same(atom("<=", {"x": -1}, 3).text(), "x >= 3", "3 - x <= 0"))
    return rows


def word_checks() -> list[tuple[str, str | None]]:
    rows = []
    with tempfile.TemporaryDirectory() as directory:
        path = os.path.join(directory, "file.c")
        with open(path, "w") as file:
            file.write("int main(void) { return 0; }\n")
        for words, status in WORDS:
            given = [path if word == "FILE" else word for word in words]
            ended = subprocess.run([sys.executable, C2T2, *given], capture_output=True, text=True)
            seen = ended.returncode if "Traceback" not in ended.stderr and (status == 0 or ended.stderr) else "a traceback, or nothing said"
            rows.append(same(seen, status, f"c2t2 {' '.join(words)}"))
    return rows


def all_checks() -> list[tuple[str, str | None]]:
    return formula_checks() + number_checks() + word_checks()
