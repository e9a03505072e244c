"""Listings: by hand, and against the numbers that the program tells where an answer is Unknown."""
import re

from checks import EXAMPLES, Checks, call, verdict

STEPS = """START: a;
FROM: b; assume(y > 0); assume(x != 3 || y == 2); TO: c;
FROM: a; AT(3, "demo.c:3"); x := nondet() + x; assume(y <= x); TO: b;
FROM: c; assume(false); TO: a;
"""
LISTED = """variables
  0  y
  1  x
locations
  0  a   (START)
  1  b
  2  c
edges
  0  from b to c, line 2 (cases 0, 1, 2)
       assume(y > 0)
       assume(x != 3 || y == 2)
  1  from a to b, line 3 (case 3)
       AT(3, "demo.c:3")
       x := nondet() + x
       assume(y <= x)
  2  from c to a, line 4 (no case: it cannot be taken)
       assume(false)
cases
  0  from b to c, edge 0
       where y > 0 && x <= 2
       changes nothing
  1  from b to c, edge 0
       where y > 0 && x >= 4
       changes nothing
  2  from b to c, edge 0
       where y > 0 && y == 2
       changes nothing
  3  from a to b, edge 1
       where y <= x + nondet#0
       x := x + nondet#0
subformulas
  0  [AG](at(b)) && term   (and)
       in the negation: [EM](!at(b))(true) || !term   (or)
  1  [AG](at(b))   (fix)
       in the negation: [EM](!at(b))(true)   (fix)
  2  at(b)   (atom)
       in the negation: !at(b)   (atom)
  3  false   (atom)
       in the negation: true   (atom)
  4  term   (term)
       in the negation: !term   (noterm)
"""
COPIED = "START: a;\nFROM: a; y := y + 1; TO: b;\nFROM: b; TO: a;\n"
COPIES = """edges
  0  from a to b, line 2 (cases 0, 1)
       y := y + 1
       assume(true || y > 2)
  1  from a to b, line 2 (no case: it cannot be taken)
       y := y + 1
       assume(!(true || y > 2))
  2  from b to a, line 3 (case 2)
       assume(false || y > 2)
  3  from b to a, line 3 (case 3)
       assume(!(false || y > 2))
cases
  0  from a to b, edge 0
       always
       y := y + 1
  1  from a to b, edge 0
       where y >= 2
       y := y + 1
  2  from b to a, edge 2
       where y >= 3
       changes nothing
  3  from b to a, edge 3
       where y <= 2
       changes nothing
"""
# programs of which one case draws half of a number, or has no rank, and the edge that is meant
DRAWS = "START: 0;\nFROM: 0; assume(z != 3 || z < 9); z := 3; TO: 1;\nFROM: 1; y := nondet(); assume(2 * y == x); TO: 2;\n"
LOOP = "START: 0;\nFROM: 0; assume(z != 3 || z == 4); TO: 1;\nFROM: 1; assume(x > 0); x := x + y; y := y + z; z := z + w; w := w + v; v := v - 1; TO: 1;\n"
TURNING = (EXAMPLES / "turning-sum.t2").read_text()
RESTING = "START: 0;\nFROM: 0; assume(z != 3 || z == 4); TO: 1;\nFROM: 1; TO: 1;\n"


def by_hand(checks: Checks) -> None:
    status, out, messages = call("listing", ["--ctl", "[AG](at(b)) && term"], STEPS)
    checks.that("a listing", (status, out) == (0, LISTED), out + messages)
    status, out, _ = call("listing", [], "PROCESS: p; START: a; FROM: a; TO: b; PROCESS: q; START: c; FROM: c; x := 1; TO: c;")
    checks.that("a listing of processes", "  1  p: b, q: c" in out and "process q, from p: b, q: c to p: b, q: c, line 1 (case 2)" in out, out)


def copies(checks: Checks) -> None:
    status, out, messages = call("listing", ["--finitely", "at(b) || y > 2"], COPIED)
    checks.that("a listing of copies", status == 0 and out.endswith(COPIES), out + messages)
    for formula in ("[EX](true)", "term", "at(c)", "y >"):
        status, out, messages = call("listing", ["--finitely", formula], COPIED)
        checks.that(f"no copies by {formula}", status == 3 and out == "" and messages.startswith("listing.py: --finitely: "), out + messages)


def listed(text: str, words: list[str], part: str, number: str) -> str:
    """The lines of one number in a part of a listing."""
    out = call("listing", words, text)[1]
    lines = re.search(rf"^{part}\n((?:  .*\n?)*)", out, re.M).group(1)
    found = re.search(rf"^  {number}  (.*\n(?:       .*\n?)*)", lines, re.M)
    return found.group(1) if found else ""


def as_the_program_says(checks: Checks) -> None:
    """The number in an answer is looked up, and what is listed there is what is meant."""
    for text, words, line, part, meant in [
            (DRAWS, ["--ctl", "[EX]([EX](true))"], "draw case ", "cases", "y := nondet#0"),
            (LOOP, ["--termination"], "cases ", "cases", "edge 1\n       where x > 0\n       "),
            (RESTING, ["--finitely", "at(1)"], "cases ", "cases", "edge 2\n       always\n       changes nothing"),
            (TURNING, ["--ctl", "x == 12 || [AF](x <= 0)"], "subformula ", "subformulas", "[AF](x <= 0)   (fix)"),
            (TURNING, ["--ctl", "[AG](x == 0 || [AF](x <= 0))"], "subformula ", "subformulas", "[AF](x <= 0)   (fix)"),
            (TURNING, ["--ctl", "[AG](true) && !(at(0) && !term) && [AF](x <= 0)"], "subformula ", "subformulas", "term   (term)"),
            (TURNING, ["--ctl", "x == 12 || [AG](x == 0 || [AF](x <= 0))"], "subformula ", "subformulas", "[AF](x <= 0)   (fix)")]:
        answer = verdict(words, text).split("\n")
        is_there = answer[0].startswith("Unknown") and answer[1].startswith(line)
        found = listed(text, words, part, answer[1].removeprefix(line)) if is_there else ""
        checks.that(f"{words} is {answer[:2]}", meant in found, found)


def at_fault(checks: Checks) -> None:
    for words, text, status in [([], "START", 3), ([], "", 3), (["--ctl", "y >"], STEPS, 3), (["nowhere.t2"], "", 3), (["--ctrl", "x"], "", 2)]:
        ended, _, messages = call("listing", words, text)
        checks.that(f"status of {words} {text[:9]}", ended == status and messages != "" and "Traceback" not in messages, (ended, messages))


def run(checks: Checks) -> None:
    for part in (by_hand, copies, as_the_program_says, at_fault):
        part(checks)
