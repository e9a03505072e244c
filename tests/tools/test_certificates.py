"""Certificates of both versions, and what comes of texts that are none."""
from checks import EXAMPLES, Checks, call
from t2.certificates import nodes_of, read_certificate
from t2.formulas import TERM, negation, never_at, normal, read_formula
from t2.linear import cases_of
from t2.program import read_program
from t2.texts import parted
from t2.tokens import Fault

HALF = "START: 0;\nFROM: 0; y := nondet(); assume(2 * y <= x); assume(x <= 2 * y + 1); TO: 1;\n"
# Of `[EX](true) && [EX](true)`: half of x, rounded down, is drawn. The rows of the floor w are 2w - x and x - 2w - 1, as the guards.
SHARED = """T2CERT 2
proved
node and 1 0
piece 0 go 0
share 0
node next 1 0
piece 0 go 0
node atom 1 0
piece 1 go 0
into 0 0
take 0 0 0
draw floor 2 0 1 0
by 1 0 1
by 0 1 1
same 0
into 0 0
into 0 0
into 0 0
end
"""


def read(text: str, certificate: str, proved=None, denied=None):
    program = read_program(text)
    return read_certificate(certificate, program, cases_of(program), proved, denied)


def fault_of(text: str, certificate: str, proved=None) -> str:
    try:
        read(text, certificate, proved, proved)
    except Fault as fault:
        return str(fault)
    return "none"


def version_one(checks: Checks) -> None:
    text, certificate = parted((EXAMPLES / "counter.t2").read_text())
    for formula in (None, normal(never_at("2", read_program(text)))):
        found = read(text, certificate, formula)
        root = found.root
        nodes = [(node.number, node.kind, len(node.pieces)) for node in nodes_of(root)]
        checks.same("the counter's nodes", nodes, [(0, "fix", 2), (1, "atom", 2), (2, "atom", 0)])
        checks.same("its shape is that of an invariant", (root.path, root.shape, root.falls), ("A", "W", False))
        checks.same("its second piece", (root.pieces[1].location, root.pieces[1].goes, root.pieces[1].rows), (1, True, [(1, -5)]))
        checks.same("its steps", [sorted(piece.steps) for piece in root.pieces], [[0], [1, 2]])
        checks.same("one of them is never taken", root.pieces[1].steps[2], ("empty", (1, 1)))
    text, certificate = parted((EXAMPLES / "nodes" / "until-every.t2").read_text())
    root = read(text, certificate).root
    checks.that("an until on every path is seen by its lines", (root.path, root.falls) == ("A", True), (root.path, root.shape))


def version_two(checks: Checks) -> None:
    formula = normal(read_formula("[EX](true) && [EX](true)", read_program(HALF)))
    for known in (None, formula):
        found = read(HALF, SHARED, known)
        nodes = [(node.number, node.kind) for node in nodes_of(found.root)]
        checks.same("a node that stands twice", nodes, [(0, "and"), (1, "next"), (2, "atom"), (3, "next"), (4, "atom")])
        checks.same("a floor", found.root.children[0].pieces[0].choice, ("take", 0, 0, 0, [((0, 1, 0), 2)], [(1, 0, 1), (0, 1, 1)]))
    text = HALF + "CERTIFICATE:\n" + SHARED
    for value, half in ((5, 2), (-5, -3), (4, 2), (0, 0)):
        status, out, messages = call("trace", ["-", "--start", f"x={value}"], text)
        checks.that(f"half of {value}, rounded down", status == 0 and f"nondet() = {half}\nstate 1  at 1" in out, out + messages)
    checks.that("a node that is not there", "no node is called 1" in fault_of(HALF, SHARED.replace("same 0", "same 1"), formula), "")


def at_fault(checks: Checks) -> None:
    text, certificate = parted((EXAMPLES / "counter.t2").read_text())
    lines = certificate.strip().split("\n")
    cut = [fault_of(text, "\n".join(lines[:count])) for count in range(len(lines))]
    checks.that("each certificate that is cut is at fault", all(fault != "none" for fault in cut), cut)
    checks.same("where nothing is there", cut[0], "no certificate is there")
    for change, said in [
            (("T2CERT 1", "T2CERT 3"), "of a version that is not known"),
            (("row 1 -5", "row 1 x"), "line 6"),
            (("by 0 1 1", "by 0 1"), "line 18"),
            (("piece 1 go 1", "piece 9 go 1"), "no location 9"),
            (("end", "end\nend"), "line 21"),
            (("proved", "perhaps"), "line 2")]:
        fault = fault_of(text, certificate.replace(*change, 1))
        checks.that(f"{change} is at fault", said in fault, fault)
    checks.that("an answer without a certificate", "the first line is `Unknown rank`" in fault_of(text, "Unknown rank\ncases 0\n"), "")
    fault = fault_of(text, certificate, TERM)
    checks.that("a formula of another kind", "wants a node of the kind `term`" in fault, fault)


def with_the_negation(checks: Checks) -> None:
    """What is disproved is read as a certificate of the negation."""
    text, certificate = parted((EXAMPLES / "stays.t2").read_text())
    formula = read_formula("[AF](x < 0)", read_program(text))
    found = read(text, certificate, normal(formula), negation(formula))
    checks.same("its values", (found.proved, found.piece, found.values), (False, 0, (0,)))
    checks.same("its shape", (found.root.path, found.root.shape), ("E", "R"))


def run(checks: Checks) -> None:
    for part in (version_one, version_two, at_fault, with_the_negation):
        part(checks)
