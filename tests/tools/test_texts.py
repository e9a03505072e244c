"""Texts of programs and formulas, and how rows are written."""
import itertools

from checks import Checks
from t2.expressions import is_true
from t2.formulas import formula_text, negation, normal, read_formula, subformulas
from t2.program import read_program
from t2.spelling import relation_text, rows_texts, term_text
from t2.tokens import Fault

HEAD = "START: 0;\nFROM: 0;\n"


def at_fault(reader, *words) -> str:
    """What a reader says is at fault."""
    try:
        reader(*words)
    except Fault as fault:
        return str(fault)
    return "none"


def numbers(checks: Checks) -> None:
    text = 'FROM: b; z := x; TO: a; START: c; CUTPOINT: 7; // FROM: q; TO: q;\nFROM: a; AT(0, "demo.c:3") y.1 := nondet() + z; AT(1);\nTO: c;'
    program = read_program(text)
    checks.same("variables by their first place", program.variables, ["z", "x", "y.1"])
    checks.same("the start is location 0", program.labels, ["c", "b", "a"])
    checks.same("edges", [(edge.source, edge.target, edge.line) for edge in program.edges], [(1, 2, 1), (2, 0, 2)])
    checks.same("draws", [edge.draws for edge in program.edges], [0, 1])
    checks.same("marks are kept", program.edges[1].marks, ['0, "demo.c:3"', "1"])
    checks.same("commands", program.edges[1].texts(), ["y.1 := nondet() + z"])
    checks.same("labels by their bytes", read_program("START: 0; FROM: 0; TO: 00;").labels, ["0", "00"])
    checks.same("the heading ends the text", read_program("START: 0;\nCERTIFICATE:\n?").labels, ["0"])
    checks.same("with a CR", read_program("START: 0;\r\nCERTIFICATE:\r\n?").labels, ["0"])


def program_faults(checks: Checks) -> None:
    for text, place in [
            ("START: 0; FROM: 0; assume(x", "line 1, column 28"),
            ("START: 0; START: 0;", "line 1, column 11"),
            ("START 4;", "line 1, column 7"),
            ("START: 4611686018427387904;", "line 1, column 8"),
            ("START: 0; FROM: 0; x := y * 2 * z; TO: 0;", "line 1, column 33"),
            ("START: 0;\n/*/ never closed", "line 2, column 1"),
            ("START: 0; FROM: 0; x = 1; TO: 0;", "line 1, column 22")]:
        checks.that(f"fault of {text!r}", at_fault(read_program, text).startswith(place), at_fault(read_program, text))
    checks.same("no start", at_fault(read_program, ""), "the program has no `START`")


def execution(checks: Checks) -> None:
    """By hand: assignments one after another, and the truth of conditions with brackets of both kinds."""
    edge = read_program(HEAD + "x := x + 1; y := 2 * x - nondet(); assume((x + 1) * 2 > y && !(x < 3)); TO: 0;").edges[0]
    checks.same("x 2 becomes 3, y becomes 6 - 1", edge.execute((2, 0), [1]), (3, 5))
    checks.same("x 1 becomes 2, which is below 3", edge.execute((1, 0), [1]), None)
    edge = read_program(HEAD + "assume(x > 0 || y > 0 && false); x := -x / 2; y := -7 % 3 + y; TO: 0;").edges[0]
    checks.same("-5 / 2 is -3, and -7 % 3 is 2", edge.execute((5, 1), []), (-3, 3))
    checks.same("&& binds before ||", edge.execute((0, 1), []), None)


def formulas(checks: Checks) -> None:
    program = read_program(HEAD + "x := y; TO: L1;")
    for text, spelled, denied in [
            ("[AG](x >= 0)", "[AG](x >= 0)", "[EM](x < 0)(true)"),
            ("!(x > 0 && at(0))", "x <= 0 || !at(0)", "x > 0 && at(0)"),
            ("[AF](term)", "[AF](term)", "[ER](false)(!term)"),
            ("[EU](x == 1)(y != 2)", "[EU](x == 1)(y != 2)", "[AR](x != 1)(y == 2)"),
            ("[AX](!(!term))", "[AX](term)", "[EX](!term)"),
            ("[EG](at(L1)) || (x < 1 || y < 1)", "[EG](at(L1)) || (x < 1 || y < 1)", "[AM](!at(L1))(true) && (x >= 1 && y >= 1)"),
            ("(x + 1) * 2 <= -y", "(x + 1) * 2 <= -y", "(x + 1) * 2 > -y")]:
        tree = read_formula(text, program)
        checks.same(f"normal form of {text}", formula_text(normal(tree)), spelled)
        checks.same(f"negation of {text}", formula_text(negation(tree)), denied)
    whole = "[AU](at(0) && !term)([EX](x < 1))"
    counted = [formula_text(part) for part in subformulas(normal(read_formula(whole, program)))]
    checks.same("numbers of subformulas", counted, [whole, "at(0) && !term", "at(0)", "!term", "[EX](x < 1)", "x < 1"])
    for text, place in [
            ("x >", "column 4"),
            ("z > 0", "column 1"),
            ("at(9)", "column 4"),
            ("x * x > 0", "column 5"),
            ("[AQ](x < 1)", "column 2"),
            ("nondet() > 0", "column 1")]:
        checks.that(f"fault of {text}", place in at_fault(read_formula, text, program), at_fault(read_formula, text, program))


def rows(checks: Checks) -> None:
    """Rows over rd and cap, written by hand."""
    names = ["rd", "cap"]
    for row, text in [
            ((1, -1, 1), "rd < cap"), ((1, -1, 0), "rd <= cap"), ((1, -1, 3), "rd + 3 <= cap"), ((1, -1, -3), "rd <= cap + 3"),
            ((1, 0, -5), "rd <= 5"), ((1, 0, 1), "rd < 0"), ((-1, 0, 1), "rd > 0"), ((-1, 0, 4), "rd >= 4"), ((-1, 0, -4), "rd >= -4"),
            ((-2, -1, 0), "2 * rd + cap >= 0"), ((3, -2, 1), "3 * rd < 2 * cap"),
            ((0, 0, 0), "true"), ((0, 0, 1), "false"), ((0, 0, -1), "true")]:
        checks.same(f"row {row}", relation_text(row, names), text)
    for given, texts in [
            ([(1, 0, 0), (-1, 0, 0)], ["rd == 0"]),
            ([(-1, 1, 2), (0, 1, -7), (1, -1, -2)], ["rd == cap + 2", "cap <= 7"]),
            ([(-1, 0, 3), (1, 0, -3)], ["rd == 3"]),
            ([(0, 0, 0)], []),
            ([(0, 0, 1)], ["false"]),
            ([(1, 1, -4), (-1, -1, 4)], ["rd + cap == 4"])]:
        checks.same(f"rows {given}", rows_texts(given, names), texts)
    for row, text in [((1, -1, 0), "rd - cap"), ((-1, 0, 2), "-rd + 2"), ((0, 0, 0), "0"), ((0, 0, -1), "-1"), ((0, 3, -1), "3 * cap - 1")]:
        checks.same(f"term {row}", term_text(row, names), text)


def rows_again(checks: Checks) -> None:
    """What is written of rows is true where they are met: read as a condition and evaluated at many points."""
    program = read_program(HEAD + "x := y; TO: 0;")
    wrong = []
    for row in itertools.product(range(-2, 3), range(-2, 3), (-3, -1, 0, 1, 2)):
        for given in ([row], [row, tuple(-number for number in row)]):
            condition = read_formula(" && ".join(rows_texts(given, program.variables)) or "true", program)
            for point in itertools.product(range(-3, 4), repeat=2):
                met = all(one[0] * point[0] + one[1] * point[1] + one[2] <= 0 for one in given)
                wrong += [(given, point)] if is_true(condition, list(point), []) != met else []
    checks.same("rows that are read again", wrong[:3], [])


def run(checks: Checks) -> None:
    for part in (numbers, program_faults, execution, formulas, rows, rows_again):
        part(checks)
