"""What the numbers of a program and of a formula stand for, line by line."""
from t2.formulas import formula_text, node_kind, subformulas
from t2.linear import Case
from t2.program import Program
from t2.spelling import rows_texts, term_text
from t2.trees import Tree


def column_names(program: Program, case: Case) -> list[str]:
    """The names of the columns of a case: the variables, the draws, and the unknowns of quotients and remainders."""
    draws = program.edges[case.edge].draws
    return program.variables + [f"nondet#{at}" for at in range(draws)] + [f"quotient#{at}" for at in range(case.draws - draws)]


def step_text(program: Program, source: int, target: int) -> str:
    return f"from {program.shown(source)} to {program.shown(target)}"


def edge_lines(program: Program, number: int, own: list[str]) -> list[str]:
    """An edge, its place in the text, the numbers of its cases, and its commands."""
    edge = program.edges[number]
    process = f"process {edge.process}, " if edge.process else ""
    counted = f"case{'s' if len(own) > 1 else ''} {', '.join(own)}" if own else "no case: it cannot be taken"
    lines = [f"  {number}  {process}{step_text(program, edge.source, edge.target)}, line {edge.line} ({counted})"]
    return lines + [f"       AT({mark})" for mark in edge.marks] + [f"       {text}" for text in edge.texts()]


def case_lines(program: Program, case: Case) -> list[str]:
    """A case, its guards and its updates."""
    names = column_names(program, case)
    lines = [f"  {case.number}  {step_text(program, case.source, case.target)}, edge {case.edge}"]
    guards = rows_texts(case.guards, names)
    lines.append(f"       where {' && '.join(guards)}" if guards else "       always")
    changed = [f"{program.variables[at]} := {term_text(row, names)}" for at, row in case.updates.items()]
    lines.append(f"       {'; '.join(changed)}" if changed else "       changes nothing")
    return lines


def subformula_lines(proved: Tree, denied: Tree) -> list[str]:
    """The parts of the normal form and of the negation: those with one number are each other's negation."""
    lines = []
    for number, (one, other) in enumerate(zip(subformulas(proved), subformulas(denied))):
        lines.append(f"  {number}  {formula_text(one)}   ({node_kind(one)})")
        lines.append(f"       in the negation: {formula_text(other)}   ({node_kind(other)})")
    return lines


def listing(program: Program, cases: list[Case], proved: Tree | None, denied: Tree | None) -> list[str]:
    """All that has a number, in order."""
    lines = ["variables"] + [f"  {number}  {name}" for number, name in enumerate(program.variables)]
    lines.append("locations")
    lines += [f"  {number}  {program.shown(number)}{'   (START)' if number == 0 else ''}" for number in range(len(program.labels))]
    lines.append("edges")
    own: dict[int, list[str]] = {number: [] for number in range(len(program.edges))}
    for case in cases:
        own[case.edge].append(str(case.number))
    for number, numbers in own.items():
        lines += edge_lines(program, number, numbers)
    lines.append("cases")
    for case in cases:
        lines += case_lines(program, case)
    if proved is not None and denied is not None:
        lines += ["subformulas"] + subformula_lines(proved, denied)
    return lines
