"""Runs as they are printed."""
import textwrap

from t2.certificates import Certificate, Node
from t2.formulas import TRUE, formula_text
from t2.names import Names
from t2.runs import Run, State, Step

WIDTH = 120


def meaning(node: Node, names: Names) -> str:
    """What holds where the node does: its formula, or else the node itself."""
    if node.formula is not None:
        return f"`{formula_text(node.formula)}` holds"
    return f"node {node.number} of the certificate holds"


def values_text(names: Names, now: State, before: State | None) -> str:
    """The values of a state, or those that changed."""
    shown = [f"{names.variable(at)} = {number}" for at, number in enumerate(now.values) if before is None or before.values[at] != number]
    return ", ".join(shown)


def state_lines(run: Run, at: int, names: Names) -> list[str]:
    state, before = run.states[at], run.states[at - 1] if at else None
    head = f"state {run.name}{at}  at {names.location(state.location)}"
    if names.is_before_start(state.location):
        return [head + "  (values before they are set mean nothing)"]
    if before is not None and names.is_before_start(before.location):
        before = None
    values = values_text(names, state, before)
    whole = f"{head}  {values}" if values else head
    return textwrap.wrap(whole, WIDTH, subsequent_indent="         ", break_long_words=False, break_on_hyphens=False)


def step_lines(step: Step, names: Names) -> list[str]:
    """The edge that is taken, its commands, what is drawn, and whether another step could be taken."""
    number = step.case.edge
    edge = names.program.edges[number]
    commands = "; ".join(edge.texts()) or "no command"
    lines = [f"    edge {number} ({names.edge_place(number)}): {commands}"]
    if step.draws:
        lines.append("      " + ", ".join(names.draw(number, at, value) for at, value in enumerate(step.draws)))
    lines += [f"      {call}" for call in names.calls(number, step.draws)]
    if step.others is not None:
        lines.append(f"      {others_text(step, edge.draws)}")
    return lines


def is_one_of_several(step: Step, names: Names) -> bool:
    """Whether any step would do, and another one can be taken or another number drawn."""
    return step.others is not None and (step.is_open or len(step.others) > 1 or names.program.edges[step.case.edge].draws > 0)


def others_text(step: Step, draws: int) -> str:
    """Of a step where any one would do: which others there are."""
    if len(step.others) > 1:
        return f"one of several: a step can be taken by the edges {', '.join(map(str, step.others))}, and each would do"
    if step.is_open:
        return "a step that can be taken; whether there are others was not found out"
    return "one of several: any number that the edge lets through could be drawn" if draws else "the only step"


def ending_lines(run: Run, names: Names) -> list[str]:
    last = f"{run.name}{len(run.states) - 1}"
    if run.back is not None:
        several = any(is_one_of_several(step, names) for step in run.steps[run.back:])
        return [f"back to state {run.name}{run.back}: so the run {'may go' if several else 'goes'} on without end"]
    if run.ending == "more":
        how = "never ends" if run.node.kind == "noterm" else "goes on"
        return [f"the run {how}: the states up to {last} are printed, and --count asks for more"]
    if run.ending == "stop":
        return [f"no step can be taken from state {last}: the run ends there"]
    if run.ending == "open":
        return [f"whether a step can be taken from state {last} was not found out"]
    held = held_text(run, len(run.states) - 1, names)
    return [f"at state {last} {held}" if held else f"at state {last} the run is at its end"]


def held_text(run: Run, at: int, names: Names) -> str:
    """What holds at a state beside what is to come, where the formulas are known."""
    return " and ".join(meaning(node, names) for node in run.held.get(at, []) if node.formula not in (None, TRUE))


def run_lines(run: Run, names: Names) -> list[str]:
    lines = state_lines(run, 0, names)
    for at, step in enumerate(run.steps):
        held = held_text(run, at, names)
        lines += [f"      here {held}"] if held else []
        lines += step_lines(step, names)
        repeated = run.back is not None and at + 2 == len(run.states)
        lines += [f"state {run.name}{at + 1}  is state {run.name}{run.back}"] if repeated else state_lines(run, at + 1, names)
    return lines + ending_lines(run, names)


def heading(certificate: Certificate, runs: list[Run], names: Names) -> list[str]:
    """What the run shows."""
    root = certificate.root
    holds = meaning(root, names) if root.formula is not None else ""
    if certificate.proved:
        first = f"Proved: the property holds at each initial state{f', and so at state 0 {holds}' if holds else ''}."
    else:
        first = f"Disproved: the property fails at state 0{f', since there {holds}' if holds else ''}."
    if any(is_one_of_several(step, names) for step in runs[0].steps):
        return [first, "One of the runs from there:", ""]
    free = root.kind == "term" or root.path == "A" or any(step.others for step in runs[0].steps)
    return [first, "The run from there:" if free else "The run of the certificate:", ""]


def report(certificate: Certificate, runs: list[Run], names: Names) -> str:
    """The runs, the first of which is the one from the initial state."""
    lines = heading(certificate, runs, names)
    for at, run in enumerate(runs):
        if at:
            lines += ["", f"At state {run.name.rstrip('.')} {meaning(run.node, names)} too. The run from there:"]
        lines += run_lines(run, names)
    return "\n".join(lines)
