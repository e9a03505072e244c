"""Runs: by hand, and of every example, whose steps the other interpreter of this folder takes again."""
import json
import re
import subprocess
import sys
import tempfile
from pathlib import Path

from checks import EXAMPLES, TOP, Checks, call, command, traced, verdict
from plain import Printed, edges, execute, faults, is_true

# the labels and values of x, worked out by hand from the initial value that examples/README.md tells
BY_HAND = [
    ("climbing.t2", ["--termination"], [("0", 1)] + [("1", value) for value in range(1, 20)], "the run never ends"),
    ("passes.t2", ["--safety", "2"], [("0", 1)] + [("1", value) for value in range(6)] + [("2", 5)], "at state 7"),
    ("leaving.t2", ["--ctl", "[AF](term)"], [("0", 1), ("0", 1)], "back to state 0: so the run goes on without end"),
    ("countdown.t2", ["--ctl", "[AG](x >= 0)"], [("0", -1)], "at state 0"),
    ("step.t2", ["--ctl", "[EX](x == 1 || x == 3)"], [("0", 2), ("1", 2)], "the only step"),
    ("countdown.t2", ["--ctl", "[EF](x <= 0)"], [("0", 0)], "at state 0"),
    ("draw.t2", ["--ctl", "[EF](x == 7)"], [("0", 0), ("1", 7)], "nondet() = 7"),
]
# what holds at each state of the run of an example, and at its last one
ALWAYS = {"[AF](x < 0)": "x >= 0", "[EF](x == 7 && y > 100)": "!(x == 7 && y > 100)", "[EG](true)": "true"}
AT_LAST = {
    "[AG](x >= 0)": "x < 0",
    "[EF](x == 7)": "x == 7",
    "[EX](x == 7)": "x == 7",
    "[EF](x <= 0)": "x <= 0",
    "[EX](x == 1 || x == 3)": "!(x == 1 || x == 3)",
}


def by_hand(checks: Checks) -> None:
    for file, words, states, said in BY_HAND:
        status, out, messages = traced(words, EXAMPLES / file)
        printed = Printed(out)
        got = [(label, values.get("x")) for label, values in printed.runs[0]] if printed.runs else []
        checks.that(f"run of {file} {words}", (status, got) == (0, states) and said in out, out + messages)
    status, out, _ = call("trace", [str(EXAMPLES / "nodes" / "weak-any.t2"), "--start", "x=2"])
    states = [(label, values["x"]) for label, values in Printed(out).runs[0]]
    checks.same("the choice counts down", states, [("0", 2), ("0", 1), ("0", 0)])
    checks.that("and then says that there is no step", "no step can be taken from state 2" in out, out)
    words = ["--ctl", "[EX](x >= 3 && [EX](x >= 2 && [EX](x == 1)))"]
    status, out, _ = traced(words, EXAMPLES / "draw.t2", words)
    states = [(label, values["x"]) for label, values in Printed(out).runs[0]]
    checks.same("three steps to 1 begin with a draw of 3", states, [("0", 0), ("1", 3), ("1", 2), ("1", 1)])
    checks.that("what holds on the way", "x = 3\n      here `x >= 3` holds\n" in out and out.endswith("at state 3 `x == 1` holds\n"), out)
    status, out, _ = traced(["--termination"], EXAMPLES / "idle.t2")
    checks.that("a run without variables", status == 0 and "back to state 0: so the run goes on without end" in out, out)
    status, out, _ = traced(["--ctl", "[AG]([EF](term))"], EXAMPLES / "leaving.t2")
    checks.that("a step that is one of several", "by the edges 0, 1, and each would do" in out and "the run may go on without end" in out, out)
    checks.that("a part of the formula has a run of its own", "At state 0" in out and "no step can be taken from state 0.1" in out, out)


def examples() -> list[tuple[str, list[str], Path, str]]:
    """The commands of examples/README.md that are answered with a certificate: the words, the file, the answer."""
    found = []
    for line in (EXAMPLES / "README.md").read_text().split("\n"):
        cells = [cell.strip().replace(r"\|", "|") for cell in re.split(r"(?<!\\)\|", line)[1:-1]]
        if len(cells) == 5 and cells[4] in ("0", "1") and " < examples/" in cells[2]:
            task = re.search(r"--termination|--safety \S+|--ctl (?:'[^']*'|\S+)", cells[2])
            if task is None:  # of --finitely there are no certificates
                continue
            words = [word.strip("'") for word in task.group(0).split(" ", 1)]
            found.append((cells[2], words, TOP / cells[2].strip("`").rsplit(" < ", 1)[1], cells[3]))
    return found


def outputs() -> dict[str, str]:
    """What the program writes of each example that has no certificate of its own."""
    return {name: "" if "--check" in name else verdict([*words, "--certificate"], path.read_text()) for name, words, path, _ in examples()}


def every_example(checks: Checks) -> None:
    written = outputs()
    for name, words, path, answer in examples():
        more = [] if "--check" in name else ["-"]
        found = []
        for task in ([], words):
            status, out, messages = call("trace", [str(path), *more, *task], written[name])
            checks.that(f"{name}: its run", status == 0 and messages == "" and out.startswith(answer[1:7]), (status, messages))
            found.append(Printed(out))
        checks.that(f"{name}: its run without the formula", found[0].runs == found[1].runs, "")
        of_program(checks, name, words[-1], path.read_text(), found[0], "`Disproved" in answer)


def of_program(checks: Checks, name: str, formula: str, text: str, printed: Printed, is_disproved: bool) -> None:
    """The steps are those of the program, and the states are such as the answer says."""
    checks.same(f"{name}: its steps", faults(text, printed), [])
    values = [state[1] for state in printed.runs[0]]
    if formula in ALWAYS and is_disproved or formula == "[EG](true)":
        checks.that(f"{name}: each of its states", all(is_true(ALWAYS[formula], now) for now in values), values)
        label, now = printed.runs[0][-1]
        leaving = [commands for one, commands, _ in edges(text) if one == label]
        stopped = all(execute(commands, now, [number] * 9) is None for commands in leaving for number in range(-9, 10))
        checks.that(f"{name}: its end", stopped, printed.runs[0][-1])
    if formula in AT_LAST:
        checks.that(f"{name}: its last state", is_true(AT_LAST[formula], values[-1]), values[-1])


def not_a_step(checks: Checks) -> None:
    out = verdict(["--ctl", "[EF](x == 7)", "--certificate"], (EXAMPLES / "draw.t2").read_text())
    status, _, messages = call("trace", [str(EXAMPLES / "draw.t2")], out.replace("draw 0 7", "draw 0 8"))
    checks.that("a draw that leads elsewhere", status == 4 and "state 1: the state is not in the piece" in messages, (status, messages))
    status, _, messages = call("trace", [str(EXAMPLES / "draw.t2"), "-", "--ctl", "[EF](x == 8)"], out)
    checks.that("a formula that is another one", status == 4 and "state 1: node 2 does not hold there" in messages, (status, messages))
    out = verdict(["--safety", "2", "--certificate"], (EXAMPLES / "passes.t2").read_text())
    status, _, messages = call("trace", [str(EXAMPLES / "passes.t2")], out.replace("rank 0 5", "rank 0 6"))
    checks.that("a rank that does not fall", status == 4 and "state 1: the ranks do not fall over edge 1, from [6] to [6]" in messages, messages)
    text = (EXAMPLES / "climber.t2").read_text()
    status, _, messages = call("trace", ["-"], text.replace("x > 0", "x > 5"))
    checks.that("an edge that cannot be taken", status == 4 and "edge 1 cannot be taken" in messages, (status, messages))
    status, out, messages = call("trace", ["-", "--count", "3"], text.replace("x + 1", "x + 2"))
    checks.that("values are those of the program's own commands", "state 2  at 1  x = 3" in out, out + messages)
    text = (EXAMPLES / "stays.t2").read_text()
    status, _, messages = call("trace", ["-"], text.replace("assume(x > 0)", "assume(x >= 0)"))
    checks.that("where no step is claimed and one is there", status in (3, 4) and messages.count("\n") == 1, (status, messages))


PROCESSES = """PROCESS: p; START: a; FROM: a; x := x + 1; TO: b;
PROCESS: q; START: c; FROM: c; assume(x > 0); TO: c;
CERTIFICATE:
T2CERT 1
disproved
node noterm 2 0
piece 0 go 1
row -1 0
piece 1 go 1
row -1 1
take 0 0 0
by 1 1
take 2 0 0
by 1 1
by 1 1
at 0 0
end
"""


def of_processes(checks: Checks) -> None:
    """The product has the locations _a.c and _b.c and three edges: that of p, and that of q at each place of p."""
    status, out, messages = call("trace", ["-"], PROCESSES)
    for said in (
            "state 0  at p: a, q: c  x = 0\n    edge 0 (process p, line 1): x := x + 1",
            "state 1  at p: b, q: c  x = 1\n    edge 2 (process q, line 2): assume(x > 0)",
            "state 2  is state 1"):
        checks.that(f"a product: {said}", status == 0 and said in out, out + messages)


TABLE = {
    "version": 1,
    "source": "demo.c",
    "locations": {
        "0": {"line": None, "function": None, "kind": "start"},
        "1": {"line": 12, "function": "main", "kind": "statement"},
    },
    "edges": [{
        "from": "0", "to": "1", "line": 11,
        "draws": [{"kind": "nondet:int", "line": 11, "own": True}],
        "calls": [{"line": 11, "type": "int", "draw": 0}],
    }],
    "variables": {"x": {"c": "count", "function": "main", "line": 10, "type": "int", "copy": 1}},
}
SAID = [
    "state 0  at 0 (start)  (values before they are set mean nothing)",
    "edge 0 (line 2, demo.c:11): x := nondet()",
    "nondet() = 7 (nondet:int, demo.c:11)",
    "__VERIFIER_nondet_int() gives 7 in demo.c:11",
    "state 1  at 1 (demo.c:12, main)  x (count of main) = 7",
]


def with_table(checks: Checks) -> None:
    with tempfile.TemporaryDirectory() as folder:
        name = Path(folder) / "table.json"
        for table, said in [(TABLE, SAID), ({"locations": [], "edges": {}, "variables": 3}, ["state 1  at 1  x = 7"])]:
            name.write_text(json.dumps(table))
            status, out, messages = traced(["--ctl", "[EF](x == 7)"], EXAMPLES / "draw.t2", ["--table", str(name)])
            checks.that("a run with a table", status == 0 and all(part in out for part in said), out + messages)
        for wrong in ("[", "3"):
            name.write_text(wrong)
            status, _, messages = traced(["--ctl", "[EF](x == 7)"], EXAMPLES / "draw.t2", ["--table", str(name)])
            checks.that("a table that is none", status == 3 and messages.count("\n") == 1, messages)


def calls(checks: Checks) -> None:
    """How the tool is called: each time one line says what is wrong."""
    climber = "examples/climber.t2"
    for words, status in [
            ([climber], 0),
            ([], 2),
            ([climber, "--count", "0"], 2),
            ([climber, "--ctl", "term", "--termination"], 2),
            (["nowhere.t2"], 3),
            ([climber, "nowhere"], 3),
            ([climber, "--ctl", "x >"], 3),
            ([climber, "--safety", "9"], 3),
            ([climber, "--start", "x=1"], 3),
            (["examples/unfinished.t2"], 3),
            (["examples"], 3)]:
        ended, out, messages = command(["examples/trace.py", *words])
        checks.same(f"status of {words}", ended, status)
        checks.that(f"messages of {words}", status == 0 and messages == "" or messages.count("\n") == 1 and out == "", messages)
    line = f"'{sys.executable}' examples/trace.py {climber} --count 3000 | head -1"
    piped = subprocess.run(line, shell=True, cwd=TOP, capture_output=True, text=True, timeout=20, check=False)
    checks.that("a reader that goes away", piped.stdout.startswith("Disproved") and piped.stderr == "", piped.stderr)


def limits(checks: Checks) -> None:
    """Texts beyond what the program accepts, and numbers of any length."""
    deep, long_number = "(" * 9000, "9" * 9000
    processes = "".join("PROCESS: p; START: 0;" + "".join(f"FROM: {at}; TO: {at + 1};" for at in range(10)) for _ in range(8))
    wide = "START: 0; FROM: 0; " + "".join(f"assume(x{at} != 0); " for at in range(14)) + "TO: 0;"
    for text, said in [
            (f"START: 0; FROM: 0; assume({deep}x > 0); TO: 0;", ""),
            (f"START: 0; FROM: 0; x := {long_number}; TO: 0;", "a number of 2^62 or more"),
            (processes, "more than 1,024 locations"),
            (wide, "more than 8,192 linear cases"),
            (f"START: 0;\nCERTIFICATE:\nT2CERT 1\nproved\nnode atom {long_number} 0\n", "line 3")]:
        status, out, messages = call("trace", ["-"], text)
        checks.that(f"{text[:30]}..", (status, out, messages.count("\n")) == (3, "", 1) and said in messages, (status, messages))
    doubling = (EXAMPLES / "climber.t2").read_text().replace("x := x + 1", "x := 1000000 * x")
    status, out, messages = call("trace", ["-", "--count", "800"], doubling)
    checks.that("values of thousands of digits", status == 0 and f" {10 ** 4494}\n" in out, messages)


def run(checks: Checks) -> None:
    for part in (by_hand, every_example, not_a_step, of_processes, with_table, limits, calls):
        part(checks)
