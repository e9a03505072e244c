"""Pictures: by hand, and of every example, which Graphviz reads."""
import html
import json
import re
import shutil
import subprocess

from checks import EXAMPLES, Checks, call, command, verdict
from plain import edges, start
from test_runs import examples, outputs

REALISTIC = """// nested loops, a branch and a countdown
START: 0;
CUTPOINT: 1;
FROM: 0;
AT(0, "demo.c:3")
n := nondet();
i := 0;
TO: 1;
FROM: 1;
AT(1, "demo.c:4");
assume(i < n);
TO: 2;
FROM: 2; j := 0; TO: 3;
FROM: 3; assume(j < i); TO: 4;
FROM: 4; j := j + 1; TO: 5;
FROM: 5; TO: 3;
FROM: 3; assume(j >= i); TO: 6;
FROM: 6; c := nondet(); assume(c > 0); i := i + 1; TO: 7;
FROM: 6; /* the other branch */ i := i + 2; TO: 8;
FROM: 7; TO: 1;
FROM: 8; TO: 1;
FROM: 1; assume(i >= n); TO: 9;
FROM: 9; k := n; TO: 10;
FROM: 10; assume(k > 0); TO: 11;
FROM: 11; k := k - 1; TO: 10;
FROM: 10; assume(k <= 0); TO: 12;
FROM: 12; TO: 13;
ERROR: 99;
""".replace("\n", "\r\n")

# two pieces at a.b' with other rows, none at stop^1, and names and marks of every kind
NAMES = """START: a.b';
FROM: a.b'; AT(0, "demo \\"x\\" <1>.c:3") rd$ := rd$ + 1; assume(rd$ < cap^2 && _q == 0); TO: stop^1;
CERTIFICATE:
T2CERT 1
proved
node term 2 2
piece 0 go 2
row 1 -1 0 1
row 0 0 1 0
rank 1 0 0 0
rank 0 -1 2 -3
piece 0 go 3
row 0 0 1 0
row 0 0 -1 0
row 0 1 0 -4
rank 0 0 0 0
rank 0 0 0 0
empty 1 1 1 1 1
empty 1 1 1 1 1 1
into 0 0
by 1
by 1
end
"""


def cells(picture: str, number: int) -> list[list[str]]:
    """The boxes of a location, each as its lines."""
    lines = [line for line in picture.split("\n") if " [label=<<table" in line]
    line = lines[number] if number < len(lines) else ""
    found = re.findall(r"<td[^>]*>(.*?)</td>", line)
    return [[html.unescape(re.sub(r"<[^>]*>", "", part)) for part in cell.split("<br/>")] for cell in found]


def picture_of(words: list[str], text: str, more: list[str] | None = None) -> str:
    out = verdict([*words, "--certificate"], text)
    return call("picture", more or [], text + "\nCERTIFICATE:\n" + out[out.index("T2CERT"):])[1]


def by_hand(checks: Checks) -> None:
    picture = picture_of(["--termination"], (EXAMPLES / "nested-loops.t2").read_text())
    checks.same("nested loops, outer", cells(picture, 0), [["outer", "START"], ["all values", "rank (0, x - 1, y - 1, -1)"]])
    checks.same("nested loops, inner", cells(picture, 1), [["inner"], ["all values", "rank (0, x - 2, y - 1, 0)"]])
    picture = picture_of(["--safety", "2"], (EXAMPLES / "no-certificate.t2").read_text())
    checks.that("an invariant as people write it", "x <= 5" in cells(picture, 1)[1], cells(picture, 1))
    checks.same("a location that no run comes to", cells(picture, 2), [["2"], ["unreached"]])
    picture = picture_of(["--ctl", "!term"], (EXAMPLES / "leaving.t2").read_text())
    checks.same("runs do come to a location that this proof has no need of", cells(picture, 1), [["1"], ["no piece"]])
    picture = picture_of(["--safety", "2"], (EXAMPLES / "passes.t2").read_text(), ["--run"])
    pieces = [[f"x == {value}", f"rank ({6 - value})"] for value in range(6)]
    states = [f"state {value + 1}: x = {value}" for value in range(6)]
    checks.same("pieces of one location are drawn apart", cells(picture, 1), [["1"], *pieces, states])
    checks.same("the end of the run", cells(picture, 2), [["2"], ["x == 5", "the end is reached"], ["state 7: x = 5"]])
    checks.that("the steps of the run", 'label="steps 2, 3, 4, 5, 6\\lassume(x < 5)\\lx := x + 1\\l"' in picture, picture)


def kept_names(checks: Checks) -> None:
    status, picture, messages = call("picture", [], NAMES)
    checks.same("names with signs", (status, messages), (0, ""))
    pieces = [["rd$ < cap^2", "_q <= 0", "rank (rd$, -cap^2 + 2 * _q - 3)"], ["_q == 0", "cap^2 <= 4", "rank (0, 0)"]]
    checks.same("two pieces", cells(picture, 0), [["a.b'", "START"], *pieces])
    checks.that("signs are escaped", "rd$ &lt; cap^2<br/>" in picture, picture)
    checks.same("no piece", cells(picture, 1), [["stop^1"], ["unreached"]])
    label = 'AT(0, \\"demo \\\\\\"x\\\\\\" <1>.c:3\\")\\lrd$ := rd$ + 1\\lassume(rd$ < cap^2 && _q == 0)\\l'
    checks.that("a mark is kept", label in picture, picture)


def pictures(checks: Checks) -> list[tuple[str, str, str]]:
    """Of each example its name, its text and its picture with the run."""
    written, found = outputs(), []
    for name, _, path, _ in examples():
        more = [] if "--check" in name else ["-"]
        status, picture, messages = call("picture", [str(path), *more, "--run"], written[name])
        checks.same(f"{name}: status of its picture", (status, messages), (0, ""))
        found.append((name, path.read_text(), picture))
    found.append(("the realistic file", REALISTIC, picture_of(["--termination"], REALISTIC)))
    found.append(("names", NAMES, call("picture", [], NAMES)[1]))
    return found


def by_graphviz(checks: Checks) -> None:
    """Graphviz reads each picture, and finds the locations and edges that the other interpreter of this folder finds in the text."""
    drawn = pictures(checks)
    if shutil.which("dot") is None:
        print("test_pictures: Graphviz is not installed, so no picture is given to dot")
        return
    graphs = "\n".join(picture for _, _, picture in drawn)
    ended = subprocess.run(["dot", "-Tjson"], input=graphs, capture_output=True, text=True, timeout=40, check=False)
    checks.same("messages of dot", (ended.returncode, ended.stderr), (0, ""))
    left = ended.stdout
    for name, text, picture in drawn:
        graph, end = json.JSONDecoder().raw_decode(left)
        left = left[end:].lstrip()
        listed = edges(text)
        labels = {start(text)} | {label for one, _, other in listed for label in (one, other)}
        heads = {cells(picture, number)[0][0] for number in range(len(graph["objects"]))}
        checks.same(f"{name}: locations", (heads, len(graph["objects"])), (labels, len(labels)))
        checks.same(f"{name}: edges", len(graph.get("edges", [])), len(listed))
    checks.same("nothing is left", left, "")


def at_fault(checks: Checks) -> None:
    text = (EXAMPLES / "climber.t2").read_text()
    for words, given, status in [
            ([], "", 3),
            ([], "START: 0;", 3),
            ([], "\xff\x00\x01", 3),
            ([], text.replace("node", "nude"), 3),
            (["--node", "7"], text, 3),
            (["--node", "x"], text, 2),
            (["--run", "--count", "x"], text, 2),
            (["--run"], text.replace("x > 0", "x > 5"), 4),
            (["nowhere.t2"], "", 3)]:
        ended, out, messages = call("picture", words, given)
        checks.that(f"status of {words} {given[:9]!r}", (ended, out, messages.count("\n")) == (status, "", 1), (ended, messages))
    ended, out, messages = command(["examples/picture.py", "examples/climber.t2", "--run", "--count", "3"])
    checks.that("called as people call it", ended == 0 and "state 2: x = 2" in out and messages == "", messages)


def run(checks: Checks) -> None:
    for part in (by_hand, kept_names, by_graphviz, at_fault):
        part(checks)
