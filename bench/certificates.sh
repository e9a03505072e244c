#!/usr/bin/env bash
# How long the built program takes to read a certificate of up to 16 MiB and to check it, which it does at once, and how much memory: an
# invariant over many variables, most of whose text is rows, and one over few, most of whose text is lines of multipliers; and some whose
# lines are short: many pieces at one location, with and without rows, one piece of many rows, and a tree of many splits; and some made to
# take as much memory as they can: pieces that owe nothing, and a line of very many numbers that is at fault. Beside it a plain scan of the
# same lines, which takes one product and one sum for each number. The best of 5 runs, start and reading of the input counted. First with
# the heading of a certificate alone, which takes what the program and its cases take; then what comes on top is told.
# It needs /usr/bin/time, and what is built first by (cd crates/t2verdict && rt run < stdin -- $(cat args)) and
# (cd crates/timing && rt run).
set -eu
cd "$(dirname "$0")/.."
folder=$(mktemp -d)
trap 'rm -r "$folder"' EXIT
python3 - "$folder" <<'END_OF_TEXTS'
import sys

def line(word, numbers):
    return word + "".join(f" {number}" for number in numbers)


def unit(place, length, *last):
    return [1 if i == place else 0 for i in range(length)] + list(last)


def edges_of(variables, locations, edges):
    """From 0 to 1, then up to four edges from each location, each of which raises a variable, and one that needs v0 < 0."""
    made = [(0, 1, None)]
    for location in range(1, locations):
        for k in range(4):
            if len(made) < edges - 1:
                made.append((location, 1 + (location + k) % (locations - 1), (location * 4 + k) % variables))
    return made


def program_of(variables, edges):
    lines = ["START: 0;", "FROM: 0; " + " ".join(f"v{i} := 0;" for i in range(variables)) + " TO: 1;"]
    lines += [f"FROM: {a}; v{v} := v{v} + 1; TO: {b};" for a, b, v in edges[1:]]
    return lines + ["FROM: 1; assume(v0 < 0); TO: bad;"]


def certificate_of(variables, locations, edges, kept):
    """At each location but the first the variables up to v(kept - 1) are at least 0."""
    lines = ["CERTIFICATE:", "T2CERT 1", "proved", f"node fix {locations} 0", "piece 0 go 0"]
    rows = [line("row", [-number for number in unit(i, variables)] + [0]) for i in range(kept)]
    for location in range(1, locations):
        lines += [f"piece {location} go {kept}", *rows]
    lines += [f"node atom {locations} 0"] + [f"piece {location} go 0" for location in range(locations)]
    lines += ["into 0 0"] * locations + ["node atom 0 0"]
    shown = [line("by", unit(i, kept, 1)) for i in range(kept)]
    for location in range(locations):
        lines.append("into 0 0")
        for a, b, v in edges:
            if a == location:
                lines += ["into 0 0"] + (["by 1"] * kept if a == 0 else shown)
        if location == 1:
            lines.append(line("empty", unit(0, kept, 1)))
    return lines + ["into 0 0", "end"]


def one_loop(variables):
    """From 0 to 1, then v0 falls at 1 without end; one edge needs v0 above a million."""
    lines = ["START: 0;", "FROM: 0; " + " ".join(f"v{i} := 0;" for i in range(variables)) + " TO: 1;"]
    return lines + ["FROM: 1; v0 := v0 - 1; TO: 1;", "FROM: 1; assume(v0 > 1000000); TO: bad;"]


def elsewhere(edges):
    """So many edges that no run comes to."""
    return [f"FROM: {2 + i % 500}; v0 := v0 + 1; TO: {2 + (i + 1) % 500};" for i in range(edges)]


def pieces_of(variables, kept, pieces):
    """So many pieces at one location, in each of which the variables up to v(kept - 1) are at most its number. Where none is kept, the
    first step to `bad` is not shown to be impossible."""
    lines = ["CERTIFICATE:", "T2CERT 1", "proved", f"node fix {pieces + 1} 0", "piece 0 go 0"]
    for bound in range(pieces):
        lines += [f"piece 1 go {kept}"] + [line("row", unit(i, variables, -bound)) for i in range(kept)]
    lines += ["node atom 2 0", "piece 0 go 0", "piece 1 go 0", "into 0 0", "into 0 0", "node atom 0 0"]
    lines += ["into 0 0", "into 0 0"] + ["by 1"] * kept
    shown = [line("by", unit(i, kept, 1)) for i in range(kept)]
    for bound in range(pieces):
        lines += ["into 0 0", f"into {bound} 0", *shown, line("empty", unit(0, kept, 1) if kept else [1])]
    return lines + ["into 0 0", "end"]


def splits(low, high, above):
    """A tree that halves the values from low to high at each split; each leaf shows the row of the target by that of the piece."""
    if high - low <= 1:
        return ["into 0 0", line("by", [1] + [0] * above + [1])]
    middle = (low + high) // 2
    return [f"split 1 {-middle}"] + splits(low, middle, above + 1) + splits(middle, high, above + 1)


def rows_of(rows):
    """One piece with so many rows, each of which says that v0 is at most 0."""
    lines = ["CERTIFICATE:", "T2CERT 1", "proved", "node fix 2 0", "piece 0 go 0", f"piece 1 go {rows}", *["row 1 0"] * rows]
    lines += ["node atom 2 0", "piece 0 go 0", "piece 1 go 0", "into 0 0", "into 0 0", "node atom 0 0"]
    return lines + ["into 0 0", "into 0 0", *["by 1"] * rows, "into 0 0", "into 0 0", "end"]


def tree_of(leaves):
    """Below a million v0 stays there; one obligation is shown by a tree with so many leaves."""
    lines = ["CERTIFICATE:", "T2CERT 1", "proved", "node fix 2 0", "piece 0 go 0", "piece 1 go 1", "row 1 -1000000"]
    lines += ["node atom 2 0", "piece 0 go 0", "piece 1 go 1", "row 1 -1000000", "into 0 0", "into 0 0"]
    lines += ["node atom 0 0", "into 0 0", "into 0 0", "by 1", *splits(0, leaves, 0)]
    return lines + ["into 0 0", "by 1 1", "empty 1 1", "into 0 0", "end"]


def idle_of(pieces, row):
    """So many pieces, each with this row if there is one, at two locations that no edge leaves, so that they owe nothing."""
    lines = ["CERTIFICATE:", "T2CERT 1", "proved", f"node next {pieces + 1} 0", "piece 0 go 0"]
    for i in range(pieces):
        lines += [f"piece {2 if 2 * i < pieces else 1} go {len(row)}", *row]
    lines += ["node atom 2 0", "piece 1 go 0", "piece 2 go 0", "into 0 0", "into 0 0"]
    return lines + ["into 0 0"] * 3 + ["end"]


def fork_of(command):
    """From 0 to 1 and to 2."""
    return ["START: 0;", f"FROM: 0; {command}TO: 1;", f"FROM: 0; {command}TO: 2;"]


def write(name, what, lines):
    with open(f"{sys.argv[1]}/{name}.{what}", "w") as file:
        file.write("\n".join(lines) + "\n")


for name, variables, locations, count, kept in [
    ("1", 512, 1023, 4096, 13),
    ("2", 512, 256, 1024, 13),
    ("3", 36, 1023, 4096, 36),
    ("4", 16, 1023, 4096, 16),
    ("5", 4, 1023, 4096, 4),
]:
    edges = edges_of(variables, locations, count)
    program = program_of(variables, edges)
    write(name, "bare", program + ["CERTIFICATE:"])
    write(name, "checked", program + certificate_of(variables, locations, edges, kept))
for name, variables, kept, pieces, others in [
    ("6", 1, 1, 50000, 0),
    ("7", 1, 1, 200000, 0),
    ("8", 4, 4, 50000, 0),
    ("9", 1, 1, 200000, 4093),
    ("10", 1, 0, 350000, 0),
]:
    program = one_loop(variables) + elsewhere(others)
    write(name, "bare", program + ["CERTIFICATE:"])
    write(name, "checked", program + pieces_of(variables, kept, pieces))
program = one_loop(1)
write("11", "bare", program + ["CERTIFICATE:"])
write("11", "checked", program + tree_of(2**17))
program = ["START: 0;", "FROM: 0; v0 := 0; TO: 1;", "FROM: bad; TO: bad;"]
write("12", "bare", program + ["CERTIFICATE:"])
write("12", "checked", program + rows_of(1000000))
for name, command, pieces, row in [
    ("13", "", 1150000, []),
    ("14", "", 780000, ["row 0"]),
    ("15", "v0 := 0; ", 700000, ["row 1 0"]),
]:
    program = fork_of(command)
    write(name, "bare", program + ["CERTIFICATE:"])
    write(name, "checked", program + idle_of(pieces, row))
program = fork_of("")
write("16", "bare", program + ["CERTIFICATE:"])
write("16", "checked", program + ["CERTIFICATE:", "T2CERT 1", "proved", "node next 1 0", "piece 0 go 1", line("row", [1] * 8000000)])
END_OF_TEXTS
python3 - crates/t2verdict/out/t2verdict crates/timing/out/timing "$folder" <<'END_OF_RUNS'
import os, subprocess, sys, time

CHECKER, SCANNER, FOLDER = sys.argv[1:]


def run(words, text):
    """The time, the answer and the most memory held, in MiB."""
    with open(text) as given:
        before = time.monotonic()
        ended = subprocess.run(["/usr/bin/time", "-f", "%M", *words], stdin=given, capture_output=True, text=True)
        spent = time.monotonic() - before
    return spent, ended.stdout.splitlines()[0], int(ended.stderr.split()[-1]) / 1024


def best(words, text):
    runs = [run(words, text) for _ in range(5)]
    return min(run[0] for run in runs), runs[0][1], max(run[2] for run in runs)


for name, told in [
    ("1", "512 variables, 4,096 edges"),
    ("2", "512 variables, 1,024 edges"),
    ("3", "36 variables, 4,096 edges"),
    ("4", "16 variables, 4,096 edges"),
    ("5", "4 variables, 4,096 edges"),
    ("6", "1 variable, 50,000 pieces at one location"),
    ("7", "1 variable, 200,000 pieces at one location"),
    ("8", "4 variables, 50,000 pieces at one location"),
    ("9", "1 variable, 4,096 edges, 200,000 pieces at one location"),
    ("10", "1 variable, 350,000 pieces without rows"),
    ("11", "1 variable, a tree of 131,071 splits"),
    ("12", "1 variable, one piece of 1,000,000 rows"),
    ("13", "no variable, 1,150,000 pieces that owe nothing, without rows"),
    ("14", "no variable, 780,000 pieces that owe nothing, one row each"),
    ("15", "1 variable, 700,000 pieces that owe nothing, one row each"),
    ("16", "no variable, one row of 8,000,000 numbers, which is at fault"),
]:
    text = f"{FOLDER}/{name}"
    asked = ["--safety", "bad"] if int(name) <= 12 else ["--ctl", "[AX](true)"]
    size = (os.path.getsize(f"{text}.checked") - os.path.getsize(f"{text}.bare")) / 2**20
    scan, counted, _ = best([SCANNER, "numbers"], f"{text}.checked")
    print(f"{told}: {size:.1f} MiB, {counted.split(',')[0]}, scan {scan * 1000:.0f} ms", flush=True)
    spent, held = 0, 0
    for what in ("bare", "checked"):
        seconds, answer, memory = best([CHECKER, "--check", *asked], f"{text}.{what}")
        more = seconds - spent
        shown = f"{seconds * 1000:.0f} ms, {memory:.0f} MiB"
        if what == "checked":
            shown += f"; more: {more * 1000:.0f} ms ({size / more:.0f} MiB/s, {more / scan:.2f} scans), {(memory - held) / size:.1f} times the text"
        print(f"  {what}: {answer}: {shown}", flush=True)
        spent, held = seconds, memory
END_OF_RUNS
