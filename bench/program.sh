#!/usr/bin/env bash
# How long the built program takes to read whole programs, and how much memory: 512 KiB with 2,048 edges, 1 MiB with 4,096 edges, and
# 2 MiB with 4,096 edges, each over 1,024 locations and 512 variables. The best of 10 runs, in which its start and the reading of its
# input are counted, and the least time of a processor that one of them took, with its ratio to the line before. First with commands as a
# translator writes them, and then with commands as short as can be, for as many tokens as a text of that size may have.
# Build it first: (cd crates/timing && rt run)
set -eu
cd "$(dirname "$0")/.."
PYTHONPATH=bench exec python3 -B - crates/timing/out/timing <<'END'
import sys
from measure import best_over


def spaced(name):
    return f"{name} := 2 * {name} + 17; "


def dense(name):
    return f"{name}:=a+a;"


def text(size, edges, assigned):
    each = size // edges
    made = ["START: 0;\n"]
    for edge in range(edges):
        head = f"FROM: {edge % 1024}; "
        tail = f"TO: {(edge + 1) % 1024};\n"
        room = each - len(head) - len(tail)
        one = assigned(f"v{edge % 511}")
        command = one * (room // len(one))
        made.append(head + command + " " * (room - len(command)) + tail)
    return "".join(made)


for assigned in (spaced, dense):
    last = None
    for size, edges in [(524288, 2048), (1048576, 4096), (2097152, 4096)]:
        made = text(size, edges, assigned)
        one = best_over([sys.argv[1], "program"], made)
        ratio = "" if last is None else f"  {one.processor / last:4.2f} times"
        last = one.processor
        told = f"{one.seconds * 1000:6.1f} ms, {one.processor * 1000:6.1f} ms of a processor"
        print(f"{assigned.__name__:6s} {len(made):8d} bytes  {edges} edges  {one.lines[0]:8s} {told}  {one.memory:3d} MB{ratio}")
END
