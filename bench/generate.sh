#!/usr/bin/env bash
# How long the built program takes to prove that every run of 1,000 loops ends, all of it: the program is made, its ranks are found, and the
# certificate is made and checked. The best of 10 runs. Where z3 is installed, it looks for linear ranks of each loop, by the same
# multipliers, in one query a loop.
# Build it first: (cd crates/t2verdict && rt run)
set -eu
cd "$(dirname "$0")/.."
PYTHONPATH=bench exec python3 -B - crates/t2verdict/out/t2verdict <<'END_OF_PROGRAM'
import os, shutil, sys
from measure import best, best_over, ranking_query

PROGRAM = sys.argv[1]


for loops in (1, 10, 100, 1000):
    one = best([PROGRAM, "--generate", str(loops)], os.devnull)
    line = f"{loops:5d} loops {one.seconds * 1000:8.1f} ms, {one.processor * 1000:8.1f} ms of a processor, {one.memory:5d} MB"
    if shutil.which("z3"):
        other = best_over(["z3", "-in"], ranking_query(loops))
        line += f"  z3 {other.processor * 1000:8.1f} ms of a processor, {other.memory:5d} MB, ratio {one.processor / other.processor:6.3f}"
    print(line, flush=True)
END_OF_PROGRAM
