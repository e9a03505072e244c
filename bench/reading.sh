#!/usr/bin/env bash
# How long the built program takes to read a sum or a condition of 1 MiB and of 2 MiB, for each kind of text.
# Build it first: (cd crates/timing && rt run)
set -eu
cd "$(dirname "$0")/.."
program=crates/timing/out/timing
work=$(mktemp -d)
trap 'rm -r "$work"' EXIT

# A text of so many bytes at least: the front, then the part again and again, then the end.
text() {
    python3 -c '
import sys
front, part, end, size = sys.argv[1], sys.argv[2], sys.argv[3], int(sys.argv[4])
sys.stdout.write(front + part * (size // len(part)) + end)' "$@"
}

run() {
    local name=$1 task=$2 front=$3 part=$4 end=$5
    for size in 1048576 2097152; do
        text "$front" "$part" "$end" "$size" > "$work/text"
        start=$(date +%s%N)
        answer=$("$program" "$task" < "$work/text")
        stop=$(date +%s%N)
        printf '%-12s %8d bytes  %-8s %5d ms\n' "$name" "$size" "$answer" $(((stop - start) / 1000000))
    done
}

run brackets sum '' '(' ''
run levels sum '' '((((((((x)))))))) + ' 'x'
run comments sum 'x' ' /* a comment */' ' + 1'
run blanks sum 'x' ' ' '+ 1'
run names sum 'first' ' + first' ''
run numbers sum '1' ' + 123456789' ''
run digits sum '' '1' ''
run tests condition 'x > 0' ' && x <= 12' ''
run denials condition '' '!' 'true'
