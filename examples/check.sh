#!/usr/bin/env bash
# Runs each command of the table in examples/README.md, and compares what is written and the status with it.
# Where an answer has several lines, the table has them one after the other.
set -u
cd "$(dirname "$0")/.." || exit 2
exec python3 - <<'END_OF_PROGRAM'
import re, subprocess, sys

wrong = count = 0
for line in open("examples/README.md"):
    cells = [cell.strip().replace(r"\|", "|") for cell in re.split(r"(?<!\\)\|", line)[1:-1]]
    if len(cells) != 5 or not cells[4].isdigit():
        continue
    command, answer, status = cells[2].strip("`"), re.findall(r"`([^`]*)`", cells[3]), int(cells[4])
    ended = subprocess.run(command, shell=True, capture_output=True, text=True)
    count += 1
    if ended.stdout.splitlines() != answer or ended.returncode != status:
        wrong += 1
        print(f"{command}\n  is {ended.stdout.splitlines()}, status {ended.returncode}\n  not {answer}, status {status}")
print(f"{count} commands, {wrong} of them not as the table says")
sys.exit(wrong != 0)
END_OF_PROGRAM
