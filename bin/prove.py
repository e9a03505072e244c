#!/usr/bin/env python3
"""Proves and builds the program of these sources with the kit, and puts it into a folder with the file sources.sha256.

    bin/prove.py [--anew] [--into FOLDER]

What `rt ci` has proved of the same files on this machine is not proved again, unless --anew is given. Without --into the folder is bin/out.
"""
import hashlib
import os
import re
import signal
import statistics
import subprocess
import sys
import tempfile
import threading
import time
from pathlib import Path

import sources

TOP = Path(__file__).resolve().parent.parent
# How often the time is told where nothing else is, in seconds.
TICK = 300


def say(text: str) -> None:
    print(f"t2verdict: {text}", file=sys.stderr, flush=True)


def minutes(seconds: float) -> str:
    return f"{max(1, round(seconds / 60))} minutes" if seconds >= 90 else f"{round(seconds)} seconds"


class Progress:
    """What is proved, how long it took, and how long the rest may take by what was measured here and in bench/gate.md."""

    def __init__(self, uses: dict[str, list[str]], costs: sources.Costs, jobs: int):
        self.uses, self.costs, self.jobs, self.done, self.kept, self.begun = uses, costs, jobs, set(), set(), time.monotonic()
        self.planned, self.paces = self.plan(), []

    def plan(self) -> dict[str, float]:
        return sources.schedule(self.uses, self.costs.seconds, self.kept, self.jobs)

    def announce(self) -> None:
        total, free = sources.memory_here()
        work = sum(self.costs.seconds.values())
        say(f"proves and builds the program: {len(self.uses)} crates, {minutes(work)} of a processor where bench/gate.md was measured,")
        say(f"about {minutes(max(self.planned.values()))} with {self.jobs} proofs at a time; the largest takes {self.costs.memory} GB of memory, and {free:.0f} of {total:.0f} GB are free")
        say("what was proved of the same files on this machine before is taken from there; what this run proves is kept, also where it is stopped")

    def ended(self, name: str, is_kept: bool) -> None:
        self.done.add(name)
        if is_kept:
            self.kept.add(name)
            self.planned = self.plan()
        elif self.planned[name] > 0:
            self.paces.append((time.monotonic() - self.begun) / self.planned[name])
        if not is_kept or len(self.done) == len(self.uses):
            say(f"{name} is proved, {len(self.done)} of {len(self.uses)} crates; {self.left()}")

    def left(self) -> str:
        """How long it has taken, and how long the rest may take at the pace of the last crates."""
        passed, pace = time.monotonic() - self.begun, statistics.median(self.paces[-9:] or [1.0])
        more = max(self.planned.values()) * pace - passed if len(self.done) < len(self.uses) else 0
        return f"{minutes(passed)} so far" + (f", about {minutes(more)} left" if more > 0 else "")

    def tick(self) -> None:
        """Tells of the time again and again while long proofs run."""
        while True:
            time.sleep(TICK)
            say(f"{len(self.done)} of {len(self.uses)} crates are proved; {self.left()}")


def follow(ran: subprocess.Popen, progress: Progress) -> list[str]:
    """Tells of the progress that rt prints, and answers all of its lines."""
    lines = []
    for line in ran.stdout:
        lines.append(line)
        told = re.match(r"rt: (\w+) (proved$|is kept)", line)
        if told and told[1] in progress.uses:
            progress.ended(told[1], told[2] == "is kept")
        elif re.match(r"rt: \w+ NOT PROVED|rt: waiting|rt: \w+: another run", line):
            say(line.strip().removeprefix("rt: "))
    return lines


def prove(copy: sources.Copy, is_anew: bool) -> bool:
    """Runs rt ci over the copy, and answers whether all was well."""
    jobs = sources.jobs_here()
    progress = Progress(copy.names, sources.Costs(TOP, [*copy.names]), jobs)
    progress.announce()
    threading.Thread(target=progress.tick, daemon=True).start()
    environment = {"RT_JOBS": str(jobs), **os.environ}
    words = ["rt", "ci"] + ["--anew"] * is_anew
    how = {"cwd": copy.to, "env": environment, "stdin": subprocess.DEVNULL, "stdout": subprocess.PIPE, "stderr": subprocess.STDOUT}
    with subprocess.Popen(words, text=True, errors="replace", **how) as ran:
        signal.signal(signal.SIGTERM, lambda *_: (ran.terminate(), sys.exit(143)))
        lines = follow(ran, progress)
    if ran.returncode:
        sys.stderr.write("".join(lines))
        say("the program was not proved: what rt ci said is above")
    return ran.returncode == 0


def kit() -> str:
    return subprocess.run(["rt", "version"], capture_output=True, text=True, check=True).stdout.split("\n")[0].strip()


def commit() -> str:
    """The commit of these sources, with a word where files of theirs differ from it."""
    git = ["git", "-C", str(TOP)]
    found = subprocess.run([*git, "rev-parse", "HEAD"], capture_output=True, text=True)
    changed = subprocess.run([*git, "status", "--porcelain", "--", "crates", "crates.txt", "HANDLES"], capture_output=True, text=True)
    return found.stdout.strip() + (" with changes" if changed.stdout.strip() else "") if not found.returncode else "unknown"


def put(copy: sources.Copy, into: Path) -> None:
    """Puts the program and the file that tells what it was made of into the folder, the program last."""
    program = (copy.to / "crates" / sources.PROGRAM / "out" / sources.PROGRAM).read_bytes()
    into.mkdir(parents=True, exist_ok=True)
    lines = [f"kit {kit()}", f"commit {commit()}", f"program {hashlib.sha256(program).hexdigest()}", f"sources {copy.sources_sum()}"]
    lines += [f"index {copy.index_sum(program if into == TOP / 'bin' else None)}", *(f"crate {it}" for it in copy.names)]
    (into / "sources.sha256").write_text("\n".join([*lines, ""]), encoding="utf-8")
    new = into / f"{sources.FILE}.new"
    new.write_bytes(program)
    new.chmod(0o755)
    new.rename(into / sources.FILE)


def main(given: list[str]) -> int:
    is_anew, rest = "--anew" in given, [it for it in given if it != "--anew"]
    if rest and (rest[0] != "--into" or len(rest) != 2):
        say("bin/prove.py takes --anew and --into FOLDER")
        return 2
    into = Path(rest[1]).absolute() if rest else TOP / "bin" / "out"
    with tempfile.TemporaryDirectory(prefix="t2verdict-prove-") as room:
        copy = sources.Copy(TOP, Path(room) / "sources")
        if not prove(copy, is_anew):
            return 1
        put(copy, into)
    say(f"the program stands in {into / sources.FILE}")
    return 0


if __name__ == "__main__":
    try:
        sys.exit(main(sys.argv[1:]))
    except KeyboardInterrupt:
        say("stopped; what is proved is kept")
        sys.exit(130)
    except (OSError, subprocess.CalledProcessError) as error:
        say(f"the program was not built: {error}")
        sys.exit(1)
