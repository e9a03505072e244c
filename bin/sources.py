"""The crates that the program is built of, copies of their files with the sums of bin/sources.sh, and what proving them costs."""
import hashlib
import os
import re
from pathlib import Path

PROGRAM = "t2verdict"
FILE = "t2verdict-x86_64-linux"
PARTS = ("src", "specs", "proofs")
BESIDE = ("args", "stdin", "stdout", "status")
MEAN = 120


def below(top: Path) -> dict[str, list[str]]:
    """The crates that the program stands on and itself, lowest first, each with the crates of the repository that it names."""
    lines = [it.partition("#")[0] for it in (top / "crates.txt").read_text(encoding="utf-8").splitlines()]
    uses = {name.split()[0]: rest.split() for name, colon, rest in (it.partition(":") for it in lines) if colon}
    found: dict[str, list[str]] = {}

    def visit(name: str) -> None:
        if name not in found:
            for it in uses[name]:
                if it in uses:
                    visit(it)
            found[name] = [it for it in uses[name] if it in uses]

    visit(PROGRAM)
    return found


class Copy:
    """A copy of the sources that `rt ci` is run on, without tests and edits, and the sums of what was copied."""

    def __init__(self, top: Path, to: Path):
        self.top, self.to, self.names, self.listing, self.index = top, to, below(top), [], []
        for name in self.names:
            for part in PARTS:
                for file in sorted((top / "crates" / name / part).rglob("*")):
                    if file.is_file():
                        self.take(file)
        self.take(top / "HANDLES")
        self.take(top / "crates.txt")
        for name in BESIDE:
            file = top / "crates" / PROGRAM / name
            if file.is_file():
                (to / "crates" / PROGRAM / name).write_bytes(file.read_bytes())
        self.leave_out_others()
        (to / ".git").mkdir()

    def take(self, file: Path) -> None:
        """Copies a file, and notes its sum and the object that git has of it."""
        inside, data = file.relative_to(self.top), file.read_bytes()
        (self.to / inside).parent.mkdir(parents=True, exist_ok=True)
        (self.to / inside).write_bytes(data)
        self.listing.append((os.fsencode(inside), hashlib.sha256(data).hexdigest()))
        self.index.append(indexed(str(inside), data, os.access(file, os.X_OK)))

    def leave_out_others(self) -> None:
        """Leaves the lines of other crates out of the copied crates.txt: their folders are not there."""
        file = self.to / "crates.txt"
        lines = file.read_text(encoding="utf-8").splitlines(keepends=True)
        file.write_text("".join(it for it in lines if it.split(":")[0].split()[:1] in [[name] for name in self.names]), encoding="utf-8")

    def sources_sum(self) -> str:
        lines = b"".join(it.encode() + b"  " + name + b"\n" for name, it in sorted(self.listing))
        return hashlib.sha256(lines).hexdigest()

    def index_sum(self, program: bytes | None) -> str:
        """The sum of what git lists, with the program where it is the one in bin/."""
        own = [] if program is None else [indexed(f"bin/{FILE}", program, True)]
        return hashlib.sha256("".join(line for _, line in sorted([*self.index, *own])).encode()).hexdigest()


def indexed(name: str, data: bytes, is_executable: bool) -> tuple[bytes, str]:
    """A line of `git ls-files -s`, after the name that it is sorted by."""
    blob = hashlib.sha1(b"blob %d\0" % len(data) + data).hexdigest()
    return name.encode(), f"{'100755' if is_executable else '100644'} {blob} 0\t{name}\n"


class Costs:
    """What the proof of each crate took where bench/gate.md was measured, in seconds of a processor, and the most memory of one, in GB."""

    def __init__(self, top: Path, names: list[str]):
        found, self.memory = {}, 0.0
        try:
            text = (top / "bench" / "gate.md").read_text(encoding="utf-8")
        except OSError:
            text = ""
        for name, seconds, rest in re.findall(r"(?m)^\| `(\w+)` \| ([\d,]+) \|(.*)\|$", text):
            if name in names and name not in found:
                found[name] = int(seconds.replace(",", ""))
                memory = re.fullmatch(r".*\| ([\d.]+) ", rest)
                self.memory = max(self.memory, float(memory[1]) if memory else 0.0)
        self.seconds = {it: found.get(it, MEAN) for it in names}


def schedule(uses: dict[str, list[str]], seconds: dict[str, int], done: set[str], jobs: int) -> dict[str, float]:
    """When the proof of each crate ends, in seconds, with `jobs` proofs at a time, the longest tail first, where some are done at the beginning."""
    tail = dict(seconds)
    for name in reversed(uses):
        for it in uses[name]:
            tail[it] = max(tail[it], seconds[it] + tail[name])
    ends: dict[str, float] = {it: 0.0 for it in done}
    left, running, now = [it for it in uses if it not in done], {}, 0.0
    while left or running:
        ready = sorted((it for it in left if all(below in ends for below in uses[it])), key=lambda it: -tail[it])
        for it in ready[: jobs - len(running)]:
            running[it] = now + seconds[it]
            left.remove(it)
        first = min(running, key=lambda it: running[it])
        now = ends[first] = running.pop(first)
    return ends


def jobs_here() -> int:
    """As many proofs at a time as there are processors, and at most one for each 6 GB of memory."""
    total = re.search(r"MemTotal:\s+(\d+)", Path("/proc/meminfo").read_text())
    room = int(total[1]) // 6_000_000 if total else 1
    return max(1, min(len(os.sched_getaffinity(0)), room))


def memory_here() -> tuple[float, float]:
    """The memory of this machine and what is free of it, in GB."""
    text = Path("/proc/meminfo").read_text()
    found = [re.search(rf"{it}:\s+(\d+)", text) for it in ("MemTotal", "MemAvailable")]
    total, free = (int(it[1]) / 1e6 if it else 0.0 for it in found)
    return total, free
