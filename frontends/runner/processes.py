"""Runs other programs, each with what is left of the time, and ends them with all that they have started."""
from __future__ import annotations

import ctypes
import os
import signal
import subprocess
import sys
import time
from dataclasses import dataclass

PARENT_DEATH_SIGNAL = 1
LIBRARY = ctypes.CDLL(None) if sys.platform == "linux" else None


class OutOfTime(Exception):
    """The time limit came."""


@dataclass(frozen=True)
class Ended:
    status: int
    output: str
    errors: str

    def last_error(self) -> str:
        lines = [line.strip() for line in self.errors.splitlines() if line.strip()]
        return lines[-1] if lines else ""


class Clock:
    """How much is left of a time limit, if there is one."""

    def __init__(self, seconds: float | None):
        self.seconds = seconds
        self.end = None if seconds is None else time.monotonic() + seconds

    def left(self) -> float | None:
        return None if self.end is None else max(0.0, self.end - time.monotonic())


def end_on_signals() -> None:
    """Signals that end this program end it in order, with what it has started."""
    def stop(number: int, _: object) -> None:
        sys.exit(128 + number)
    for one in (signal.SIGTERM, signal.SIGHUP):
        signal.signal(one, stop)


def end_with_parent() -> None:
    """Called in a program that is about to start: it is killed when this one ends, even by SIGKILL."""
    if LIBRARY is not None:
        LIBRARY.prctl(PARENT_DEATH_SIGNAL, signal.SIGKILL)


def run(command: list[str], clock: Clock, text: str = "") -> Ended:
    """What the command writes and its status: below 0 where a signal ended it."""
    process = subprocess.Popen(command, stdin=subprocess.PIPE, stdout=subprocess.PIPE, stderr=subprocess.PIPE, start_new_session=True,
                               preexec_fn=end_with_parent)
    try:
        output, errors = process.communicate(text.encode("utf-8", "surrogateescape"), timeout=clock.left())
    except subprocess.TimeoutExpired:
        raise OutOfTime from None
    finally:
        end(process)
    return Ended(process.returncode, output.decode("utf-8", "replace"), errors.decode("utf-8", "replace"))


def end(process: subprocess.Popen[bytes]) -> None:
    """Ends the process and those that it has started, which are in a session of their own."""
    try:
        os.killpg(process.pid, signal.SIGKILL)
    except (ProcessLookupError, PermissionError):
        pass
    process.wait()
