"""How long a command takes, by the clock and of a processor, and how much memory: what the scripts beside this file measure with."""
import os, subprocess, tempfile, time
from collections import namedtuple

# Seconds by the clock and of a processor (its own and the system's), the most memory in MB, the lines of its output, and its status.
Run = namedtuple("Run", "seconds processor memory lines status")


def run(command, given):
    """Runs the command once over a file as its standard input."""
    with open(given) as text:
        before = time.monotonic()
        child = subprocess.Popen(command, stdin=text, stdout=subprocess.PIPE, stderr=subprocess.DEVNULL)
        lines = child.stdout.read().decode().split("\n")
        _, status, used = os.wait4(child.pid, 0)
        seconds = time.monotonic() - before
    return Run(seconds, used.ru_utime + used.ru_stime, used.ru_maxrss // 1024, lines, status)


def best(command, given, times=10):
    """The least times and the most memory of so many runs, and what the first one said."""
    runs = [run(command, given) for _ in range(times)]
    return Run(min(one.seconds for one in runs), min(one.processor for one in runs), max(one.memory for one in runs), *runs[0][3:])


def best_over(command, text, times=10):
    """The same over a text."""
    with tempfile.NamedTemporaryFile("w") as file:
        file.write(text)
        file.flush()
        return best(command, file.name, times)


def ranking_query(loops):
    """For z3, for each loop that counts down: numbers f and c with f*a + c at least 0 where a > 0, and less by 1 after a step."""
    lines = []
    for _ in range(loops):
        lines += ["(push)"] + [f"(declare-const {name} Real)" for name in ("f", "c", "m", "p")]
        lines += ["(assert (>= m 0))", "(assert (>= p 0))", "(assert (= 0 (- m)))", "(assert (<= (+ (- f) 1) m))",
                  "(assert (= (- f) (- p)))", "(assert (<= (- c) p))", "(check-sat)", "(pop)"]
    return "\n".join(lines) + "\n"
