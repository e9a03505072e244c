"""How the tests count, and how they call the tools and the program."""
import contextlib
import importlib.util
import io
import os
import subprocess
import sys
from pathlib import Path

TOP = Path(__file__).resolve().parents[2]
EXAMPLES = TOP / "examples"
sys.dont_write_bytecode = True
sys.path.insert(0, str(TOP / "python"))


class Checks:
    """Counts what is as it should be, and prints what is not."""

    def __init__(self):
        self.passed = self.failed = 0

    def that(self, name: str, holds: bool, shown="") -> None:
        if holds:
            self.passed += 1
        else:
            self.failed += 1
            print(f"FAILED {name}" + (f"\n{shown}" if shown != "" else ""))

    def same(self, name: str, got, wanted) -> None:
        self.that(name, got == wanted, f"  is     {got!r}\n  not    {wanted!r}")


def loaded(tool: str):
    """The module of a tool of examples/."""
    spec = importlib.util.spec_from_file_location("tool_" + tool, EXAMPLES / f"{tool}.py")
    module = importlib.util.module_from_spec(spec)
    spec.loader.exec_module(module)
    return module


TOOLS: dict = {}
ANSWERS: dict[tuple[str, ...], str] = {}


def call(tool: str, words: list[str], text: str = "") -> tuple[int, str, str]:
    """The status, the output and the messages of a tool, which is called within this process."""
    from t2.command import run
    module = TOOLS.setdefault(tool, loaded(tool))
    out, messages, before = io.StringIO(), io.StringIO(), (sys.stdin, sys.argv)
    sys.stdin, sys.argv = io.TextIOWrapper(io.BytesIO(text.encode("utf-8", "surrogateescape"))), [f"{tool}.py", *words]
    try:
        with contextlib.redirect_stdout(out), contextlib.redirect_stderr(messages):
            run(f"{tool}.py", module.main)
        status = 0
    except SystemExit as ended:
        status = ended.code or 0
    finally:
        sys.stdin, sys.argv = before
    return status, out.getvalue(), messages.getvalue()


def command(words: list[str], text: str = "") -> tuple[int, str, str]:
    """The same of a tool in a process of its own, called as people call it."""
    data = text.encode("utf-8", "surrogateescape")
    ended = subprocess.run([sys.executable, *words], input=data, capture_output=True, timeout=20, cwd=TOP, check=False)
    return ended.returncode, ended.stdout.decode(), ended.stderr.decode()


def verdict(words: list[str], text: str) -> str:
    """What the program writes; the same question is asked once."""
    key = (*words, text)
    if key not in ANSWERS:
        ANSWERS[key] = answer(words, text)
    return ANSWERS[key]


def answer(words: list[str], text: str) -> str:
    program = os.environ.get("T2VERDICT") or str(TOP / "t2verdict")
    limit = 20 if "T2VERDICT" in os.environ else None
    ended = subprocess.run([program, *words], input=text.encode(), capture_output=True, timeout=limit, check=False)
    return ended.stdout.decode()


def traced(words: list[str], program: Path, more: list[str] | None = None) -> tuple[int, str, str]:
    """What trace.py makes of the program's certificate of a question."""
    return call("trace", [str(program), *(more or [])], verdict([*words, "--certificate"], program.read_text()))
