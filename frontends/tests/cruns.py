"""Runs a C program with given draws: what it drew, how it ended, and what its globals held then."""
from __future__ import annotations

import os
import shutil
import subprocess

STUBS = {"int": "int", "uint": "unsigned", "uchar": "unsigned char", "char": "char", "short": "short", "bool": "_Bool", "ushort": "unsigned short", "long": "long", "ulong": "unsigned long"}

HARNESS = r'''
#include <stdio.h>
#include <stdlib.h>
static FILE *draws;
static void ended(const char *how);
static long long drawn(const char *type) {
  long long value;
  if (!draws) draws = fopen(getenv("DRAWS"), "r");
  if (fscanf(draws, "%lld", &value) != 1) ended("cut");
  return value;
}
'''


def compiler() -> list[str]:
    """Clang where it is there: gcc folds some sums, as in `if (100 - x)`, before it looks for overflow."""
    if shutil.which("clang"):
        return ["clang", "-fsanitize=undefined", "-fsanitize-trap=undefined"]
    return ["cc", "-fsanitize=undefined", "-fsanitize-undefined-trap-on-error"]


class Compiled:
    """A C file with functions that answer draws from a file, log them, and tell the values of globals at the end."""

    def __init__(self, source: str, directory: str, observed: list[str], include: str | None = None):
        self.directory = directory
        self.binary = os.path.join(directory, "program")
        harness = os.path.join(directory, "harness.c")
        with open(harness, "w") as file:
            file.write(harness_text(source, observed))
        words = [*compiler(), "-w", "-O0", "-o", self.binary, harness]
        ended = subprocess.run(words, capture_output=True, text=True)
        self.fault = ended.stderr if ended.returncode else None

    def run(self, draws: list[int]) -> tuple[str, list[tuple[str, int]], dict[str, int]]:
        """How it ended (`exit`, `error`, `abort`, `cut` where the draws did not reach, `trap`), the draws with their types, and the values."""
        path = os.path.join(self.directory, "draws")
        with open(path, "w") as file:
            file.write("\n".join(map(str, draws)))
        try:
            ended = subprocess.run([self.binary], capture_output=True, text=True, timeout=5, env={**os.environ, "DRAWS": path})
        except subprocess.TimeoutExpired:
            return "endless", [], {}
        how, taken, values = "trap", [], {}
        for line in ended.stdout.splitlines():
            words = line.split()
            if words[:1] == ["draw"]:
                taken.append((words[1], int(words[2])))
            elif words[:1] == ["value"]:
                values[words[1]] = int(words[2])
            elif words[:1] == ["ended"]:
                how = words[1]
        return how, taken, values


def harness_text(source: str, observed: list[str]) -> str:
    """The program itself is included after functions that it calls were declared, and before what looks at its globals."""
    stubs = "".join(f'{kind} __VERIFIER_nondet_{name}(void) {{ {kind} value = ({kind})drawn("{name}"); printf("draw {name} %lld\\n", (long long)value); return value; }}\n'
                    for name, kind in STUBS.items())
    stubs += 'void __VERIFIER_assert(int condition) { if (!condition) ended("error"); }\nvoid reach_error(void) { ended("error"); }\n'
    stubs += 'void __VERIFIER_assume(int condition) { if (!condition) ended("assumed"); }\n'
    stubs += '#define assert(condition) __VERIFIER_assert(!!(condition))\n#define abort() ended("abort")\n#define exit(status) ended("exit")\n'
    tell = "".join(f'  printf("value {name} %lld\\n", (long long){name});\n' for name in observed)
    text = source.replace("#include <assert.h>", "").replace("extern void abort(void);", "").replace("extern void exit(int);", "").replace("extern void reach_error(void);", "")
    return (HARNESS + stubs + "#define main program_main\n" + text + "\n#undef main\n#undef exit\n" +
            f'static void ended(const char *how) {{\n  printf("ended %s\\n", how);\n{tell}  fflush(stdout);\n  exit(0);\n}}\n' +
            'int main(void) { setvbuf(stdout, 0, _IONBF, 0); program_main(); ended("exit"); return 0; }\n')
