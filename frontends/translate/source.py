"""Reading a C file: the preprocessor with headers of our own, and pycparser."""
from __future__ import annotations

import os
import re
import shutil
import subprocess

from .refusal import Refused

INCLUDE = os.path.join(os.path.dirname(os.path.dirname(os.path.abspath(__file__))), "include")

DEFINED = ["__attribute__(x)=", "__attribute(x)=", "__extension__=", "__inline=inline", "__inline__=inline", "__const=const", "__restrict=",
           "__restrict__=", "restrict=", "__volatile__=volatile", "__volatile=volatile", "__signed__=signed", "__asm__(x)=", "_Noreturn=",
           "__builtin_va_list=int", "__nonnull(x)=", "__alignof__(x)=8", "__builtin_expect(x,y)=(x)", "__builtin_unreachable()=abort()"]


def preprocessed(path: str, model: str) -> str:
    """The text after `cc -E`, with `# LINE` marks for the lines."""
    compiler = shutil.which("cc") or shutil.which("gcc") or shutil.which("clang")
    if compiler is None:
        raise Refused("no C compiler is on the path, and the preprocessor is needed")
    words = [compiler, "-E", "-nostdinc", "-undef", "-D__STDC__=1", "-x", "c", "-std=c11", "-I", INCLUDE]
    words += [f"-D{one}" for one in DEFINED] + [f"-D__C2T2__={'64' if model == 'lp64' else '32'}", path]
    ended = subprocess.run(words, capture_output=True, text=True, errors="replace")
    if ended.returncode != 0:
        first = next((line for line in ended.stderr.splitlines() if "error" in line), "cc -E failed")
        raise Refused(f"the preprocessor says: {first}")
    return ended.stdout


def parse(path: str, model: str):
    """The syntax tree of the file."""
    if not os.path.isfile(path):
        raise Refused("no such file")
    text = preprocessed(path, model)
    text = re.sub(r"^#pragma.*$", "", text, flags=re.M)
    refuse_forms(text)
    from pycparser import CParser
    try:
        return CParser().parse(text, path)
    except Exception as fault:
        if type(fault).__name__ not in ("ParseError", "LexError"):
            raise
        place = re.match(r"(.*?):(\d+):(?:(\d+):)? ?(.*)", str(fault), re.S)
        if place:
            raise Refused(f"not read as C: {place.group(4)}", int(place.group(2)), place.group(1)) from None
        raise Refused(f"not read as C: {fault}") from None


def refuse_forms(text: str) -> None:
    """Names the extensions that pycparser does not read, rather than a bare syntax fault."""
    line, file = 1, None
    for row in text.split("\n"):
        mark = re.match(r'# (\d+) "(.*?)"', row)
        if mark:
            line, file = int(mark.group(1)) - 1, mark.group(2)
            continue
        line += 1
        bare = re.sub(r'"(\\.|[^"\\])*"|\'(\\.|[^\'\\])*\'', '""', row)
        for word, what in (("asm", "inline assembly"), ("__asm", "inline assembly"), ("typeof", "typeof"), ("__typeof__", "typeof")):
            if re.search(rf"\b{word}\b", bare):
                raise Refused(what, line, file)
        if re.search(r"\bcase\b[^:?]*\.\.\.", bare):
            raise Refused("a case with a range of values", line, file)
