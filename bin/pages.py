#!/usr/bin/env python3
"""Makes the help text, the manual page and the completions of bin/words.ini and bin/page.ini.

    bin/pages.py            writes them
    bin/pages.py --check    says which of them are not what it would write, with status 1
"""
import configparser
import sys
from pathlib import Path

TOP = Path(__file__).resolve().parent.parent
GROUPS = {
    "question": "The question, exactly one",
    "answer": "What is read and written",
    "limit": "How far the search goes",
    "launcher": "Of the launcher",
}


def read(name: str) -> configparser.ConfigParser:
    """The sections of a file of bin/, as they are written."""
    found = configparser.ConfigParser(interpolation=None, delimiters=("=",), comment_prefixes=("#",))
    found.read(TOP / "bin" / name, encoding="utf-8")
    return found


def heads(words: configparser.ConfigParser, name: str) -> str:
    """A word as it is given, with what stands after it."""
    said = words[name]
    short = f"{said['short']}, " if "short" in said else ""
    return f"{short}{name} {said['value']}" if "value" in said else f"{short}{name}"


def limits(said: configparser.SectionProxy) -> str:
    """From where to where the number of a word may go, and what it is where it is left out."""
    if "from" not in said:
        return ""
    left_out = f"; left out: {int(said['default']):,}" if "default" in said else ""
    return f" (from {int(said['from']):,} to {int(said['to']):,}{left_out})"


def help_text(words, page) -> str:
    lines = [f"usage: {it}" if at == 0 else f"       {it}" for at, it in enumerate(page["usage"]["lines"].split("\n"))]
    lines += ["", page["usage"]["summary"]]
    for group, title in GROUPS.items():
        lines += ["", f"{title}:"]
        lines += [f"  {heads(words, it):<24}{words[it]['text']}{limits(words[it])}" for it in words.sections() if words[it]["group"] == group]
    lines += ["", "The first line on standard output, and the status:"]
    lines += [f"  {row.split(' | ')[0]:<24}{row.split(' | ')[1]}" for row in page["status"]["rows"].split("\n")]
    lines += ["", "Examples:"] + [f"  {it}" for it in page["examples"]["lines"].split("\n")]
    return "\n".join([*lines, "", page["usage"]["more"], ""])


def troff(text: str) -> str:
    """Text for a manual page: what troff would take for its own is escaped."""
    text = text.replace("\\", "\\e").replace("-", "\\-").replace("'", "\\(aq")
    return f"\\&{text}" if text.startswith((".", "'")) else text


def man_page(words, page) -> str:
    usage = page["usage"]
    lines = ['.\\" Made by bin/pages.py of bin/words.ini and bin/page.ini.', '.TH T2VERDICT 1 "" "t2verdict" "User Commands"']
    lines += [".SH NAME", "t2verdict \\- " + troff(page["name"]["text"]), ".SH SYNOPSIS", ".nf"]
    lines += [troff(it) for it in usage["lines"].split("\n")] + [".fi", ".SH DESCRIPTION"]
    for paragraph in page["description"]["text"].split("\n"):
        lines += [".PP", troff(paragraph)]
    lines += [".SH OPTIONS"]
    for group, title in GROUPS.items():
        lines += [f".SS {troff(title)}"]
        for it in words.sections():
            if words[it]["group"] == group:
                lines += [".TP", f"\\fB{troff(heads(words, it))}\\fR", troff(f"{words[it]['text']}{limits(words[it])}.")]
    lines += [".SH EXIT STATUS", "With the first line on standard output:"]
    for row in page["status"]["rows"].split("\n"):
        line, meaning = row.split(" | ")
        lines += [".TP", f"\\fB{troff(line)}\\fR", troff(meaning)]
    lines += [".SH ENVIRONMENT", ".TP", "\\fBT2VERDICT\\fR", troff(page["environment"]["text"]), ".SH EXAMPLES", ".nf"]
    lines += [troff(it) for it in page["examples"]["lines"].split("\n")]
    return "\n".join([*lines, ".fi", ".SH SEE ALSO", troff(page["see"]["text"]), ""])


def bash_completion(words) -> str:
    with_value = [it for it in words.sections() if "value" in words[it]]
    return f"""# Completions of t2verdict for bash, made by bin/pages.py.
_t2verdict() {{
    local word=${{COMP_WORDS[COMP_CWORD]}} before=${{COMP_WORDS[COMP_CWORD - 1]}}
    COMPREPLY=()
    case $before in
        {" | ".join(with_value)}) return ;;
    esac
    case $word in
        -*) mapfile -t COMPREPLY < <(compgen -W '{" ".join(words.sections())}' -- "$word") ;;
        *) mapfile -t COMPREPLY < <(compgen -f -- "$word") ;;
    esac
}}
complete -o filenames -F _t2verdict t2verdict
"""


def zsh_completion(words) -> str:
    lines = ["#compdef t2verdict", "# Completions of t2verdict for zsh, made by bin/pages.py.", "_arguments \\"]
    for it in words.sections():
        text = words[it]["text"].replace("'", "").replace("[", "\\[").replace("]", "\\]").replace(":", "\\:")
        value = f":{words[it]['value']}: " if "value" in words[it] else ""
        lines += [f"    '{it}[{text}]{value}' \\"]
    return "\n".join([*lines, "    '*:program:_files'", ""])


def fish_completion(words) -> str:
    lines = ["# Completions of t2verdict for fish, made by bin/pages.py."]
    for it in words.sections():
        short = f" -s {words[it]['short'][1:]}" if "short" in words[it] else ""
        value = " -x" if "value" in words[it] else ""
        text = words[it]["text"].replace("'", "")
        lines += [f"complete -c t2verdict -l {it[2:]}{short}{value} -d '{text}'"]
    return "\n".join([*lines, ""])


def pages() -> dict[str, str]:
    words, page = read("words.ini"), read("page.ini")
    return {
        "bin/help.txt": help_text(words, page),
        "docs/t2verdict.1": man_page(words, page),
        "completions/t2verdict.bash": bash_completion(words),
        "completions/_t2verdict": zsh_completion(words),
        "completions/t2verdict.fish": fish_completion(words),
    }


def main(given: list[str]) -> int:
    if given not in ([], ["--check"]):
        print("bin/pages.py takes no word, or --check", file=sys.stderr)
        return 2
    stale = []
    for name, text in pages().items():
        file = TOP / name
        if given and (not file.is_file() or file.read_text(encoding="utf-8") != text):
            stale.append(name)
        if not given:
            file.parent.mkdir(exist_ok=True)
            file.write_text(text, encoding="utf-8")
    for name in stale:
        print(f"{name} is not what bin/pages.py makes", file=sys.stderr)
    return 1 if stale else 0


if __name__ == "__main__":
    sys.exit(main(sys.argv[1:]))
