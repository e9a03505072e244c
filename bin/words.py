"""What is said of words that the program refuses: the first one at fault, and a similar word."""
import configparser
import os
import re

from faults import readable, similar

WORDS = configparser.ConfigParser(interpolation=None, delimiters=("=",), comment_prefixes=("#",))
HERE = os.path.dirname(os.path.realpath(__file__))
QUESTIONS = ("--termination", "--safety", "--ctl", "--finitely", "--generate")


def known() -> configparser.ConfigParser:
    if not WORDS.sections():
        WORDS.read(os.path.join(HERE, "words.ini"), encoding="utf-8")
    return WORDS


def shown(word: str) -> str:
    return readable(os.fsencode(word).decode("latin-1"))


def usage() -> list[str]:
    with open(os.path.join(HERE, "help.txt"), encoding="utf-8") as it:
        text = it.read()
    return [*text.split("\n\n")[0].split("\n"), "t2verdict --help tells each word"]


def of_number(name: str, value: str) -> str:
    """What is at fault in the number after a word, or nothing."""
    said = known()[name]
    lowest, highest = int(said["from"]), int(said["to"])
    if not re.fullmatch(r"[0-9]+", value):
        return f"{name} wants a number in digits alone, from {lowest} to {highest}, and {shown(value)} is none"
    if value != "0" and value.startswith("0"):
        return f"the number after {name} has a zero before it: {value.lstrip('0') or '0'}"
    if len(value) > 12 or not lowest <= int(value) <= highest:
        return f"{name} goes from {lowest} to {highest}, and not to {shown(value)[:40]}"
    return ""


def of_unknown(word: str, is_last: bool) -> str:
    """What is said of a word that there is not."""
    near = similar(word.partition("=")[0], known().sections())
    whole = [it for it in known().sections() if it.startswith(word) and word.startswith("--") and len(word) > 2]
    if word == "--":
        return "leave -- out: the file is the last word, and a LABEL or FORMULA that begins with - is given with =, as in --ctl='-x > 0'"
    if word == "-":
        return "standard input is read where no file is named: leave - out"
    if len(whole) == 1:
        return f"words are not abbreviated: {shown(word)} is {whole[0]}"
    if word.startswith("-"):
        return f"there is no word {shown(word)}" + (f"; did you mean {near}?" if near else "")
    if os.path.exists(word):
        return f"the file {shown(word)} is to be the last word, behind a question about it" if not is_last else f"{shown(word)} is a file, and no question is asked about it"
    bare = similar("--" + word, known().sections())
    if bare:
        return f"there is no word {shown(word)}; did you mean {bare}?"
    if is_last:
        return f"there is no file {shown(word)}, and no such word"
    return f"there is no word {shown(word)}; blanks inside of a LABEL or FORMULA want quotation marks around it"


def of_value(name: str, value: str | None, is_joined: bool) -> str:
    """What is at fault in the value of a word that wants one, or nothing."""
    said = known()[name]
    if value is None or (value.startswith("-") and not is_joined):
        joined = f"; one that begins with - is given as {name}=.." if value and "from" not in said else ""
        return f"{name} wants {said['value']} after it{joined}"
    if name == "--timeout":
        return "" if re.fullmatch(r"[0-9]+(\.[0-9]+)?", value) and float(value) > 0 else f"--timeout wants a number of seconds above 0, and {shown(value)} is none"
    return of_number(name, value) if "from" in said else ""


def of_word(words: list[str], at: int, seen: list[str]) -> tuple[str, int]:
    """What is at fault in a word, or nothing, and the number of the next one."""
    word, joined, value = words[at].partition("=")
    if any("\udc80" <= it <= "\udcff" for it in words[at]):
        return "a word is not UTF-8", at + 1
    if word not in known().sections() or word == "--prove":
        if word == "--prove":
            return "--prove is to be the first word", at + 1
        is_last = at == len(words) - 1
        return "" if word == "--" and is_last else of_unknown(words[at], is_last), at + 1
    if word in seen:
        return f"{word} is given twice", at + 1
    seen.append(word)
    if "value" not in known()[word]:
        return (f"{word} takes no value" if joined else ""), at + 1
    if joined:
        return of_value(word, value, True), at + 1
    return of_value(word, words[at + 1] if at + 1 < len(words) else None, False), at + 2


def of_all(seen: list[str]) -> str:
    """What is at fault in words that are each well."""
    asked = [it for it in seen if it in QUESTIONS]
    if not asked:
        return f"no question is asked: one of {', '.join(QUESTIONS)} is needed"
    if len(asked) > 1:
        return f"{' and '.join(asked)} are {len(asked)} questions: ask one at a time"
    if "--check" in seen and "--certificate" in seen:
        return "--certificate writes a certificate that is found, and --check finds none: leave one out"
    for it in ("--check", "--certificate"):
        if it in seen and "--generate" in seen:
            return f"{it} does not go with --generate"
        if it in seen and "--finitely" in seen:
            return f"{it} does not go with --finitely, of which no certificates are written"
    if "--trace" in seen and "--termination" not in seen:
        return "--trace shows a run that never ends, so it goes with --termination alone"
    for it in ("--check", "--certificate"):
        if it in seen and "--trace" in seen:
            return f"--trace does not go with {it}"
    return ""


def explained(words: list[str]) -> list[str]:
    """What is said of words that were refused."""
    at, seen, said = 0, [], ""
    while at < len(words) and not said:
        said, at = of_word(words, at, seen)
    said = said or of_all(seen) or "the words have none of these forms"
    return [said, *usage()]
