"""Reads the tables of this folder: rows of lines `NAME: TEXT` between empty lines."""
import re
from pathlib import Path

TOP = Path(__file__).resolve().parent.parent.parent
Row = list[tuple[str, str]]


def rows(table: str) -> list[Row]:
    """The rows of a table, each a list of names and texts."""
    text = (TOP / "tests" / "front" / f"{table}.rows").read_text(encoding="utf-8")
    blocks = [[it for it in block.split("\n") if it and not it.startswith("#")] for block in re.split(r"\n{2,}", text)]
    return [[it.partition(":")[::2] for it in block] for block in blocks if block]


def taken(text: str) -> str:
    """A field without the one blank that stands after its colon."""
    return text[1:] if text.startswith(" ") else text


def values(row: Row, name: str) -> list[str]:
    return [taken(text) for key, text in row if key == name]


def bytes_of(text: str) -> bytes:
    """The bytes of a text in which \\n and \\xHH are written out."""
    text = text.replace("\\n", "\n")
    return re.sub(rb"\\x([0-9a-f]{2})", lambda it: bytes([int(it[1], 16)]), text.encode())


def placed(data: bytes) -> tuple[bytes, str, str]:
    """A text without its mark, and the place of the mark: with its line, and the column alone."""
    before, mark, after = data.partition("¦".encode())
    line, column = before.count(b"\n") + 1, len(before) - (before.rfind(b"\n") + 1) + 1
    return before + after, f"line {line} column {column}" if mark else "", f"column {column}" if mark else ""
