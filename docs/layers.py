#!/usr/bin/env python3
"""Makes from crates.txt what the documents say of it: the picture docs/layers.svg, where each crate of the product stands in the row of its
layer, and the column of docs/architecture.md that counts the crates which a change has proved again. With `--check` nothing is written.

Status: 0, 1 where `--check` finds one of the two out of date, 2 where the words are wrong."""
import re
import sys
from html import escape
from pathlib import Path

TOP = Path(__file__).resolve().parents[1]
PICTURE = TOP / "docs/layers.svg"
PAGE = TOP / "docs/architecture.md"
COLUMN, LINE, MARGIN, HEAD = 168, 20, 36, 62
COUNT = re.compile(r"\d+ of \d+")


class Crates:
    """The crates of the product, by the headings of crates.txt, and what each uses."""

    def __init__(self, text: str):
        self.groups: list[tuple[str, list[str]]] = []
        self.uses: dict[str, list[str]] = {}
        for line in text.splitlines()[1:]:
            if line.startswith("#"):
                self.groups.append((line[1:].strip(), []))
            elif line.strip():
                name, _, used = line.partition(":")
                self.groups[-1][1].append(name)
                self.uses[name] = used.split()
        self.groups = [(head, names) for head, names in self.groups if not re.match(r"tests|a program that times", head)]
        self.product = [name for _, names in self.groups for name in names]

    def layer(self, name: str) -> int:
        """One more than the highest layer of what the crate uses."""
        return 1 + max((self.layer(used) for used in self.uses[name] if used in self.uses), default=0)

    def above(self, names: set[str]) -> set[str]:
        """These crates of the product and all that stand on one of them."""
        found = set(names)
        while True:
            more = {name for name in self.product if found.intersection(self.uses[name])} - found
            if not more:
                return found
            found |= more


def wrapped(text: str, width: int) -> list[str]:
    lines = [""]
    for word in text.split():
        if lines[-1] and len(lines[-1]) + len(word) >= width:
            lines.append("")
        lines[-1] = f"{lines[-1]} {word}".strip()
    return lines


def text_at(x: int, y: int, words: str, more: str = "") -> str:
    return f'<text x="{x}" y="{y}"{more}>{escape(words)}</text>'


def boxes(names: list[str], x: int, y: int) -> list[str]:
    """The crates of a cell of the picture, one under another."""
    drawn = []
    for place, name in enumerate(names):
        at = y + place * LINE
        drawn.append(f'<rect x="{x}" y="{at}" width="{COLUMN - 14}" height="{LINE - 4}" rx="3" fill="#eef3f8" stroke="#8aa4bd"/>')
        drawn.append(text_at(x + 5, at + 12, name))
    return drawn


def picture(crates: Crates) -> str:
    layers = {name: crates.layer(name) for name in crates.product}
    drawn: list[str] = []
    for column, (head, _) in enumerate(crates.groups):
        for place, line in enumerate(wrapped(head, 26)):
            drawn.append(text_at(MARGIN + column * COLUMN, 14 + place * 14, line, ' font-weight="bold"'))
    y = HEAD
    for layer in range(max(layers.values()), 0, -1):
        cells = [[name for name in names if layers[name] == layer] for _, names in crates.groups]
        drawn.append(f'<line x1="8" y1="{y - 6}" x2="{MARGIN + len(cells) * COLUMN}" y2="{y - 6}" stroke="#cccccc"/>')
        drawn.append(text_at(14, y + 12, str(layer)))
        for column, names in enumerate(cells):
            drawn += boxes(names, MARGIN + column * COLUMN, y)
        y += max(len(names) for names in cells) * LINE + 8
    width = MARGIN + len(crates.groups) * COLUMN
    head = f'<svg xmlns="http://www.w3.org/2000/svg" width="{width}" height="{y}" font-family="sans-serif" font-size="11">'
    return "\n".join([head, f'<rect width="{width}" height="{y}" fill="white"/>', *drawn, "</svg>", ""])


def counted(crates: Crates, page: str) -> str:
    """The page with the counts of its table: in each row that ends with a count, of the crates that the row names and all above them."""
    lines = page.split("\n")
    for place, line in enumerate(lines):
        cells = line.split("|")
        if len(cells) > 2 and COUNT.fullmatch(cells[-2].strip()):
            named = set(re.findall(r"`(\w+)(?:/[^`]*)?`", line)).intersection(crates.product)
            cells[-2] = f" {len(crates.above(named))} of {len(crates.product)} "
            lines[place] = "|".join(cells)
    return "\n".join(lines)


def main(words: list[str]) -> int:
    if words not in ([], ["--check"]):
        print("layers.py: the only word is --check", file=sys.stderr)
        return 2
    crates = Crates((TOP / "crates.txt").read_text())
    status = 0
    for file, made in [(PICTURE, picture(crates)), (PAGE, counted(crates, PAGE.read_text()))]:
        if file.exists() and file.read_text() == made:
            continue
        if words:
            print(f"{file.relative_to(TOP)} is not current: run docs/layers.py")
            status = 1
        else:
            file.write_text(made)
    return status


if __name__ == "__main__":
    sys.exit(main(sys.argv[1:]))
