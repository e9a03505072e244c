"""How program texts are written: sums, edges and whole texts."""
from typing import Iterable


def product_text(factor: int, name: str) -> str:
    """A product with a factor above 0; without a name it is the number alone."""
    if not name:
        return str(factor)
    return name if factor == 1 else f"{factor} * {name}"


def terms_text(terms: Iterable[tuple[int, str]]) -> str:
    """The sum of factors times names, as `x - 2 * y + 1`; what has the factor 0 is left out."""
    written = ""
    for factor, name in terms:
        size = product_text(abs(factor), name)
        if factor:
            written += f" {'-' if factor < 0 else '+'} {size}" if written else size if factor > 0 else f"-{size}"
    return written or "0"


def edge_text(source: str, commands: Iterable[str], target: str) -> str:
    return "\n".join([f"FROM: {source};", *(f"  {command}" for command in commands), f"TO: {target};"])


def program_text(notes: Iterable[str], start: str, edges: Iterable[str], between: str = "\n") -> str:
    """The text of a program after comments."""
    head = "\n".join([*(f"// {note}" for note in notes), f"START: {start};"])
    return between.join([head, *edges]) + "\n"
