"""Random rules in KoAT's form, with free names, guards with "and", "or" and "not", and left sides that are not names alone; and random files
of T2."""
from __future__ import annotations

import random

NAMES, FREE, SYMBOLS = ["x", "y", "z"], ["p", "q"], ["f", "g", "h"]


def random_system(seed: int, products: float = 0.0) -> str:
    """Rules; some terms are products, as often as is said."""
    chance = random.Random(seed)
    width = chance.randint(1, 3)
    rules = "\n".join("  " + rule(chance, width, products) for _ in range(chance.randint(2, 5)))
    return f"(GOAL COMPLEXITY)\n(STARTTERM (FUNCTIONSYMBOLS f))\n(VAR {' '.join(NAMES + FREE)})\n(RULES\n{rules}\n)\n"


def random_t2(seed: int, products: float) -> str:
    """A file of T2 with two locations."""
    chance = random.Random(seed)
    edges = "".join(edge(chance, products) for _ in range(chance.randint(2, 4)))
    return f"START: 0;\n{edges}"


def edge(chance: random.Random, products: float) -> str:
    commands = ""
    for _ in range(chance.randint(1, 3)):
        value = chance.choice(["nondet()", "nondet() - x", "2 * nondet() + 1"]) if chance.random() < 0.2 else total(chance, NAMES, products)
        assignment = f"{chance.choice(NAMES)} := {value};"
        commands += "  " + (assignment if chance.random() < 0.6 else f"assume({condition(chance, NAMES, products)});") + "\n"
    return f"FROM: {chance.randint(0, 1)};\n{commands}TO: {chance.randint(0, 1)};\n"


def rule(chance: random.Random, width: int, products: float) -> str:
    names = NAMES[:width]
    left = list(names)
    free = FREE[:chance.choice([0, 1, 1, 2])]
    pool = names + free
    if chance.random() < 0.2:
        left[-1] = chance.choice([left[0], "0", f"{left[-1]} + 1"] if len(free) < 2 else ["0"])
    right = ", ".join(total(chance, pool, products) for _ in range(width))
    target = f"{chance.choice(SYMBOLS)}({right})"
    target = f"Com_1({target})" if chance.random() < 0.5 else target
    guard = condition(chance, pool, products)
    guard = chance.choice([f":|: {guard}", f"[ {guard} ]", ""])
    return f"{chance.choice(SYMBOLS)}({', '.join(left)}) -> {target} {guard}"


def total(chance: random.Random, pool: list[str], products: float) -> str:
    if chance.random() < 0.3:
        return chance.choice(pool)
    words = [term(chance, pool, products) for _ in range(chance.randint(1, 2))]
    return chance.choice([" + ", " - "]).join(words) + chance.choice(["", " + 1", " - 2"])


def term(chance: random.Random, pool: list[str], products: float) -> str:
    if chance.random() < products:
        return f"{chance.choice(pool)}*{chance.choice(pool + ['(x + 1)'])}"
    return f"{chance.choice(['', '', '2*', '-'])}{chance.choice(pool)}"


def condition(chance: random.Random, pool: list[str], products: float, depth: int = 0) -> str:
    pick = chance.random()
    if depth < 2 and pick < 0.5:
        return " && ".join(condition(chance, pool, products, depth + 1) for _ in range(chance.randint(2, 3)))
    if depth < 2 and pick < 0.6:
        return f"({condition(chance, pool, products, depth + 1)} || {condition(chance, pool, products, depth + 1)})"
    if depth < 2 and pick < 0.7:
        return f"!({condition(chance, pool, products, depth + 1)})"
    right = chance.choice([total(chance, pool, products), "0", "3"])
    return f"{total(chance, pool, products)} {chance.choice(['<', '<=', '>', '>=', '=', '=', '!='])} {right}"
