"""Whether a run of a C program is one of its text, and whether runs of the text are runs of the C program."""
from __future__ import annotations

import random

import interpreter

TRUE_BOUNDS = {"INT_MAX": 2 ** 31 - 1, "INT_MIN": -2 ** 31, "UINT_MAX": 2 ** 32 - 1, "LONG_MAX": 2 ** 63 - 1, "LONG_MIN": -2 ** 63, "ULONG_MAX": 2 ** 64 - 1}
RANGES = {"int": (-2 ** 31, 2 ** 31 - 1), "uint": (0, 2 ** 32 - 1), "uchar": (0, 255), "char": (-128, 127), "short": (-32768, 32767), "bool": (0, 1),
          "ushort": (0, 65535), "long": (-2 ** 63, 2 ** 63 - 1), "ulong": (0, 2 ** 64 - 1)}
STATES = 4000


def near_zero(low, high, out=frozenset()):
    value = 0 if (low is None or low <= 0) and (high is None or high >= 0) else low if low is not None and low > 0 else high
    while value in out:
        value += 1
    return value


class Text:
    """A text with its table."""

    def __init__(self, text: str, table: dict):
        self.text, self.table = interpreter.read(text), table
        self.out: dict[str, list[int]] = {}
        edges = self.text.edges[:len(table["edges"])]
        for number, edge in enumerate(edges):
            row = table["edges"][number]
            if (edge.source, edge.target, edge.draws) != (row["from"], row["to"], len(row["draws"])):
                raise AssertionError(f"edge {number} of the table is not that of the text")
            self.out.setdefault(edge.source, []).append(number)
        self.names = {row["c"]: name for name, row in table["variables"].items() if row["function"] is None and row["type"]}

    def kind(self, label: str) -> str:
        return self.table["locations"][label]["kind"]

    def observed(self, values: dict[str, int], expected: dict[str, int]) -> list[str]:
        """Which of the values at the end differ."""
        return [f"{name} is {values.get(text)} and not {expected[name]}" for name, text in self.names.items()
                if name in expected and text in values and not self.same(text, values[text], expected[name])]

    def same(self, name: str, one: int, other: int) -> bool:
        """C tells all values as signed ones of 64 bits."""
        return one == other or (self.table["variables"][name]["type"] == "unsigned long" and one == other % 2 ** 64)

    def fixed_draws(self, number: int) -> dict[int, int]:
        return {at: TRUE_BOUNDS[draw["kind"][6:]] for at, draw in enumerate(self.table["edges"][number]["draws"]) if draw["kind"].startswith("bound:")}


def follow(text: Text, how: str, taken: list[tuple[str, int]], values: dict[str, int]) -> str | None:
    """Looks for the run of the text that draws the same and ends in the same way; None where there is one, else what was seen."""
    waiting = [(text.text.start, {}, 0)]
    seen, furthest, differing = set(), 0, []
    while waiting:
        place, state, drawn = waiting.pop()
        furthest = max(furthest, drawn)
        if drawn == len(taken) and ends_as(text.kind(place), how):
            wrong = [] if how == "trap" else text.observed(state, values)
            if not wrong:
                return None
            differing = wrong
        key = (place, drawn, tuple(sorted(state.items())))
        if key in seen or len(seen) > STATES:
            continue
        seen.add(key)
        for number in text.out.get(place, []):
            calls = text.table["edges"][number]["calls"]
            if how == "cut" and is_cut(calls, taken[drawn:]):
                return None
            given = draws_given(calls, taken[drawn:])
            if given is None:
                continue
            done = interpreter.step(text.text.edges[number], state, {**text.fixed_draws(number), **given}, near_zero)
            if done is not None:
                waiting.append((text.text.edges[number].target, done[0], drawn + len(calls)))
    return f"no run of the text ends in {how} after {len(taken)} draws ({furthest} were followed; {', '.join(differing)})"


def is_cut(calls: list[dict], left: list[tuple[str, int]]) -> bool:
    """Whether the draws end within this edge, having been of its calls as far as they go."""
    return len(calls) > len(left) and all(call["type"] == one[0] for call, one in zip(calls, left))


def ends_as(kind: str, how: str) -> bool:
    return {"trap": "overflow", "cut": "statement"}.get(how, how) == kind or (how == "cut" and kind == "start")


def draws_given(calls: list[dict], left: list[tuple[str, int]]) -> dict[int, int] | None:
    """The draws of an edge that the recorded ones give; None where they are not of its calls."""
    if len(calls) > len(left):
        return None
    given = {}
    for call, (kind, value) in zip(calls, left):
        if call["type"] != kind:
            return None
        if "draw" in call:
            given[call["draw"]] = value
    return given


def walk(text: Text, source: random.Random, most: int) -> tuple[str, list[tuple[str, int]], dict[str, int], bool]:
    """A random run of the text: where it came to, what C is to draw for it, the values there, and whether no step was found at its end."""
    place, state, taken = text.text.start, {}, []
    for _ in range(most):
        numbers = list(text.out.get(place, []))
        source.shuffle(numbers)
        for number in numbers:
            done = taken_step(text, number, state, source)
            if done is not None:
                break
        else:
            return place, taken, state, True
        taken += calls_of(text, number, state, done[1])
        place, state = text.text.edges[number].target, done[0]
    return place, taken, state, False


def taken_step(text: Text, number: int, state: dict[str, int], source: random.Random):
    row = text.table["edges"][number]
    kinds = {call["draw"]: call["type"] for call in row["calls"] if "draw" in call}
    for attempt in range(6):
        draws = text.fixed_draws(number)
        for at, kind in kinds.items():
            low, high = RANGES[kind]
            value = source.choice([0, 1, 2, 3, -1, 5, 8, 100, 200, 255, 1000, -300, low, high, source.randint(-20, 300)])
            if attempt < 4:
                draws[at] = min(max(value, low), high)
        done = interpreter.step(text.text.edges[number], state, draws, near_zero)
        if done is not None:
            return done
    return None


def calls_of(text: Text, number: int, state: dict[str, int], draws: dict[int, int]) -> list[tuple[str, int]]:
    """What C is to draw on an edge."""
    taken = []
    for call in text.table["edges"][number]["calls"]:
        if "draw" in call:
            value = draws[call["draw"]]
        elif "value" in call:
            value = call["value"]
        else:
            run = interpreter.Execution(state, {})
            run.words, run.place = interpreter.tokens_of(call["term"]), 0
            low, high = RANGES[call["type"]]
            value = min(max(run.sum().constant(), low), high)
        taken.append((call["type"], value))
    return taken
