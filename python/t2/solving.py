"""Whole points of a few rows, by Fourier and Motzkin's elimination and trying numbers from the smallest magnitude on."""
from t2.linear import Row, plus, scaled, tight

ROWS, TRIES = 4000, 20000


class NotSettled(Exception):
    """Whether there is a point was not found out by as many tries as are made."""


def substituted(rows: list[Row], values: tuple[int, ...]) -> list[Row]:
    """The rows over the columns after these values."""
    count = len(values)
    return [row[count:-1] + (row[-1] + sum(number * at for number, at in zip(row, values)),) for row in rows]


def without_last(rows: list[Row]) -> list[Row]:
    """The rows that follow over the columns but the last, within the rationals."""
    kept = {row[:-2] + row[-1:] for row in rows if row[-2] == 0}
    for above in (row for row in rows if row[-2] > 0):
        for below in (row for row in rows if row[-2] < 0):
            made = plus(scaled(-below[-2], above), scaled(above[-2], below))
            kept.add(tight(made[:-2] + made[-1:]))
            if len(kept) > ROWS:
                return list(kept)
    return list(kept)


def bounds(rows: list[Row]) -> tuple[int | None, int | None] | None:
    """The least and the greatest number that meets rows over one column; none where no number does."""
    least = most = None
    for factor, constant in rows:
        if factor == 0 and constant > 0:
            return None
        if factor > 0:
            most = -constant // factor if most is None else min(most, -constant // factor)
        if factor < 0:
            bound = -(constant // factor)
            least = bound if least is None else max(least, bound)
    return None if least is not None and most is not None and least > most else (least, most)


def by_magnitude(least: int | None, most: int | None):
    """The numbers within the bounds, those of small magnitude first."""
    middle = 0
    if least is not None and least > 0:
        middle = least
    if most is not None and most < 0:
        middle = most
    yield middle
    away = 1
    while (most is None or middle + away <= most) or (least is None or middle - away >= least):
        if most is None or middle + away <= most:
            yield middle + away
        if least is None or middle - away >= least:
            yield middle - away
        away += 1


def whole_point(rows: list[Row], columns: int) -> list[int] | None:
    """Whole numbers for the columns that meet the rows, or nothing where there are none."""
    levels = [rows]
    for _ in range(columns):
        levels.insert(0, without_last(levels[0]))
    if any(row[-1] > 0 for row in levels[0]):
        return None
    tries = [TRIES]

    def found(point: tuple[int, ...]) -> list[int] | None:
        if len(point) == columns:
            return list(point)
        limits = bounds(substituted(levels[len(point) + 1], point))
        if limits is None:
            return None
        for number in by_magnitude(*limits):
            tries[0] -= 1
            if tries[0] < 0:
                raise NotSettled
            if (whole := found(point + (number,))) is not None:
                return whole
        return None

    return found(())
