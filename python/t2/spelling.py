"""Rows as people write them: `rd < cap` for `rd - cap + 1`, and `x == 0` for two rows."""
from t2.linear import Row, scaled
from t2.writing import product_text, terms_text


def term_text(row: Row, names: list[str]) -> str:
    """The term of a row, as `x - y + 1`."""
    return terms_text(zip(row, [*names, ""], strict=True))


def sides(row: Row, names: list[str]) -> tuple[str, str]:
    """The sum of the terms with positive numbers, and the one of those with negative numbers."""
    left = [product_text(number, name) for number, name in zip(row, names) if number > 0]
    right = [product_text(-number, name) for number, name in zip(row, names) if number < 0]
    return " + ".join(left), " + ".join(right)


def with_constant(side: str, constant: int) -> str:
    """A side to which a constant of either sign is added."""
    if not side or not constant:
        return side or str(constant)
    return f"{side} {'+' if constant > 0 else '-'} {abs(constant)}"


def relation_text(row: Row, names: list[str]) -> str:
    """What a row says where it is met."""
    left, right = sides(row, names)
    constant = row[-1]
    if not left and not right:
        return "true" if constant <= 0 else "false"
    if constant == 1:
        return f"{left} < {right or 0}" if left else f"{right} > 0"
    if not left:
        return f"{right} >= {constant}"
    if not right:
        return f"{left} <= {-constant}"
    return f"{left} <= {with_constant(right, -constant)}" if constant <= 0 else f"{with_constant(left, constant)} <= {right}"


def equation_text(row: Row, names: list[str]) -> str:
    """What a row and its opposite say together: the first name stands on the left."""
    first = next(number for number in row[:-1] if number)
    row = row if first > 0 else scaled(-1, row)
    left, right = sides(row, names)
    return f"{left} == {with_constant(right, -row[-1])}" if right else f"{left} == {-row[-1]}"


def rows_texts(rows: list[Row], names: list[str]) -> list[str]:
    """What rows say together; two opposite rows make one equation, and what is always met is left out."""
    texts, passed = [], set()
    for at, row in enumerate(rows):
        if at in passed or not any(row[:-1]) and row[-1] <= 0:
            continue
        opposite = next((other for other in range(at + 1, len(rows)) if other not in passed and rows[other] == scaled(-1, row)), None)
        if opposite is not None and any(row[:-1]):
            passed.add(opposite)
            texts.append(equation_text(row, names))
        elif relation_text(row, names) not in texts:
            texts.append(relation_text(row, names))
    return texts
