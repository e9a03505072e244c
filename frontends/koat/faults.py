"""What ends a translation."""


class Refused(Exception):
    """The file is not translated, for what stands in the line."""

    def __init__(self, line: int, why: str):
        super().__init__(f"line {line}: {why}")
        self.line = line
        self.why = why
