#!/usr/bin/env python3
"""Lists what the numbers in answers and certificates mean: the locations, edges and linear cases of a program in its own names, and the
subformulas of a property. With `--finitely FORMULA` the edges and cases are those of the program with two copies of each edge.

Status: 0, 2 where the words are wrong, 3 where the program or the property cannot be read."""
import argparse
import sys
from pathlib import Path

sys.dont_write_bytecode = True
sys.path.insert(0, str(Path(__file__).resolve().parent.parent / "python"))
from t2.command import given, parser, run  # noqa: E402
from t2.listing import listing  # noqa: E402

ABOUT = "Lists the locations, edges and linear cases of a program by their numbers, and the subformulas of a property."


def words() -> argparse.Namespace:
    made = parser(ABOUT, has_copies=True)
    made.add_argument("program", metavar="PROGRAM", nargs="?", help="the program text; standard input where it is not given")
    return made.parse_args()


def main() -> int:
    args = words()
    about = given(args, args.program)
    print("\n".join(listing(about.program, about.cases, about.proved, about.denied)))
    return 0


if __name__ == "__main__":
    run("listing.py", main)
