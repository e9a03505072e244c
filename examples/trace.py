#!/usr/bin/env python3
"""Prints the run that a certificate determines, state by state. The certificate is in what `t2verdict .. --certificate` wrote.

Status: 0, 2 where the words are wrong, 3 where the program or the certificate cannot be read, 4 where a step is none of the program."""
import argparse
import sys
from pathlib import Path

sys.dont_write_bytecode = True
sys.path.insert(0, str(Path(__file__).resolve().parent.parent / "python"))
from t2.command import OUTPUT, certificate_for, count_of, given, initial_values, parser, run  # noqa: E402
from t2.names import Names, read_table  # noqa: E402
from t2.report import report  # noqa: E402
from t2.runs import Walker  # noqa: E402

ABOUT = "Prints the run that a certificate determines, state by state."


def words() -> argparse.Namespace:
    made = parser(ABOUT)
    made.add_argument("program", metavar="PROGRAM", help="the program text, which may have the certificate after a line CERTIFICATE:")
    made.add_argument("output", metavar="OUTPUT", nargs="?", help=OUTPUT)
    made.add_argument("--count", type=count_of, default=20, metavar="K", help="how many states of a run are printed at most (20)")
    made.add_argument("--table", metavar="TABLE.json", help="the table of the translator from C, for lines and functions")
    made.add_argument("--start", metavar="X=1,Y=2", help="initial values, where the property is proved; 0 for those that are not given")
    return made.parse_args()


def main() -> int:
    args = words()
    about = given(args, args.program)
    certificate = certificate_for(about, args.output, True)
    values = initial_values(certificate, about.program, args.start)
    runs = Walker(about.program, about.cases, args.count).runs(certificate, values)
    print(report(certificate, runs, Names(about.program, read_table(args.table))))
    return 0


if __name__ == "__main__":
    run("trace.py", main)
