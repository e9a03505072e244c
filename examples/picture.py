#!/usr/bin/env python3
"""Draws a program and its certificate as a graph for Graphviz: each location with the pieces of the certificate's first node, which are
drawn apart, and their ranks, and each edge with its commands. With `--run` the run that the certificate determines is drawn in.

Status: 0, 2 where the words are wrong, 3 where the program or the certificate cannot be read, 4 where a step is none of the program."""
import argparse
import sys
from pathlib import Path

sys.dont_write_bytecode = True
sys.path.insert(0, str(Path(__file__).resolve().parent.parent / "python"))
from t2.certificates import Node, nodes_of  # noqa: E402
from t2.command import OUTPUT, certificate_for, count_of, given, initial_values, parser, run  # noqa: E402
from t2.drawing import Drawing  # noqa: E402
from t2.runs import Walker  # noqa: E402
from t2.tokens import Fault  # noqa: E402

ABOUT = "Draws a program and its certificate as a graph for Graphviz."


def words() -> argparse.Namespace:
    made = parser(ABOUT)
    made.add_argument("program", metavar="PROGRAM", nargs="?", help="the program text, with the certificate after a line CERTIFICATE: "
                      "where no OUTPUT is named; standard input where it is not given")
    made.add_argument("output", metavar="OUTPUT", nargs="?", help=OUTPUT)
    made.add_argument("--node", type=int, default=0, metavar="N", help="the node whose pieces are drawn (0)")
    made.add_argument("--run", action="store_true", help="draw in the run that the certificate determines")
    made.add_argument("--count", type=count_of, default=20, metavar="K", help="how many states of the run are drawn at most (20)")
    made.add_argument("--start", metavar="X=1,Y=2", help="initial values of the run, where the property is proved; 0 where none is given")
    return made.parse_args()


def node_of(root: Node, number: int) -> Node:
    nodes = nodes_of(root)
    if not 0 <= number < len(nodes):
        raise Fault(f"--node: the certificate has the nodes 0 to {len(nodes) - 1}")
    return nodes[number]


def main() -> int:
    args = words()
    about = given(args, args.program)
    certificate = certificate_for(about, args.output, args.program is not None)
    drawing = Drawing(about.program, node_of(certificate.root, args.node), certificate.proved and args.node == 0)
    if args.run:
        values = initial_values(certificate, about.program, args.start)
        drawing.add_run(Walker(about.program, about.cases, args.count).runs(certificate, values)[0])
    print(drawing.text())
    return 0


if __name__ == "__main__":
    run("picture.py", main)
