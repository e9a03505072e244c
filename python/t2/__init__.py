"""Texts of programs and formulas, certificates, and runs and pictures of them, for the tools in Python. What an answer is, the program t2verdict
itself decides."""
import sys

# the parser calls itself for each bracket
sys.setrecursionlimit(max(sys.getrecursionlimit(), 20_000))
