"""From integer transition systems (KoAT's form) and files of the tool T2 to program texts."""
import sys
from pathlib import Path

sys.path.insert(0, str(Path(__file__).resolve().parents[2] / "python"))
