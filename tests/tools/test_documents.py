"""What docs/pictures.md shows is what the tools print."""
import re

from checks import EXAMPLES, TOP, Checks, call, traced


def run(checks: Checks) -> None:
    blocks = re.findall(r"^```\n(.*?)^```$", (TOP / "docs" / "pictures.md").read_text(), re.M | re.S)
    words = ["--ctl", "[AF](x < 0)"]
    checks.same("the run of pictures.md", traced(words, EXAMPLES / "draw.t2", words)[1], blocks[0])
    words = ["--ctl", "count != 0 || [AG](!at(_2.2) || count == 2)"]
    checks.same("the run of processes of pictures.md", traced(words, EXAMPLES / "processes" / "lost-update.t2", words)[1], blocks[1])
    listing = call("listing", [str(EXAMPLES / "turning-sum.t2"), "--ctl", "[AG](x == 0 || [AF](x <= 0))"])
    checks.same("the listing of pictures.md", listing[1], blocks[2])
