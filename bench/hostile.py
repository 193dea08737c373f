"""What the scripts that use the program in a hostile way share: a table text, and a script with its answer."""

import re
from pathlib import Path

TOP = Path(__file__).resolve().parent.parent
FIXTURES = TOP / "crates" / "row_fixtures" / "src" / "lib.rt"

SCRIPT = "let a char 61\nlet set set [a-z {Hello,\\ World!}]\npat [$set-[b-z]]\npat [$a-$set]\n"
ANSWER = (
    "bound a\nbound set\n"
    "ok 12 0061 {0048_0065_006C_006C_006F_002C_0020_0057_006F_0072_006C_0064_0021}\n"
    "err [$a-$set← error: unexpected variable\n"
)


def tables():
    """The table text that the rows of `uset_rows` are run on, which has tables of every kind."""
    literal = re.search(r'const EVERY_KIND: &str = "(.*?)";', FIXTURES.read_text(encoding="utf-8"), re.DOTALL)
    return re.sub(r"\\\n *", "", literal[1]).replace("\\n", "\n")
