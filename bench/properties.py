#!/usr/bin/env python3
"""Times properties in patterns over the tables of a text: for each key the names of its values, a pattern each.

Usage: bench/properties.py TABLES [PROGRAM]. TABLES is a table text, of all of Unicode, say. PROGRAM is
crates/uset/out/uset, which `rt run` in crates/uset builds. The time of the tables without a script is taken off, and
each time is the least of REPEATS. Beside the time of a pattern stands the number of runs that the map of the key has.
"""

import resource
import subprocess
import sys
from pathlib import Path

REPEATS = 7
TOP = Path(__file__).resolve().parent.parent
# The keys, each with its table of names and its map.
KEYS = [
    ("gc", "General_Category_Mask", "General_Category"),
    ("sc", "Script", "Script"),
    ("scx", "Script", None),
    ("blk", "Block", "Block"),
    ("ccc", "Canonical_Combining_Class", "Canonical_Combining_Class"),
    ("ea", "East_Asian_Width", "East_Asian_Width"),
    ("lb", "Line_Break", "Line_Break"),
    ("GCB", "Grapheme_Cluster_Break", "Grapheme_Cluster_Break"),
    ("WB", "Word_Break", "Word_Break"),
    ("SB", "Sentence_Break", "Sentence_Break"),
    ("InCB", "Indic_Conjunct_Break", "Indic_Conjunct_Break"),
]


def tables_of(text):
    """The rows of each table, by its header's first two words."""
    tables, rows = {}, []
    for line in text.splitlines():
        fields = line.split("#")[0].split()
        if fields and fields[0] in ("set", "map", "names", "long", "short", "emoji", "scx", "ext"):
            rows = tables.setdefault(tuple(fields[:2]) if fields[0] != "scx" else ("scx",), [])
        elif fields:
            rows.append(fields)
    return tables


def seconds(program, text):
    """The least processor time of the program on the text."""
    least = None
    for _ in range(REPEATS):
        before = resource.getrusage(resource.RUSAGE_CHILDREN)
        subprocess.run([program, "eval"], input=text.encode(), stdout=subprocess.DEVNULL, check=False)
        after = resource.getrusage(resource.RUSAGE_CHILDREN)
        spent = after.ru_utime + after.ru_stime - before.ru_utime - before.ru_stime
        least = spent if least is None else min(least, spent)
    return least


def main():
    text = Path(sys.argv[1]).read_text(encoding="utf-8")
    program = sys.argv[2] if len(sys.argv) > 2 else str(TOP / "crates/uset/out/uset")
    tables = tables_of(text)
    start = seconds(program, text)
    print("| key | patterns | rows of its map | us a pattern |\n|---|---|---|---|")
    every = []
    for key, names, values in KEYS:
        rows = tables.get(("scx",) if values is None else ("map", values), [])
        patterns = [f"pat [:{key}={row[1]}:]\n" for row in tables.get(("names", names), [])]
        every += patterns
        if patterns:
            spent = seconds(program, text + "".join(patterns) * 10) - start
            print(f"| `{key}` | {len(patterns)} | {len(rows)} | {spent * 1e6 / len(patterns) / 10:.1f} |")
    some = every[:1_000]
    spent = seconds(program, text + "".join(some)) - start
    print(f"| all, {len(some)} different ones | {len(some)} | | {spent * 1e6 / len(some):.1f} |")


main()
