#!/usr/bin/env python3
"""Tries each wrong body of a crate's must-fail edits alone. An edit may hold several, each under a line `# what goes
wrong`; the gate tries them together.

Usage: bench/edits_alone.py CRATE.. It needs `rt`, works on a copy, and begins with what checks of the crates have kept.
"""

import shutil
import subprocess
import sys
import tempfile
from pathlib import Path

from measured import TOP, lines_of_crates


def bodies_of(edit):
    """The wrong bodies of an edit, each with its name."""
    bodies, name = [], edit.stem
    for line in edit.read_text(encoding="utf-8").splitlines():
        if line.startswith("# "):
            name = line.removeprefix("# ").replace(" ", "_")
        elif bodies and bodies[-1][0] == name:
            bodies[-1][1].append(line)
        else:
            bodies.append((name, [line]))
    return bodies


def write_alone(folder):
    """Gives each wrong body of the folder's edits a file of its own."""
    for edit in sorted(folder.glob("*.edit")):
        bodies = bodies_of(edit)
        edit.unlink()
        for name, lines in bodies:
            (folder / f"{name}.edit").write_text("\n".join(lines) + "\n", encoding="utf-8")


def main():
    wanted = sys.argv[1:]
    with tempfile.TemporaryDirectory() as name:
        folder = Path(name)
        lines = lines_of_crates(wanted)
        for line in lines:
            crate = line.split(":")[0]
            shutil.copytree(TOP / "crates" / crate, folder / "crates" / crate)
        for crate in wanted:
            write_alone(folder / "crates" / crate / "must-fail")
        (folder / "crates.txt").write_text("\n".join(lines) + "\n", encoding="utf-8")
        subprocess.run(["git", "init", "-q", str(folder)], check=True)
        sys.exit(subprocess.run(["rt", "must-fail", *wanted], cwd=folder).returncode)


main()
