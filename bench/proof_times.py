#!/usr/bin/env python3
"""Tells which functions of a crate take longest to prove, and on what.

Usage: bench/proof_times.py NAME [COUNT] [--tests]. It checks the crate, or with --tests the crate with its tests, from
nothing and by one process, in a copy where the crates below are as their checks left them (they are proved first where
none did). A check writes some thirty files for a function as it goes, so the time from one file to the next is that of
what the file tells of; other work on the machine counts too. Two kinds are told apart: `Lts`, the steps of the function,
which grow with its length, its exits and what it owns, so that a shorter function costs less; and `Proof`, its proof,
most of it the search for what no answer is written for, so that an answer costs less.
"""

import argparse
import collections
import re
import shutil
import subprocess
import sys
import tempfile
from pathlib import Path

from measured import TOP, lines_of_crates


def write_copy(folder, name):
    """The crates that the crate stands on, and the crate itself under another name, since a check begins with what any
    check of a crate of its name kept on this machine."""
    *below, line = lines_of_crates([name])
    for crate in [line.split(":")[0] for line in below]:
        shutil.copytree(TOP / "crates" / crate, folder / "crates" / crate)
    crate = folder / "crates" / f"{name}_anew"
    shutil.copytree(TOP / "crates" / name, crate, ignore=shutil.ignore_patterns("out", "must-fail"))
    for path in [path for path in crate.rglob("*.*") if path.is_file()]:
        path.write_text(re.sub(rf"\b{name}\b", crate.name, path.read_text(encoding="utf-8")), encoding="utf-8")
    line = f"{crate.name}:{line.split(':')[1]}"
    (folder / "crates.txt").write_text("\n".join([*below, line]) + "\n", encoding="utf-8")
    subprocess.run(["git", "init", "-q", str(folder)], check=True)
    return crate


def seconds_by_kind(crate):
    """The seconds that went to each kind of file of each function, type or file of lemmas, by when it was written."""
    files = [(path.stat().st_mtime_ns, path.name) for path in (crate / "out" / "incremental").rglob("*.oantt")]
    seconds, last = collections.Counter(), None
    for written, file in sorted(files):
        module = re.sub(r"(\.decls)?\.oantt$", "", file).removeprefix(f"Rattle-{crate.name}-")
        subject, _, kind = module.rpartition(".")
        if last is not None:
            seconds[subject or kind, kind] += (written - last) / 1e9
        last = written
    return seconds


def main():
    parser = argparse.ArgumentParser(description=__doc__, formatter_class=argparse.RawDescriptionHelpFormatter)
    parser.add_argument("name")
    parser.add_argument("count", nargs="?", type=int, default=20)
    parser.add_argument("--tests", action="store_true")
    asked = parser.parse_args()
    check = ["rt", "check", "--jobs", "1", *(["--test"] if asked.tests else [])]
    with tempfile.TemporaryDirectory() as folder:
        crate = write_copy(Path(folder), asked.name)
        checked = subprocess.run(check, cwd=crate, stdout=subprocess.PIPE, stderr=subprocess.STDOUT, text=True)
        seconds = seconds_by_kind(crate)
    if checked.returncode:
        sys.exit(checked.stdout)
    subjects, kinds = collections.Counter(), collections.Counter()
    for (subject, kind), spent in seconds.items():
        subjects[subject] += spent
        kinds[kind] += spent
    print(f"{sum(kinds.values()):7.1f} s in all, {kinds['Lts']:.1f} Lts, {kinds['Proof']:.1f} Proof")
    for subject, spent in subjects.most_common(asked.count):
        print(f"{spent:7.1f} s, {seconds[subject, 'Lts']:5.1f} Lts, {seconds[subject, 'Proof']:5.1f} Proof: {subject}")


main()
