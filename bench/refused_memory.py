#!/usr/bin/env python3
"""Refuses each request for memory that a run makes, one at a time, and looks at how the run ends: with status 6 and a front of
the answer, or as usual.

Usage: bench/refused_memory.py. It needs `rt`, and proves nothing. `rt try --fail-alloc` refuses one request, by its number, and
builds anew for each number. So a program that runs as `uset` does makes requests of its own first, as many as the first line of
its input says: the one that is refused is then another one of the run in each case, over one build.
"""

import re
import shutil
import subprocess
import sys
import tempfile
from pathlib import Path

from hostile import ANSWER, SCRIPT, TOP, tables

# The number of the request that is refused. A run makes fewer.
REFUSED = 5_000

# The code points of a set that a bracket puts off, each a range of its own.
LARGE = [f"{code:X}" for code in range(0x100, 0x140, 2)]

# Strings of a set that brackets name in terms.
HUGE = "".join(f"{{{first}{second}}}" for first in "abcdefgh" for second in "abcdefgh")

# A name, the word, what stands behind the tables, the answer and its status.
RUNS = [
    ("variables", "eval", SCRIPT, ANSWER, 1),
    ("strings", "eval", "pat [{ab}[[{bc}{de}x]&[{bc}x-z]][a-c{}]-[{ab}]]\n", "ok 43 0061-0063 0078 {} {0062_0063}\n", 0),
    (
        "again",
        "eval",
        f"let v set [\\u{{{' '.join(LARGE)}}}{{xy}}]\npat [$v[b{{pq}}]-\\p{{L}}&$v\\p{{L}}[c]-$v]\n",
        "bound v\nok 31 0041-005A 0061-007A\n",
        0,
    ),
    (
        "term",
        "eval",
        f"let v set [a-c{HUGE}]\npat [[$v-[b]][^$v\\p{{L}}]&[a-c{{aa}}]]\n",
        "bound v\nok 30 0061 0063 {0061_0061}\n",
        0,
    ),
    ("tables", "tables", "", "set 4\nmap 3\nnames 3\nlong 1\nshort 1\nscx 1\next 1\nemoji 1\n", 0),
]

MAIN = """//! Runs as `uset` does, behind requests for memory of its own, and prints how many are granted behind it.
#![tactic(auto)]

use std::alloc::Global;
use std::io::Read;
use std::process::ExitCode;
use std::{env, io};
use uset_tool::{Status, StdSink, StdSource, run};

/// The words after the program's name.
fn words(rt: &HostRuntime) -> io::Result<Vec<String>> {
    let words = env::args(rt)?.skip(1).collect(rt.alloc())?;
    Ok(words)
}

/// The number on the first line, with one read for each byte, so that no more is taken.
fn first_number(input: &mut impl Read) -> io::Result<u64> {
    let mut number = 0u64;
    let mut byte = [0u8];
    for _ in 0..20 {
        input.read_exact(&mut byte)?;
        if byte[0] == b'\\n' {
            break;
        }
        number = number.wrapping_mul(10).wrapping_add(u64::from(byte[0] % 16));
    }
    Ok(number)
}

/// How many of so many requests are granted, up to the first that is refused.
fn granted(alloc: Global, requests: u64) -> u64 {
    for count in 0..requests {
        if Box::new(alloc, 0u8).is_err() {
            return count;
        }
    }
    requests
}

fn main(rt: HostRuntime) -> anyhow::Result<ExitCode> {
    let alloc = rt.alloc();
    let mut input = rt.stdin();
    let before = first_number(&mut input)?;
    granted(alloc, before);
    let status = match words(&rt) {
        Ok(words) => run(alloc, &words, &mut StdSource::new(input), &mut StdSink::new(rt.stdout())),
        Err(_) => Status::NoMemory,
    };
    let behind = granted(alloc, REFUSED);
    println!(rt; "\\n{behind}")?;
    Ok(ExitCode::from(status.code()))
}
"""


def write_repository(folder):
    """A repository with the crates and the program; returns the program's folder."""
    for crate in (TOP / "crates").iterdir():
        shutil.copytree(crate, folder / "crates" / crate.name, ignore=shutil.ignore_patterns("out", "proofs", "must-fail"))
    source = folder / "crates" / "refused" / "src"
    source.mkdir(parents=True)
    (source / "main.rt").write_text(MAIN.replace("REFUSED", str(REFUSED)), encoding="utf-8")
    lines = (TOP / "crates.txt").read_text(encoding="utf-8")
    (folder / "crates.txt").write_text(lines + "refused: uset_tool anyhow\n", encoding="utf-8")
    subprocess.run(["git", "init", "-q", str(folder)], check=True)
    return source.parent


def ends(crate, cases):
    """For each case, a name with the number of requests in front, the word and the input: its status, what was written, and
    whether the run made the request that was refused."""
    with tempfile.TemporaryDirectory() as name:
        folder = Path(name)
        for case, (before, word, text) in cases.items():
            (folder / case).write_text(f"{before}\n{text}", encoding="utf-8")
            (folder / f"{case}.args").write_text(f"{word}\n", encoding="utf-8")
        tried = subprocess.run(
            ["rt", "try", "--steps", "1", "--fail-alloc", str(REFUSED), "--cases", name], cwd=crate, stdin=subprocess.DEVNULL, capture_output=True
        )
    statuses = dict(re.findall(r"^case=(\S+) run=ended status=(\d+) ", tried.stderr.decode(), re.M))
    written = re.split(r"^== (\S+)\n", tried.stdout.decode(), flags=re.M)[1:]
    found = {}
    for case, text in zip(written[::2], written[1::2]):
        answer, behind, _ = text.rsplit("\n", 2)
        found[case] = (int(statuses[case]), answer, int(behind))
    if found.keys() != cases.keys():
        sys.exit(tried.stderr.decode())
    return found


def refusals(requests):
    """The cases in which each request of each run is refused in turn."""
    return {
        f"{name}-{number}": (REFUSED - number, word, tables() + script)
        for name, word, script, _, _ in RUNS
        for number in range(1, requests[name] + 1)
    }


def main():
    with tempfile.TemporaryDirectory() as folder:
        crate = write_repository(Path(folder))
        whole = ends(crate, {name: (0, word, tables() + script) for name, word, script, _, _ in RUNS})
        requests = {name: REFUSED - 1 - behind for name, (_, _, behind) in whole.items()}
        found = ends(crate, refusals(requests))
    print("| run | requests | ended with status 6 and a front | ended as usual | their numbers |\n|---|---|---|---|---|")
    wrong = 0
    for name, _, _, answer, status in RUNS:
        wrong += whole[name][:2] != (status, answer)
        refused, usual = 0, []
        for number in range(1, requests[name] + 1):
            ended, written, behind = found[f"{name}-{number}"]
            if behind == REFUSED and ended == 6 and answer.startswith(written):
                refused += 1
            elif behind == REFUSED and (ended, written) == (status, answer):
                usual.append(number)
            else:
                print(f"{name}, request {number}: status {ended}, {written!r}")
                wrong += 1
        print(f"| {name} | {requests[name]} | {refused} | {len(usual)} | {', '.join(map(str, usual))} |")
    sys.exit(1 if wrong else 0)


main()
