#!/usr/bin/env python3
"""Times look-ups in maps and the building of maps, by page tables and by the binary search that stood before them,
in one run; and ICU4C's u_charType at the same code points, where ICU is there (libicu-dev).

Usage: bench/lookups.py. It needs `rt`, git with the history of this repository, and for ICU a C++ compiler.
A map of General_Category, made of Python's own Unicode data, and a map of one run are timed, with values of one
byte and of four. Each time is the least of many: others may use the machine too.
"""

import shutil
import subprocess
import tempfile
from pathlib import Path

from category import category_runs
from measured import CODE_POINTS, TOP, build

# The last commit whose maps are found by binary search alone.
SEARCH = "55a23fe"

MAIN = """//! Times maps of one crate.
#![tactic(auto)]

MODULES
use anyhow::{Context, Result};
use std::alloc::Global;

fn row_of(line: &str) -> Result<(u32, u32, u8)> {
    let (start, rest) = line.split_once(' ').context("no end")?;
    let (end, value) = rest.split_once(' ').context("no value")?;
    let start = start.parse::<u32>().context("start")?;
    let end = end.parse::<u32>().context("end")?;
    Ok((start, end, value.parse::<u8>().context("value")?))
}

CODE_POINTS
fn main(rt: HostRuntime) -> Result<()> {
    let alloc = rt.alloc();
    let mut rows = Vec::new(alloc);
    for line in rt.lines(alloc) {
        rows.push(row_of(line?.as_str())?)?;
    }
    let points = code_points(alloc)?;
CALLS    Ok(())
}
"""

MODULE = """//! The maps of one crate.
use anyhow::Result;
use cp_invlist::CodePointRange;
use CRATE::{CodePointMapRange, CodePointTrie};
use std::alloc::Global;
use std::rt::Clock;
use std::time::Instant;

fn runs_of(alloc: Global, rows: &[(u32, u32, u8)]) -> Result<Vec<CodePointMapRange<VALUE>>> {
    let mut runs = Vec::with_capacity(alloc, rows.len())?;
    for (start, end, value) in rows {
        let range = CodePointRange { start: *start, end: *end };
        runs.push(CodePointMapRange { range, value: VALUE::from(*value) })?;
    }
    Ok(runs)
}

/// Nanoseconds for building the map.
pub fn build(rt: &impl Clock, alloc: Global, rows: &[(u32, u32, u8)]) -> Result<u128> {
    let mut least = u128::MAX;
    for _ in 0..5_000 {
        let runs = runs_of(alloc, rows)?;
        let start = Instant::now(rt)?;
        let map = CodePointTrie::try_from_runs(alloc, runs, 0)?;
        least = least.min(start.elapsed(rt)?.as_nanos());
        let _value = map.get32(0);
    }
    Ok(least)
}

fn sum(map: &CodePointTrie<VALUE>, points: &[u32]) -> u32 {
    let mut sum = 0u32;
    for c in points {
        sum = sum.wrapping_add(u32::from(map.get32(*c)));
    }
    sum
}

/// Nanoseconds for a look-up of each code point.
pub fn look_up(rt: &impl Clock, alloc: Global, rows: &[(u32, u32, u8)], points: &[u32]) -> Result<u128> {
    let map = CodePointTrie::try_from_runs(alloc, runs_of(alloc, rows)?, 0)?;
    let mut least = u128::MAX;
    let mut all = 0u32;
    for _ in 0..200 {
        let start = Instant::now(rt)?;
        all = all.wrapping_add(sum(&map, points));
        least = least.min(start.elapsed(rt)?.as_nanos());
    }
    Ok(if all == 1 { 0 } else { least })
}
"""

ICU = r"""
#include <unicode/uchar.h>
#include <chrono>
#include <cstdint>
#include <cstdio>
#include <vector>
int main() {
  std::vector<UChar32> points;
  uint32_t x = 12345, all = 0;
  for (int i = 0; i < 1 << 16; i++) { x = x * 1103515245 + 12345; points.push_back((x >> 8) % 0x110000); }
  double least = 1e9;
  for (int i = 0; i < 200; i++) {
    auto start = std::chrono::steady_clock::now();
    for (UChar32 c : points) all += u_charType(c);
    double spent = std::chrono::duration<double>(std::chrono::steady_clock::now() - start).count();
    if (spent < least) least = spent;
  }
  printf("%.2f ns a look-up (sum %u)\n", least * 1e9 / points.size(), all);
}
"""


def text_of(runs):
    return "".join(f"{start} {end} {value}\n" for start, end, value in runs)


def copy_search(crates):
    """Copies the crate of that commit under a name of its own."""
    archive = subprocess.run(["git", "archive", SEARCH, "crates/cp_trie"], cwd=TOP, stdout=subprocess.PIPE, check=True)
    subprocess.run(["tar", "x", "-C", str(crates.parent)], input=archive.stdout, check=True)
    (crates / "cp_trie").rename(crates / "cp_trie_search")
    for path in (crates / "cp_trie_search").rglob("*.*"):
        if path.is_file():
            text = path.read_text(encoding="utf-8")
            path.write_text(text.replace("cp_trie", "cp_trie_search"), encoding="utf-8")


def write_repository(folder, crate):
    """A repository with the crate and a program that times it. The two crates have a program each, since the code of one
    moves that of the other, and the loop of the search that gathers runs takes a fifth more or less by where it stands."""
    crates = folder / "crates"
    shutil.copytree(TOP / "crates" / "cp_invlist", crates / "cp_invlist", ignore=shutil.ignore_patterns("out"))
    if crate == "cp_trie":
        shutil.copytree(TOP / "crates" / crate, crates / crate, ignore=shutil.ignore_patterns("out"))
    else:
        copy_search(crates)
    source = crates / "lookups" / "src"
    source.mkdir(parents=True)
    modules, calls = "", ""
    for value in ("u8", "u32"):
        name = f"values_{value}"
        modules += f"mod {name};\n"
        calls += f'    let built = {name}::build(&rt, alloc, &rows)?;\n'
        calls += f'    let read = {name}::look_up(&rt, alloc, &rows, &points)?;\n'
        calls += f'    println!(rt; "{crate} {value} {{built}} {{read}}")?;\n'
        (source / f"{name}.rt").write_text(MODULE.replace("CRATE", crate).replace("VALUE", value))
    text = MAIN.replace("CODE_POINTS", CODE_POINTS).replace("MODULES", modules).replace("CALLS", calls)
    (source / "main.rt").write_text(text)
    (folder / "crates.txt").write_text(
        f"cp_invlist: thiserror\n{crate}: cp_invlist thiserror\nlookups: cp_invlist {crate} anyhow\n"
    )
    subprocess.run(["git", "init", "-q", str(folder)], check=True)
    return crates / "lookups"


def print_times(programs, title, text):
    print(f"{title}:")
    for program in programs:
        out = subprocess.run([program], input=text, stdout=subprocess.PIPE, text=True, check=True).stdout
        for line in out.splitlines():
            crate, value, built, read = line.split()
            kind = "page tables" if crate == "cp_trie" else "binary search"
            print(f"  {kind:13} {value:3}  {int(built) / 1000:7.1f} us to build  {int(read) / (1 << 16):6.2f} ns a look-up")


def print_icu(folder):
    (folder / "icu.cpp").write_text(ICU)
    made = subprocess.run(["g++", "-O2", "-o", folder / "icu", folder / "icu.cpp", "-licuuc"], stderr=subprocess.DEVNULL)
    if made.returncode == 0:
        print("ICU4C's u_charType: " + subprocess.run([folder / "icu"], stdout=subprocess.PIPE, text=True).stdout.strip())
    else:
        print("no ICU4C to compile against")


def main():
    runs = category_runs()
    with tempfile.TemporaryDirectory() as name:
        folder = Path(name)
        programs = [build(write_repository(folder / crate, crate)) for crate in ("cp_trie_search", "cp_trie")]
        for _ in range(2):
            print_times(programs, f"General_Category, {len(runs)} runs", text_of(runs))
            print_times(programs, "one run", text_of([[0, 0x10FFFF, 5]]))
        print_icu(folder)


main()
