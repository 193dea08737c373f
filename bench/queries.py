#!/usr/bin/env python3
"""Times look-ups in a set and a map of a database, at random code points: `contains32` of Alphabetic, without an index and
with one, and `get32` of General_Category.

Usage: bench/queries.py TABLES, a table text with both. It needs `rt`, and takes what checks of the crates have kept, so
that only the program that measures is proved. Each time is the least of many: others may use the machine too.
"""

import subprocess
import sys
import tempfile
from pathlib import Path

from measured import CODE_POINTS, build, write_repository

STANDS_ON = "prop_binary prop_data prop_query prop_values cp_trie cp_invlist anyhow".split()

MAIN = """//! Times look-ups in the sets and maps of a database.
#![tactic(auto)]

use anyhow::{Context, Result};
use prop_binary::Alphabetic;
use prop_data::PropertyDatabase;
use prop_query::{CodePointMapData, CodePointMapDataBorrowed, CodePointSetData, CodePointSetDataBorrowed};
use prop_values::GeneralCategory;
use std::alloc::Global;
use std::rt::Clock;
use std::time::Instant;

CODE_POINTS
fn members(set: CodePointSetDataBorrowed<'_>, points: &[u32]) -> u32 {
    let mut count = 0u32;
    for c in points {
        if set.contains32(*c) {
            count = count.saturating_add(1);
        }
    }
    count
}

fn letters(map: CodePointMapDataBorrowed<'_, GeneralCategory>, points: &[u32]) -> u32 {
    let mut count = 0u32;
    for c in points {
        if map.get32(*c) == GeneralCategory::LowercaseLetter {
            count = count.saturating_add(1);
        }
    }
    count
}

fn with_index(alloc: Global, database: &PropertyDatabase) -> Result<CodePointSetData> {
    let mut set = CodePointSetData::try_new_unstable::<Alphabetic>(alloc, database).ok().context("no set")?;
    set.index(alloc)?;
    Ok(set)
}

fn time_of(rt: &impl Clock, set: CodePointSetDataBorrowed<'_>, points: &[u32]) -> Result<(u32, u128)> {
    let mut least = u128::MAX;
    let mut found = 0u32;
    for _ in 0..200 {
        let start = Instant::now(rt)?;
        found = members(set, points);
        least = least.min(start.elapsed(rt)?.as_nanos());
    }
    Ok((found, least))
}

fn time_of_set(rt: &impl Clock, database: &PropertyDatabase, points: &[u32]) -> Result<(u32, u128)> {
    let set = CodePointSetData::new::<Alphabetic>(database).ok().context("no set")?;
    time_of(rt, set, points)
}

fn time_with_index(rt: &impl Clock, alloc: Global, database: &PropertyDatabase, points: &[u32]) -> Result<(u32, u128)> {
    let set = with_index(alloc, database)?;
    time_of(rt, set.as_borrowed(), points)
}

fn time_of_map(rt: &impl Clock, alloc: Global, database: &PropertyDatabase, points: &[u32]) -> Result<(u32, u128)> {
    let map = CodePointMapData::<GeneralCategory>::new(alloc, database).ok().context("no map")?;
    let mut least = u128::MAX;
    let mut found = 0u32;
    for _ in 0..200 {
        let start = Instant::now(rt)?;
        found = letters(map.as_borrowed(), points);
        least = least.min(start.elapsed(rt)?.as_nanos());
    }
    Ok((found, least))
}

fn main(rt: HostRuntime) -> Result<()> {
    let alloc = rt.alloc();
    let mut text = String::new(alloc);
    for line in rt.lines(alloc) {
        text.push_str(line?.as_str())?;
        text.push('\\n')?;
    }
    let database = PropertyDatabase::from_text(alloc, &text).ok().context("tables")?;
    let points = code_points(alloc)?;
    let (found, least) = time_of_set(&rt, &database, &points)?;
    println!(rt; "contains32 {found} {least}")?;
    let (found, least) = time_with_index(&rt, alloc, &database, &points)?;
    println!(rt; "contains32-with-index {found} {least}")?;
    let (found, least) = time_of_map(&rt, alloc, &database, &points)?;
    println!(rt; "get32 {found} {least}")?;
    Ok(())
}
"""


def main():
    tables = Path(sys.argv[1]).read_bytes()
    with tempfile.TemporaryDirectory() as name:
        text = MAIN.replace("CODE_POINTS", CODE_POINTS)
        program = build(write_repository(Path(name), "queries", STANDS_ON, {"main.rt": text}))
        for line in subprocess.run([program], input=tables, stdout=subprocess.PIPE, check=True).stdout.decode().splitlines():
            call, found, least = line.split()
            each = int(least) / (1 << 16)
            print(f"{call}: {each:.2f} ns a look-up, {1000 / each:.0f} million a second ({found} of 65536 found)")


main()
