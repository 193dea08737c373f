#!/usr/bin/env python3
"""Times sets that are written as patterns (`to_pattern`) and read back (`parse`), at growing numbers of ranges.

Usage: bench/stored.py. It needs `rt`, and takes what checks of the crates have kept, so that only the program that
measures is proved. Each time is the least of many: others may use the machine too.
"""

import subprocess
import tempfile
from pathlib import Path

from measured import build, write_repository

STANDS_ON = "cp_invlist cp_strset prop_data uset_fault uset_parse anyhow".split()
COUNTS = (1_000, 10_000, 100_000)

MAIN = """//! Times sets that are written as patterns and read back.
#![tactic(auto)]

use anyhow::{Context, Result};
use cp_invlist::CodePointInversionList;
use cp_strset::CodePointInversionListAndStringList;
use prop_data::PropertyDatabase;
use std::alloc::Global;
use std::rt::Clock;
use std::time::Instant;
use uset_parse::parse;

const SYNTAX: &str = "set XID_Start\\n41-5A\\n61-7A\\nset XID_Continue\\n30-39\\n41-5A\\n5F\\n61-7A\\n\\
    set Pattern_White_Space\\n9-D\\n20\\nend\\n";

/// This many ranges of two code points each.
fn set_of(alloc: Global, count: u32) -> Result<CodePointInversionListAndStringList> {
    let mut list = Vec::new(alloc);
    for step in 0..count {
        let start = step.saturating_mul(8).saturating_add(0x1_0000);
        list.push(start)?;
        list.push(start.saturating_add(2))?;
    }
    let code_points = CodePointInversionList::try_from_inversion_list(alloc, &list)?;
    Ok(CodePointInversionListAndStringList::try_from(code_points, Vec::new(alloc))?)
}

/// The bytes of the pattern, and the nanoseconds for writing it and for reading it.
fn times(
    rt: &impl Clock,
    alloc: Global,
    database: &PropertyDatabase,
    set: &CodePointInversionListAndStringList,
) -> Result<(usize, u128, u128)> {
    let start = Instant::now(rt)?;
    let text = set.to_pattern(alloc)?;
    let written = start.elapsed(rt)?.as_nanos();
    let start = Instant::now(rt)?;
    let (read, length) = parse(alloc, &text, database).ok().context("not read")?;
    let taken = start.elapsed(rt)?.as_nanos();
    let whole = if read == *set { Some(length) } else { None };
    Ok((whole.context("another set")?, written, taken))
}

fn main(rt: HostRuntime) -> Result<()> {
    let alloc = rt.alloc();
    let database = PropertyDatabase::from_text(alloc, SYNTAX).ok().context("tables")?;
    for count in [COUNTS] {
        let set = set_of(alloc, count)?;
        let mut written = u128::MAX;
        let mut taken = u128::MAX;
        for _ in 0..20 {
            let (_, writing, reading) = times(&rt, alloc, &database, &set)?;
            written = written.min(writing);
            taken = taken.min(reading);
        }
        let length = set.to_pattern(alloc)?.len();
        println!(rt; "{count} {length} {written} {taken}")?;
    }
    Ok(())
}
"""


def main():
    with tempfile.TemporaryDirectory() as name:
        text = MAIN.replace("COUNTS", ", ".join(str(count) for count in COUNTS))
        program = build(write_repository(Path(name), "stored", STANDS_ON, {"main.rt": text}))
        print("| ranges | bytes | writing, ns a byte | reading, ns a byte |")
        print("|---|---|---|---|")
        for line in subprocess.run([program], stdout=subprocess.PIPE, text=True, check=True).stdout.splitlines():
            count, length, written, taken = (int(field) for field in line.split())
            print(f"| {count:,} | {length:,} | {written / length:.1f} | {taken / length:.1f} |")


main()
