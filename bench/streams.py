#!/usr/bin/env python3
"""Measures tables that are printed row by row, and tables that keep their rows.

For each number of rows a small program runs anew: three short cells a row, made one after another, are
printed to a writer that counts bytes and keeps none of them, by an `IterTable` that reads 1,000 rows
ahead, and, up to 1,000,000 rows, by a `Table`. The first rows have the widest cells, so both print the
same bytes, which is tested by their number. Printed are the shortest time of the rounds, from the first
row made to the last byte, in milliseconds and in nanoseconds a row, and the greatest peak of the
process's memory; then the bars.
"""

import sys

import building
import measuring

ROUNDS = 9
ROWS = (1_000, 10_000, 100_000, 1_000_000, 10_000_000)
MOST_KEPT = 1_000_000

# The number of rows from which memory and the time a row may not grow, and by how much they may.
BASE = 10_000
PEAK_SHARE = 1.1
TIME_SHARE = 1.3

# The greatest share of the time of a `Table` of the same rows.
TABLE_SHARE = 0.90

PROGRAM = """\
//! Prints a table of so many rows to a writer that counts, row by row or once all are kept.
#![tactic(auto)]

mod counting;

use counting::Counter;
use std::alloc::Global;
use std::time::Instant;
use std::{env, io};
use tabled::tables::IterTable;
use tabled::{IoSink, Table, TableError};

const ROWS: [[&str; 3]; 4] = [
    ["amber", "1815", "a weir"],
    ["cedar", "7", "oasis"],
    ["fjord", "190634", ""],
    ["inlet", "22", "by the sea"],
];

fn stream(alloc: Global, rows: usize, counter: &mut Counter) -> Result<(), TableError> {
    let mut table = IterTable::new((0..rows).map(|row| ROWS[row % 4]));
    table.sniff(1000);
    table.build(alloc, counter)
}

fn keep(alloc: Global, rows: usize, counter: &mut Counter) -> Result<(), TableError> {
    let table = Table::from_iter(alloc, (0..rows).map(|row| ROWS[row % 4]))?;
    table.write_to(&mut IoSink::new(counter))
}

fn main(rt: HostRuntime) -> Result<(), anyhow::Error> {
    let alloc = rt.alloc();
    let mut kept = false;
    let mut rows: usize = 0;
    for word in env::args(&rt)?.skip(1) {
        match word.as_str().parse() {
            Ok(count) => rows = count,
            Err(_) => kept = true,
        }
    }
    let mut counter = Counter { bytes: 0 };
    let start = Instant::now(&rt)?;
    if kept {
        keep(alloc, rows, &mut counter)?;
    } else {
        stream(alloc, rows, &mut counter)?;
    }
    let time = start.elapsed(&rt)?.as_nanos();
    let bytes = counter.bytes;
    println!(rt; "{time} {bytes}")?;
    // Its peak is read before the end of its input.
    io::read_to_string(alloc, &mut rt.stdin())?;
    Ok(())
}
"""


def measure(program, kinds, rows, rounds):
    """For each kind the shortest time a row, the greatest peak, and the printed bytes."""
    words = {"IterTable": [], "Table": ["kept"]}
    calls = {kind: lambda kind=kind: measuring.own_clock([program, rows, *words[kind]]) for kind in kinds}
    found = {}
    for kind, runs in measuring.interleaved(rounds, calls).items():
        if None in runs:
            sys.exit(f"{kind} failed")
        times, sizes, peaks = zip(*runs)
        time, peak = min(times), max(peaks)
        print(
            f"{kind:9} {rows:>10} rows  {time / 1e6:9.2f} ms  {time / rows:7.1f} ns a row"
            f"  {peak / 1e6:8.2f} MB",
            flush=True,
        )
        found[kind] = (time / rows, peak, sizes[0])
    return found


def judge(bars, measured):
    streams = {rows: found["IterTable"] for rows, found in measured.items()}
    tables = {rows: found["Table"] for rows, found in measured.items() if "Table" in found}
    bars.true("both print as many bytes", all(streams[rows][2] == table[2] for rows, table in tables.items()))
    time, peak, _ = streams[BASE]
    more = [found for rows, found in streams.items() if rows > BASE]
    bars.at_most(f"peak, of that over {BASE}", max(found[1] for found in more) / peak, PEAK_SHARE)
    bars.at_most(f"time a row, of that over {BASE}", max(found[0] for found in more) / time, TIME_SHARE)
    shares = [streams[rows][0] / table[0] for rows, table in tables.items()]
    bars.at_most("time, of that of Table", max(shares), TABLE_SHARE)


def main():
    asked = building.parser(__doc__, ROUNDS).parse_args()
    bars = measuring.Bars()
    files = {"src/main.rt": PROGRAM, "src/counting.rt": measuring.COUNTER}
    with building.builder(asked) as build:
        program = build.small("stream_times", building.TABLED, files)
        kinds = {rows: ("IterTable", "Table") if rows <= MOST_KEPT else ("IterTable",) for rows in ROWS}
        judge(bars, {rows: measure(program, kinds[rows], rows, asked.rounds) for rows in ROWS})
    bars.end()


main()
