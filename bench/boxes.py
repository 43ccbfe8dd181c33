#!/usr/bin/env python3
"""Measures tables of records and tables of boxes, by their sizes.

A small program runs anew for each table:

- records: of ten fields, shown line by line;
- boxes: rows of ten texts, drawn as boxes;
- zero-width: rows of ten texts without padding, one of which is given no columns, so that the boxes are
  drawn one by one and joined;
- tall: two texts of many lines, and a short one between them;
- zero-tall: the same without padding, beside a text that is given no columns;
- levels: a text in levels of rows and columns that each have one more text;
- zero-levels: the same without padding, around a text that is given no columns;
- nested: a text in levels of rows and columns that have nothing else.

Printing a nested level takes the same few instructions, whatever the number of levels, and one read of
memory, which takes most of the time. So the bar of linear time compares two counts that both exceed the
caches: at 144 bytes a level, they take 45 and 430 MB.

A table is printed to a writer that counts bytes and keeps none. The time is that from the first to the
last byte, without making the table. Printed are the shortest time of the rounds, also for each byte, and
the greatest peak memory; then the bars. With --instructions: the instructions a byte of making and
printing 3,000 rows of boxes.
"""

import building
import measuring

ROUNDS = 25
TABLES = {
    "records": (100, 1_000, 10_000),
    "boxes": (100, 300, 1_000, 3_000, 30_000),
    "zero-width": (100, 3_000, 30_000),
    "tall": (2_000, 20_000),
    "zero-tall": (2_000, 20_000),
    "levels": (30, 100, 300, 1_000),
    "zero-levels": (300, 1_000, 2_000),
    "nested": (300_000, 3_000_000),
}

# Nanoseconds a byte of the largest tables.
TIMES = {
    ("records", 10_000): 1.9,
    ("boxes", 3_000): 15,
    ("boxes", 30_000): 15,
    ("zero-width", 3_000): 45,
    ("zero-width", 30_000): 45,
    ("tall", 20_000): 7.1,
    ("zero-tall", 20_000): 12.8,
    ("levels", 1_000): 3.9,
    ("zero-levels", 1_000): 91,
}

# The nanoseconds a byte of a table, of those of a smaller one. Around a text that is given no columns
# each row copies the lines of the boxes in it, so that deeper levels take longer.
GROWTHS = {
    ("boxes", 3_000, 100): 1.3,
    ("boxes", 30_000, 100): 1.3,
    ("tall", 20_000, 2_000): 1.3,
    ("zero-tall", 20_000, 2_000): 1.3,
    ("zero-levels", 2_000, 1_000): 2.0,
}

# The time of ten times as many nested levels.
NESTED = (300_000, 3_000_000)
NESTED_SHARE = 13

COUNTED = ("boxes", 3_000)
INSTRUCTIONS = 155

PROGRAM = """\
//! Prints a table of n records, rows of boxes, lines or levels to a writer that counts.
#![tactic(auto)]

mod counting;

use counting::Counter;
use std::alloc::Global;
use std::time::Instant;
use std::{env, io};
use tabled_base::TableError;
use tabled_extended::ExtendedTable;
use tabled_line::IoSink;
use tabled_pool::{PoolTable, TableValue};
use tabled_set::Padding;

const FIELDS: [&str; 10] = [
    "name", "year", "place", "kind", "colour", "weight", "owner", "since", "rank", "note",
];

const TEXTS: [[&str; 10]; 2] = [
    [
        "amber", "1815", "a weir", "river", "brown", "7", "Ada", "1906", "first", "",
    ],
    [
        "fjord",
        "190634",
        "by the sea",
        "bay",
        "blue",
        "22",
        "Grace",
        "7",
        "second",
        "oasis",
    ],
];

// So many rows of ten texts.
fn rows(alloc: Global, count: usize) -> Result<Vec<[&'static str; 10]>, TableError> {
    let mut rows = Vec::new(alloc);
    for row in 0..count {
        rows.push(TEXTS[row % 2])?;
    }
    Ok(rows)
}

// So many rows of ten texts, one of which is given no columns.
fn zero_width(alloc: Global, count: usize) -> Result<PoolTable, TableError> {
    let mut texts = TEXTS[1];
    texts[1] = "";
    let mut rows = Vec::new(alloc);
    for _row in 0..count {
        rows.push(texts)?;
    }
    let mut table = PoolTable::new(alloc, rows)?;
    table.with(Padding::zero())?;
    Ok(table)
}

fn records(alloc: Global, count: usize) -> Result<ExtendedTable, TableError> {
    let mut named = Vec::new(alloc);
    named.push(FIELDS)?;
    for row in rows(alloc, count)? {
        named.push(row)?;
    }
    ExtendedTable::from_rows(alloc, named)
}

fn cell(alloc: Global, text: &str) -> Result<TableValue, TableError> {
    Ok(TableValue::Cell(String::from_str(alloc, text)?))
}

// A row of two texts of so many lines with a short one between, or with one that is given no columns.
fn tall(alloc: Global, count: usize, has_zero: bool) -> Result<PoolTable, TableError> {
    let mut text = String::from_str(alloc, "a weir")?;
    for _line in 1..count {
        text.push_str("\\nby the sea")?;
    }
    let mut children = Vec::new(alloc);
    children.push(cell(alloc, text.as_str())?)?;
    children.push(cell(alloc, if has_zero { "" } else { "a" })?)?;
    children.push(TableValue::Cell(text))?;
    let mut table = PoolTable::from_value(TableValue::Row(children));
    if has_zero {
        table.with(Padding::zero())?;
    }
    Ok(table)
}

// A text in so many rows and columns, each of which has one more text if they are wide.
fn levels(alloc: Global, text: &str, count: usize, is_wide: bool) -> Result<PoolTable, TableError> {
    let mut value = cell(alloc, text)?;
    for level in 0..count {
        let mut children = Vec::new(alloc);
        if is_wide {
            children.push(cell(alloc, "a")?)?;
        }
        children.push(value)?;
        value = if level % 2 == 0 {
            TableValue::Row(children)
        } else {
            TableValue::Column(children)
        };
    }
    Ok(PoolTable::from_value(value))
}

// The same around a text that is given no columns.
fn zero_levels(alloc: Global, count: usize) -> Result<PoolTable, TableError> {
    let mut table = levels(alloc, "", count, true)?;
    table.with(Padding::zero())?;
    Ok(table)
}

// The nanoseconds that printing takes.
fn timed(
    rt: &HostRuntime,
    kind: &str,
    count: usize,
    counter: &mut Counter,
) -> Result<u128, anyhow::Error> {
    let alloc = rt.alloc();
    let mut sink = IoSink::new(counter);
    if kind == "records" {
        let table = records(alloc, count)?;
        let start = Instant::now(rt)?;
        table.write_to(&mut sink)?;
        return Ok(start.elapsed(rt)?.as_nanos());
    }
    let table = if kind == "boxes" {
        PoolTable::new(alloc, rows(alloc, count)?)?
    } else if kind == "zero-width" {
        zero_width(alloc, count)?
    } else if kind == "tall" || kind == "zero-tall" {
        tall(alloc, count, kind == "zero-tall")?
    } else if kind == "zero-levels" {
        zero_levels(alloc, count)?
    } else {
        levels(alloc, "a", count, kind == "levels")?
    };
    let start = Instant::now(rt)?;
    table.write_to(&mut sink)?;
    Ok(start.elapsed(rt)?.as_nanos())
}

fn main(rt: HostRuntime) -> Result<(), anyhow::Error> {
    let words = env::args(&rt)?;
    let mut kind = String::new(rt.alloc());
    let mut count: usize = 0;
    for word in words.skip(1) {
        match word.as_str().parse() {
            Ok(number) => count = number,
            Err(_) => kind = word,
        }
    }
    let mut counter = Counter { bytes: 0 };
    let time = timed(&rt, &kind, count, &mut counter)?;
    let bytes = counter.bytes;
    println!(rt; "{time} {bytes}")?;
    // Its peak is read before the end of its input.
    io::read_to_string(rt.alloc(), &mut rt.stdin())?;
    Ok(())
}
"""


def measure(program, rounds):
    """The runs of all tables in interleaved rounds."""
    tables = [(kind, count) for kind, counts in TABLES.items() for count in counts]
    calls = {table: lambda table=table: measuring.own_clock([program, *table]) for table in tables}
    return measuring.interleaved(rounds, calls)


def show(kind, count, runs):
    """Prints the shortest time and the greatest peak of the runs. Returns that time, and the time a
    byte, or nothing if a run failed."""
    if None in runs:
        return None, None
    times, sizes, peaks = zip(*runs)
    time, size = min(times), sizes[0]
    print(
        f"{kind:11} {count:>7}  {size:>9} bytes  {time / 1e6:9.2f} ms"
        f"  {time / size:8.1f} ns a byte  {max(peaks) / 1e6:7.2f} MB",
        flush=True,
    )
    return time, time / size


def judge(bars, found):
    for (kind, count), most in TIMES.items():
        bars.at_most(f"{kind}, {count}, ns a byte", found[kind, count][1], most)
    for (kind, more, fewer), most in GROWTHS.items():
        growth = measuring.share(found[kind, more][1], found[kind, fewer][1])
        bars.at_most(f"{kind}, a byte of {more}, of one of {fewer}", growth, most)
    fewer, more = (found["nested", count][0] for count in NESTED)
    bars.at_most(f"{NESTED[1]} nested levels, of {NESTED[0]}", measuring.share(more, fewer), NESTED_SHARE)


def count_instructions(bars, program):
    """Those of a table, less those of one row."""
    kind, count = COUNTED
    size = measuring.own_clock([program, kind, count])[1]
    more = measuring.instructions([program, kind, count]) - measuring.instructions([program, kind, 1])
    bars.at_most(f"{kind}, {count}, instructions a byte", more / size, INSTRUCTIONS)


def main():
    arguments = building.parser(__doc__, ROUNDS)
    arguments.add_argument("--instructions", action="store_true")
    asked = arguments.parse_args()
    bars = measuring.Bars()
    crates = building.standing_on("tabled_pool", "tabled_extended", "tabled_set")
    used = ("tabled_base", "tabled_line", "tabled_pool", "tabled_extended", "tabled_set")
    files = {"src/main.rt": PROGRAM, "src/counting.rt": measuring.COUNTER}
    with building.builder(asked) as build:
        program = build.small("box_times", crates, files, used)
        if asked.instructions:
            count_instructions(bars, program)
        else:
            runs = measure(program, asked.rounds)
            judge(bars, {table: show(*table, runs[table]) for table in runs})
    bars.end()


main()
