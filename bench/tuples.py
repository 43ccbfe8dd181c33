#!/usr/bin/env python3
"""Times a program that makes a table of 100,000 tuples and prints it, and the baseline on the same cells.

A small program makes a `Table` of tuples of six values (numbers, texts, a truth value) with a header, and
prints that to standard output. The tuples come from an iterator, or from a vector. Making that vector
without a table is timed too, and so is a run that does nothing. The baseline, bench/baseline, prints the
same cells as a text with tabs between them. All run in interleaved rounds, their output to the null device.
Printed are the shortest and the median of the processor times (user and system) in milliseconds, as shares
of the baseline's too, and what a table of the vector takes without its making; then the bars, by the
shortest.
"""

import building
import measuring

ROUNDS = 21

# The most of the baseline's time: from an iterator, and from a vector with its making.
SHARES = {"iterator": 1.0, "vector": 1.0}

PROGRAM = """\
//! Prints a table of 100,000 tuples, with a word that of a vector of them, with two words their cells
//! with tabs between them. With three words it makes the vector alone, with four nothing.
#![tactic(auto)]

use std::alloc::{AllocError, Global};
use std::env;
use std::io::{self, BufWriter, Write};
use tabled::{IoSink, Table, TableError};

const ROWS: u64 = 100_000;

const WORDS: [&str; 8] = ["amber", "basin", "cedar", "delta", "ember", "fjord", "grove", "haven"];

type Row = (u64, &'static str, &'static str, u32, bool, i64);

fn row(number: u64) -> Row {
    let place = number % 8;
    let other = number / 8 % 8;
    let count = (number.wrapping_mul(2_654_435_761) % 100_000) as u32;
    let balance = (number.wrapping_mul(40_503) % 2_000) as i64;
    (
        number,
        WORDS[place as usize],
        WORDS[other as usize],
        count,
        number % 3 == 0,
        balance.wrapping_sub(1_000),
    )
}

fn rows(alloc: Global) -> Result<Vec<Row>, AllocError> {
    let mut rows = Vec::new(alloc);
    for number in 0..ROWS {
        rows.push(row(number))?;
    }
    Ok(rows)
}

fn cells<W: Write>(out: &mut W) -> io::Result<()> {
    write!(out, "u64\\t&str\\t&str\\tu32\\tbool\\ti64\\n")?;
    for (number, first, second, count, third, balance) in (0..ROWS).map(row) {
        write!(out, "{number}\\t{first}\\t{second}\\t{count}\\t{third}\\t{balance}\\n")?;
    }
    Ok(())
}

fn table(alloc: Global, words: usize) -> Result<Table, TableError> {
    if words > 1 {
        Table::new(alloc, rows(alloc)?)
    } else {
        Table::new(alloc, (0..ROWS).map(row))
    }
}

fn main(rt: HostRuntime) -> Result<(), anyhow::Error> {
    let words = env::args(&rt)?.count();
    let mut out = BufWriter::new(rt.alloc(), io::writer(&rt))?;
    match words {
        0..=2 => {
            table(rt.alloc(), words)?.write_to(&mut IoSink::new(&mut out))?;
            write!(out, "\\n")?;
        }
        3 => cells(&mut out)?,
        4 => write!(out, "{}\\n", rows(rt.alloc())?.len())?,
        _ => (),
    }
    out.flush()?;
    Ok(())
}
"""

# Without a word the program takes the tuples from an iterator; more words are other ways.
WORDS = {
    "iterator": [],
    "vector": ["vector"],
    "vector alone": ["the", "vector", "alone"],
    "nothing": ["no", "vector", "no", "table"],
}


def judge(bars, found):
    """Prints the times, and the bars."""
    rows = {name: (shortest, median) for name, (shortest, median, _) in found.items()}
    parts = zip(rows["vector"], rows["vector alone"], rows["nothing"])
    rows["the table of it"] = tuple(all_of - made + nothing for all_of, made, nothing in parts)
    base = rows["baseline"]
    for name, (shortest, median) in rows.items():
        shares = f"x{shortest / base[0]:.2f} x{median / base[1]:.2f}"
        print(f"{name:15} shortest {shortest * 1e3:7.1f} ms  median {median * 1e3:7.1f} ms  {shares}")
    for name, most in SHARES.items():
        bars.at_most(f"{name}, of the baseline's time", rows[name][0] / base[0], most)


def main():
    asked = building.parser(__doc__, ROUNDS).parse_args()
    bars = measuring.Bars()
    with building.builder(asked) as build, measuring.launcher() as launch:
        program = build.small("tuple_times", building.TABLED, {"src/main.rt": PROGRAM})
        cells = build.folder / "cells"
        cells.write_bytes(measuring.output([program, "all", "cells"]))
        commands = {"baseline": ([build.baseline()], cells)}
        commands |= {name: ([program, *words], cells) for name, words in WORDS.items()}
        wanted = measuring.output(*commands["baseline"])
        for name in SHARES:
            bars.true(f"{name}: the same bytes", measuring.output(*commands[name]) == wanted)
        judge(bars, measuring.timed(launch, asked.rounds, commands))
    bars.end()


main()
