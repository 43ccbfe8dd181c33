#!/usr/bin/env python3
"""Times the printing of tables with settings of their columns, rows or cells, of long cells, and with
stored sizes.

A small program prints tables of words into a text that is large enough from the second round on. Printed
are the medians and the shortest of its 15 rounds: the time a printed byte, which may grow with no more than
the logarithm of the settings, and the time a row of the table or a line of long cells, which stays the same
where printing is linear; then the time that a setting took.

Tables of words have 100 columns, or as many as are given. An alignment or a padding was set for each
column, row or cell, or one of 3 or 4 columns for all cells; an even one is the same of 4 columns for each,
so that what is printed is that of the one for all; in the stored ones the estimated sizes were stored. With
--tall one word of five has two lines, and so has each row of 3 columns and more. Long cells are of 5 to 15
columns; 1, 100 or 1,000 of them make a row.

With --instructions the program runs under valgrind and prints tables of 1,000 rows: the instructions a
cell, and the share of those of a table that prints as many bytes with nothing set for a part. With --shares
it prints them in 9 interleaved rounds: the shares of the processor time, the median of the shares and the
share of the shortest times. All three have bars.
"""

import collections
import os
import statistics

import building
import measuring

ROUNDS = 9

# The columns of the tables of words, if none are given.
COLUMNS = 100

# What is set in them; the program has the same.
KINDS = (
    "nothing",
    "all,3",
    "all,4",
    "aligned,columns",
    "padded,columns",
    "aligned,rows",
    "padded,rows",
    "aligned,cells",
    "padded,cells",
    "even,columns",
    "even,rows",
    "even,cells",
)

# The table with nothing set for a part, only a padding of so many columns for all cells, that prints as many bytes.
ALIKE = {
    "padded,columns": "all,3",
    "padded,rows": "all,4",
    "padded,cells": "all,4",
    "even,columns": "all,4",
    "even,rows": "all,4",
    "even,cells": "all,4",
}

# The crates that the program names.
USED = ("tabled_grid", "tabled_size", "tabled_config", "tabled_base")

# The most instructions a cell with nothing set for a part, for these columns.
NOTHING = {
    100: {"estimated": 140, "stored": 220},
    6: {"estimated": 205, "stored": 340},
}

# The time of a line of the longest table, of that of the shortest.
GROWTH = 1.3

# The greatest shares of instructions, and of time, of a table that prints as many bytes. Those of columns
# and rows are to be 1.0 and those of cells 2.0: the rows of few columns miss that.
SHARES = {
    "aligned,columns": 1.05,
    "padded,columns": 1.05,
    "aligned,rows": 1.20,
    "padded,rows": 1.20,
    "aligned,cells": 1.40,
    "padded,cells": 1.70,
}

PROGRAM = """\
//! Times the printing of tables.
#![tactic(auto)]
ghost use Rattle.std.specs.Prelude.{◌≡◌, IfOk, vec_len};

use std::alloc::{AllocError, Global};
use std::env;
use std::time::Instant;
use tabled_base::{Builder, Entity, TableError, Text, VecRecords};
use tabled_config::{AlignmentHorizontal, Indent, Sides, SpannedConfig, Style};
use tabled_grid::print_standing;
use tabled_size::{CompleteDimension, Estimate};

const ROUNDS: usize = 15;

const COLUMNS: usize = @COLUMNS@;

const KINDS: [&str; 12] = [
    "nothing",
    "all,3",
    "all,4",
    "aligned,columns",
    "padded,columns",
    "aligned,rows",
    "padded,rows",
    "aligned,cells",
    "padded,cells",
    "even,columns",
    "even,rows",
    "even,cells",
];

const WORDS: [&str; 5] = ["amber", "cedar", "fjord and@SPACE@inlet", "oasis", "a weir"];

fn words(alloc: Global, columns: usize) -> Result<Vec<&'static str>, AllocError>
    ensures { IfOk result (λ v. vec_len v ≡ columns) }
{
    let mut row = vec![in alloc; ""; columns]?;
    for column in 0..columns {
        row[column] = WORDS[column % 5];
    }
    Ok(row)
}

type Cells = VecRecords<Text<String>>;

fn cells_of(alloc: Global, row: &[&str], rows: usize) -> Result<Cells, TableError> {
    let mut builder = Builder::new(alloc);
    for _row in 0..rows {
        builder.add_record(row.iter().copied())?;
    }
    Ok(builder.build())
}

fn between(left: usize, right: usize) -> Sides<Indent> {
    Sides::new(Indent::spaced(left), Indent::spaced(right), Indent::zero(), Indent::zero())
}

fn spaced(size: usize) -> Sides<Indent> {
    between(size, size)
}

/// The settings of a new table.
fn settings(alloc: Global) -> Result<SpannedConfig, TableError> {
    let mut config = SpannedConfig::new(alloc);
    config.set_borders(Style::ascii().get_borders());
    config.set_padding(Entity::Global, spaced(1))?;
    Ok(config)
}

fn pad(config: &mut SpannedConfig, row: usize, column: usize) -> Result<(), TableError> {
    let size = 1 + (row % 3 + column % 2) % 2;
    config.set_padding(Entity::Cell(row, column), spaced(size))
}

fn align(config: &mut SpannedConfig, row: usize, column: usize) -> Result<(), TableError> {
    let alignment = if (row % 3 + column % 2) % 2 == 0 {
        AlignmentHorizontal::Right
    } else {
        AlignmentHorizontal::Center
    };
    config.set_alignment_horizontal(Entity::Cell(row, column), alignment)
}

fn pad_cells(config: &mut SpannedConfig, rows: usize, columns: usize) -> Result<(), TableError> {
    for row in 0..rows {
        for column in 0..columns {
            pad(config, row, column)?;
        }
    }
    Ok(())
}

fn align_cells(config: &mut SpannedConfig, rows: usize, columns: usize) -> Result<(), TableError> {
    for row in 0..rows {
        for column in 0..columns {
            align(config, row, column)?;
        }
    }
    Ok(())
}

fn set_columns(config: &mut SpannedConfig, columns: usize, padded: bool) -> Result<(), TableError> {
    for column in 0..columns {
        let place = Entity::Column(column);
        if padded {
            config.set_padding(place, spaced(1 + column % 2))?;
        } else {
            config.set_alignment_horizontal(place, AlignmentHorizontal::Right)?;
        }
    }
    Ok(())
}

fn set_rows(config: &mut SpannedConfig, rows: usize, padded: bool) -> Result<(), TableError> {
    for row in 0..rows {
        let place = Entity::Row(row);
        if padded {
            config.set_padding(place, spaced(1 + row % 2))?;
        } else {
            config.set_alignment_horizontal(place, AlignmentHorizontal::Right)?;
        }
    }
    Ok(())
}

/// The same padding for each of some parts.
fn pad_evenly(config: &mut SpannedConfig, kind: &str, rows: usize) -> Result<(), TableError> {
    match kind {
        "even,columns" => {
            for column in 0..COLUMNS {
                config.set_padding(Entity::Column(column), spaced(2))?;
            }
        }
        "even,rows" => {
            for row in 0..rows {
                config.set_padding(Entity::Row(row), spaced(2))?;
            }
        }
        "even,cells" => {
            for row in 0..rows {
                for column in 0..COLUMNS {
                    config.set_padding(Entity::Cell(row, column), spaced(2))?;
                }
            }
        }
        _ => {}
    }
    Ok(())
}

fn configured(alloc: Global, kind: &str, rows: usize) -> Result<SpannedConfig, TableError> {
    let mut config = settings(alloc)?;
    match kind {
        "all,3" => config.set_padding(Entity::Global, between(1, 2))?,
        "all,4" => config.set_padding(Entity::Global, between(2, 2))?,
        "aligned,columns" => set_columns(&mut config, COLUMNS, false)?,
        "padded,columns" => set_columns(&mut config, COLUMNS, true)?,
        "aligned,rows" => set_rows(&mut config, rows, false)?,
        "padded,rows" => set_rows(&mut config, rows, true)?,
        "aligned,cells" => align_cells(&mut config, rows, COLUMNS)?,
        "padded,cells" => pad_cells(&mut config, rows, COLUMNS)?,
        _ => pad_evenly(&mut config, kind, rows)?,
    }
    Ok(config)
}

fn time(
    rt: &HostRuntime,
    name: &str,
    cells: &Cells,
    config: &SpannedConfig,
    sizes: &CompleteDimension,
    units: usize,
    rounds: usize,
) -> Result<(), anyhow::Error> {
    let mut text = String::new(rt.alloc());
    for _round in 0..rounds {
        text.clear();
        let start = Instant::now(rt)?;
        print_standing(&mut text, cells, config, sizes)?;
        let time = start.elapsed(rt)?.as_nanos();
        let bytes = text.len();
        println!(rt; "{name} {units} {bytes} {time}")?;
    }
    Ok(())
}

/// Once with estimated sizes, and once with these stored.
fn measure(
    rt: &HostRuntime,
    name: &str,
    cells: &Cells,
    config: &SpannedConfig,
    units: usize,
) -> Result<(), anyhow::Error> {
    let mut sizes = CompleteDimension::new(rt.alloc());
    time(rt, name, cells, config, &sizes, units, ROUNDS)?;
    sizes.estimate(cells, config)?;
    println!(rt; "stored 0 0 0")?;
    time(rt, name, cells, config, &sizes, units, ROUNDS)?;
    println!(rt; "estimated 0 0 0")?;
    Ok(())
}

fn measure_words(rt: &HostRuntime, rows: usize) -> Result<(), anyhow::Error> {
    let alloc = rt.alloc();
    let row = words(alloc, COLUMNS)?;
    let cells = cells_of(alloc, &row, rows)?;
    for kind in KINDS {
        let start = Instant::now(rt)?;
        let config = configured(alloc, kind, rows)?;
        let time = start.elapsed(rt)?.as_nanos();
        if kind == "padded,cells" {
            println!(rt; "setting {rows} 0 {time}")?;
        }
        measure(rt, kind, &cells, &config, rows)?;
    }
    Ok(())
}

/// So many rounds of a table of 1,000 rows.
fn print_kind(rt: &HostRuntime, kind: &str, stored: bool, rounds: usize) -> Result<(), anyhow::Error> {
    let alloc = rt.alloc();
    let row = words(alloc, COLUMNS)?;
    let cells = cells_of(alloc, &row, 1000)?;
    let config = configured(alloc, kind, 1000)?;
    let mut sizes = CompleteDimension::new(alloc);
    if stored {
        sizes.estimate(&cells, &config)?;
    }
    time(rt, kind, &cells, &config, &sizes, 1000, rounds)
}

fn long_text(alloc: Global, lines: usize) -> Result<String, AllocError> {
    let mut text = String::new(alloc);
    for line in 0..lines {
        if line > 0 {
            text.push('\\n')?;
        }
        text.push_str(WORDS[line % 5])?;
    }
    Ok(text)
}

fn measure_long(rt: &HostRuntime, name: &str, lines: usize, columns: usize) -> Result<(), anyhow::Error> {
    let alloc = rt.alloc();
    let text = long_text(alloc, lines)?;
    let row = vec![in alloc; text.as_str(); columns]?;
    let cells = cells_of(alloc, &row, 1)?;
    let config = settings(alloc)?;
    measure(rt, name, &cells, &config, lines)
}

fn measure_all(rt: &HostRuntime) -> Result<(), anyhow::Error> {
    for rows in [100, 300, 1000, 3000] {
        measure_words(rt, rows)?;
    }
    for lines in [1000, 10_000, 100_000, 300_000] {
        measure_long(rt, "1,long", lines, 1)?;
    }
    for lines in [100, 300, 1000, 3000] {
        measure_long(rt, "100,long", lines, 100)?;
    }
    for lines in [10, 30, 100, 300] {
        measure_long(rt, "1000,long", lines, 1000)?;
    }
    Ok(())
}

fn main(rt: HostRuntime) -> Result<(), anyhow::Error> {
    let mut words = env::args(&rt)?.skip(1);
    let (Some(kind), Some(sizes), Some(rounds)) = (words.next(), words.next(), words.next()) else {
        return measure_all(&rt);
    };
    let rounds = rounds.as_str().parse().unwrap_or(1);
    print_kind(&rt, kind.as_str(), sizes.as_str() == "stored", rounds)
}
"""


def alike(kind):
    return ALIKE.get(kind, "nothing")


def show_times(bars, program, asked):
    """All tables and rounds of the program."""
    found = collections.defaultdict(list)
    stored = ""
    for row in measuring.output([program]).decode().splitlines():
        name, rows, size, time = row.split()
        if name in ("stored", "estimated"):
            stored = ",stored" if name == "stored" else ""
        else:
            found[name + stored, int(rows), int(size)].append(int(time))
    head = f"{'table':23} {'rows or lines':>13} {'bytes':>10} {'ms':>8} {'shortest':>8}"
    print(f"{head} {'ns a byte':>9} {'us a line':>9}")
    for (name, rows, size), times in sorted(found.items()):
        show_time(name, rows, size, times, asked.columns)
    judge_growth(bars, found)


def show_time(name, rows, size, times, columns):
    time, least = statistics.median(times), min(times)
    if name == "setting":
        print(f"{name:23} {rows:13,} {time / 1e6:8.2f} {time / rows / columns:9.1f} ns a setting")
    else:
        line = f"{name:23} {rows:13,} {size:10,} {time / 1e6:8.2f} {least / 1e6:8.2f}"
        print(f"{line} {time / size:9.2f} {time / rows / 1000:9.3f}")


def judge_growth(bars, found):
    lines = collections.defaultdict(dict)
    for (name, rows, _), times in found.items():
        if name != "setting":
            lines[name][rows] = min(times) / rows
    for name, times in sorted(lines.items()):
        most, fewest = max(times), min(times)
        what = f"{name}, a line of {most}, of one of {fewest}"
        bars.at_most(what, times[most] / times[fewest], GROWTH)


def show_instructions(bars, program, asked):
    for sizes in ("estimated", "stored"):
        found = {}
        for kind in KINDS:
            twice, four = (measuring.instructions([program, kind, sizes, rounds]) for rounds in (2, 4))
            found[kind] = (four - twice) / 2 / 1000 / asked.columns
            print(f"{kind:15} {sizes:9} {found[kind]:7.1f} instructions a cell", flush=True)
        if asked.columns in NOTHING and not asked.tall:
            most = NOTHING[asked.columns][sizes]
            bars.at_most(f"nothing, {sizes}, instructions a cell", found["nothing"], most)
        for kind, most in SHARES.items():
            bars.at_most(f"{kind}, {sizes}, of {alike(kind)}", found[kind] / found[alike(kind)], most)


def processor_time(program, kind, sizes, rounds):
    """The seconds of a processor that a run takes, without another process, since the runs are short."""
    child = os.fork()
    if child == 0:
        os.dup2(os.open(os.devnull, os.O_WRONLY), 1)
        os.execv(program, [str(program), kind, sizes, str(rounds)])
    _, status, usage = os.wait4(child, 0)
    if status != 0:
        raise SystemExit(f"{kind} {sizes} ended with {os.waitstatus_to_exitcode(status)}")
    return usage.ru_utime + usage.ru_stime


def show_shares(bars, program, asked):
    printed = max(200, 6000 // asked.columns)
    for sizes in ("estimated", "stored"):

        def printing(kind):
            long = processor_time(program, kind, sizes, 20 + printed)
            return long - processor_time(program, kind, sizes, 20)

        calls = {kind: lambda kind=kind: printing(kind) for kind in KINDS}
        found = measuring.interleaved(asked.rounds, calls)
        for kind in KINDS:
            base = found[alike(kind)]
            share = statistics.median(time / alone for time, alone in zip(found[kind], base))
            least = min(found[kind]) / min(base)
            of = f"of the processor time of {alike(kind)}"
            print(f"{kind:15} {sizes:9} {share:5.2f} {of}, {least:5.2f} of the shortest", flush=True)
            if kind in SHARES:
                bars.at_most(f"{kind}, {sizes}", share, SHARES[kind])


def main():
    arguments = building.parser(__doc__, ROUNDS)
    way = arguments.add_mutually_exclusive_group()
    way.add_argument("--instructions", dest="show", action="store_const", const=show_instructions)
    way.add_argument("--shares", dest="show", action="store_const", const=show_shares)
    arguments.add_argument("--columns", type=int, default=COLUMNS)
    arguments.add_argument("--tall", action="store_true")
    asked = arguments.parse_args()
    bars = measuring.Bars()
    space = "\\n" if asked.tall else " "
    source = PROGRAM.replace("@COLUMNS@", str(asked.columns)).replace("@SPACE@", space)
    crates = building.standing_on("tabled_grid")
    with building.builder(asked) as build:
        program = build.small("setting_times", crates, {"src/main.rt": source}, USED)
        (asked.show or show_times)(bars, program, asked)
    bars.end()


main()
