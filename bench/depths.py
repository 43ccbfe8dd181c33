#!/usr/bin/env python3
"""Finds the deepest trees of boxes that a stack of 8 MiB holds.

A small program makes a tree of a number of levels and prints it as a `PoolTable`, to a writer that counts
bytes and keeps none. The number is bisected: a tree that is too deep overflows the stack, and the program
ends by a signal.

- rows, columns: each level is a row, or a column, of a text and the next level;
- zero-rows, zero-columns: the same without padding, around a text that is given no columns;
- compared: two equal trees of rows are compared, and nothing is printed.

Printed is the deepest tree of each kind; then the bars.
"""

import resource
import signal
import subprocess
import sys

import building
import measuring

STACK = 8 << 20

# The fewest levels of the deepest tree.
LEVELS = {"rows": 15_400, "columns": 15_400, "zero-rows": 11_600, "zero-columns": 11_600, "compared": 15_400}

# More levels than any stack of that size holds, and how close the number is found.
MOST = 1_000_000
STEP = 50

PROGRAM = """\
//! Prints or compares trees of n levels.
#![tactic(auto)]

mod counting;

use counting::Counter;
use std::alloc::Global;
use std::env;
use tabled_base::TableError;
use tabled_line::IoSink;
use tabled_pool::{PoolTable, TableValue};
use tabled_set::Padding;

fn cell(alloc: Global, text: &str) -> Result<TableValue, TableError> {
    Ok(TableValue::Cell(String::from_str(alloc, text)?))
}

// A text in n rows or columns, each of which has one more text.
fn tree(alloc: Global, text: &str, count: usize, is_row: bool) -> Result<PoolTable, TableError> {
    let mut value = cell(alloc, text)?;
    for _level in 0..count {
        let mut children = Vec::new(alloc);
        children.push(cell(alloc, "a")?)?;
        children.push(value)?;
        value = if is_row {
            TableValue::Row(children)
        } else {
            TableValue::Column(children)
        };
    }
    Ok(PoolTable::from_value(value))
}

fn print(alloc: Global, count: usize, is_row: bool, has_zero: bool) -> Result<usize, TableError> {
    let mut table = tree(alloc, if has_zero { "" } else { "a" }, count, is_row)?;
    if has_zero {
        table.with(Padding::zero())?;
    }
    let mut counter = Counter { bytes: 0 };
    table.write_to(&mut IoSink::new(&mut counter))?;
    Ok(counter.bytes)
}

fn main(rt: HostRuntime) -> Result<(), anyhow::Error> {
    let mut kind = String::new(rt.alloc());
    let mut count: usize = 0;
    for word in env::args(&rt)?.skip(1) {
        match word.as_str().parse() {
            Ok(number) => count = number,
            Err(_) => kind = word,
        }
    }
    let (alloc, kind) = (rt.alloc(), kind.as_str());
    if kind == "compared" {
        let first = tree(alloc, "a", count, true)?;
        let second = tree(alloc, "a", count, true)?;
        let is_equal = first == second;
        println!(rt; "{is_equal}")?;
        return Ok(());
    }
    let is_row = kind == "rows" || kind == "zero-rows";
    let has_zero = kind == "zero-rows" || kind == "zero-columns";
    let bytes = print(alloc, count, is_row, has_zero)?;
    println!(rt; "{bytes}")?;
    Ok(())
}
"""


def limit_stack():
    resource.setrlimit(resource.RLIMIT_STACK, (STACK, STACK))


def is_held(program, kind, count):
    """Whether a tree is printed or compared without an overflow."""
    done = subprocess.run([program, kind, str(count)], capture_output=True, preexec_fn=limit_stack)
    if done.returncode not in (0, -signal.SIGSEGV, -signal.SIGBUS, -signal.SIGABRT):
        sys.exit(f"{kind}, {count} levels ended with {done.returncode}: {done.stderr.decode()}")
    return done.returncode == 0


def deepest(program, kind):
    """The number of levels between one that is held and one that isn't."""
    held, over = 0, STEP
    while over < MOST and is_held(program, kind, over):
        held, over = over, 2 * over
    while over - held > STEP:
        middle = (held + over) // 2
        if is_held(program, kind, middle):
            held = middle
        else:
            over = middle
    return held


def main():
    asked = building.parser(__doc__).parse_args()
    bars = measuring.Bars()
    crates = building.standing_on("tabled_pool", "tabled_set")
    used = ("tabled_base", "tabled_line", "tabled_pool", "tabled_set")
    files = {"src/main.rt": PROGRAM, "src/counting.rt": measuring.COUNTER}
    with building.builder(asked) as build:
        program = build.small("tree_depths", crates, files, used)
        for kind, least in LEVELS.items():
            bars.at_least(f"{kind}, levels of the deepest tree", deepest(program, kind), least)
    bars.end()


main()
