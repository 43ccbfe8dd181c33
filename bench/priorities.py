#!/usr/bin/env python3
"""Counts the steps and times the calls of the five priorities over 10 to 10,000 columns.

A small program prints the steps and the nanoseconds of shrinking and growing by 1, a million, 10^12 and
10^15, and here each has a row with the median. A step is one visit of one column. Then the bars: the most
visits of a column, by any call, and the most milliseconds over 10,000 columns.

Sizes are random numbers of all magnitudes up to 10^15, hardly two of them equal; minimums are 1.
"""

import collections
import statistics

import building
import measuring

ROUNDS = 5

# The most visits of a column. They are the same in each run.
VISITS = {"shrink": 35, "grow": 29}

# The most milliseconds over the most columns.
MOST_COLUMNS = 10_000
MILLISECONDS = 1.4

CRATES = building.standing_on("tabled_priority")

PROGRAM = """\
//! Counts the steps and times the calls of the priorities.
#![tactic(auto)]
ghost use Rattle.std.specs.Prelude.{◌≡◌, ◌+◌, ◌<◌, ◌^◌, IfOk, IsTrue, length, sum, vec_len};

use std::alloc::{AllocError, Global};
use std::time::Instant;
use tabled_priority::{Peaker, Priority, Steps};

const ROUNDS: usize = @ROUNDS@;

fn fits(values: &[usize], by: usize) -> bool
    ensures { IsTrue result → sum values.now + by < 2 ^ 64 }
{
    let mut total: usize = by;
    for value in values {
        match total.checked_add(*value) {
            Some(sum) => total = sum,
            None => return false,
        }
    }
    true
}

fn sizes(alloc: Global, count: usize) -> Result<Vec<usize>, AllocError>
    ensures { IfOk result (λ v. vec_len v ≡ count) }
{
    let mut list = vec![in alloc; 1usize; count]?;
    let mut state: usize = 1;
    for place in 0..count {
        state = state.wrapping_mul(6364136223846793005).wrapping_add(1442695040888963407);
        let magnitude = state / 4294967296 % 50;
        let size = 1_000_000_000_000_000 / (magnitude + 1) / (magnitude + 1) / (magnitude + 1);
        list[place] = 1 + size + state / 65536 % 1_000_000;
    }
    Ok(list)
}

fn measure<P: Peaker + Copy>(
    rt: &HostRuntime,
    name: &str,
    start: P,
    count: usize,
    by: usize,
) -> Result<(), anyhow::Error> {
    let alloc = rt.alloc();
    let mins = vec![in alloc; 1usize; count]?;
    for _round in 0..ROUNDS {
        let mut list = sizes(alloc, count)?;
        let mut priority = start;
        let mut steps = Steps::new();
        let begin = Instant::now(rt)?;
        let taken = priority.shrink(&mins, &mut list, by, &mut steps);
        let time = begin.elapsed(rt)?.as_nanos();
        let visits = steps.count();
        println!(rt; "{name} shrink {count} {by} {visits} {time} {taken}")?;

        let mut list = sizes(alloc, count)?;
        let mut priority = start;
        let mut steps = Steps::new();
        if fits(&list, by) {
            let begin = Instant::now(rt)?;
            let added = priority.grow(&mut list, by, &mut steps);
            let time = begin.elapsed(rt)?.as_nanos();
            let visits = steps.count();
            println!(rt; "{name} grow {count} {by} {visits} {time} {added}")?;
        }
    }
    Ok(())
}

fn main(rt: HostRuntime) -> Result<(), anyhow::Error> {
    for count in [10, 100, 1000, 10_000] {
        for by in [1, 1_000_000, 1_000_000_000_000, 1_000_000_000_000_000] {
            measure(&rt, "none", Priority::none(), count, by)?;
            measure(&rt, "min", Priority::min(true), count, by)?;
            measure(&rt, "max", Priority::max(true), count, by)?;
            measure(&rt, "left", Priority::left(), count, by)?;
            measure(&rt, "right", Priority::right(), count, by)?;
        }
    }
    Ok(())
}
"""

INVARIANTS = """\
use Rattle.std.proofs.Common.{◌≡◌, ◌+◌, ◌^◌, ◌<◌, sum, take}
use Rattle.size_times.proofs.fits.Given as goal

abbrev pub invariant-loop-value : goal.invariant-loop-value
invariant-loop-value l = record {
  total : l.total ≡ sum (take l.value-index l.values) + l.by;
  fits : l.total < 2 ^ 64;
}
"""

ANSWERS = """\
use Rattle.std.proofs.Common.{◌≡◌, ◌+◌, sum, take, arith, ap}
use Rattle.std.proofs.lemmas.List.{take_all}
use Rattle.size_times.proofs.fits.Goals as goal

pub returns : goal.returns
returns c =
    let e : sum (take c.loop-value.value-index c.args.values.now) ≡ sum c.args.values.now = ap sum (take_all c.loop-value.value-index c.args.values.now (omega arith)) in
    λ _. omega (arith, c.loop-value.invariant.total, c.loop-value.invariant.fits, e)
"""


def found_by(program):
    """The visits and the nanoseconds of each round of each call."""
    found = collections.defaultdict(list)
    for row in measuring.output([program]).decode().splitlines():
        name, call, count, by, visits, time, _moved = row.split()
        found[name, call, int(count), int(by)].append((int(visits), int(time)))
    return found


def show(found):
    head = f"{'priority':14} {'columns':>7} {'amount':>21} {'steps':>9} {'a column':>8}"
    print(f"{head} {'of 8(c+1)(c+1)':>15} {'us':>9}")
    for (name, call, count, by), rounds in sorted(found.items()):
        visits = rounds[0][0]
        time = statistics.median(time for _visits, time in rounds)
        row = f"{name + ' ' + call:14} {count:7} {by:21,} {visits:9,} {visits / count:8.1f}"
        print(f"{row} {visits / (8 * (count + 1) * (count + 1)):15.2f} {time / 1000:9.1f}")


def judge(bars, found):
    for call, most in VISITS.items():
        visits = [rounds[0][0] / count for (_, named, count, _), rounds in found.items() if named == call]
        bars.at_most(f"{call}, visits of a column", max(visits), most)
    times = [
        statistics.median(time for _visits, time in rounds)
        for (_, _, count, _), rounds in found.items()
        if count == MOST_COLUMNS
    ]
    bars.at_most(f"{MOST_COLUMNS} columns, ms", max(times) / 1e6, MILLISECONDS)


def main():
    asked = building.parser(__doc__, ROUNDS).parse_args()
    bars = measuring.Bars()
    files = {
        "src/main.rt": PROGRAM.replace("@ROUNDS@", str(asked.rounds)),
        "proofs/fits/Invariants.antt": INVARIANTS,
        "proofs/fits/Answers.antt": ANSWERS,
    }
    with building.builder(asked) as build:
        found = found_by(build.small("size_times", CRATES, files))
    show(found)
    judge(bars, found)
    bars.end()


main()
