#!/usr/bin/env python3
"""Times the options of whole tables, over the files of generate.py and parts of them.

A small program runs on the first tenth and third of the rows of each file, and on all of them, in
interleaved rounds; it makes three of each option. Each table is narrowed to half of its total width and
widened to twice of it, made half and twice as high, its texts are made 8 columns wide, lists of sizes are
stored, and padding and a margin are set. The greatest columns shrink first, and the least grow first; rows
change one after the other, and by their heights too. The copies that are changed are made beforehand, and
dropped after a call's time.

Printed are the processor times of the thread (user and system), as Linux keeps them: the shortest in
milliseconds, and the shortest and the median in nanoseconds a byte of the texts, which stay the same where
a call is linear in them. The bar: narrowing all rows of short cells takes at most a third more time a byte
than the first tenth of them, by the median over the rounds of the shares of the shortest times.

With --narrowing the tables of short cells are narrowed, in 25 rounds, and nothing else is done. With
--plans all tables are narrowed, in 5 rounds, and `tabprint` does the same to each file from its first byte
to its last. Printed are the shortest times of the call and of the program, and the share; the bar is for
the greatest share.
"""

import collections
import statistics
import subprocess

import building
import generate
import measuring

PARTS = (10, 3, 1)
ROUNDS, NARROWING_ROUNDS, PLAN_ROUNDS = 15, 25, 5

# The calls for which a bar is set, and the most time a byte of all rows, of a byte of the first tenth.
NARROWING = ("wrap", "truncate", "truncate,ended")
SHORT = "short"
GROWTH = 4 / 3

# The arguments with which the program does what a call does, and the greatest share of its time.
PLANS = {"wrap": ["--wrap"], "wrap,words": ["--words", "--wrap"], "truncate": ["--cut"]}
PLAN_SHARE = 1.2

PROGRAM = """\
//! Times options on the table of tab-separated rows on standard input.
#![tactic(auto)]

ghost use Rattle.std.specs.Prelude.{◌*◌, ◌<◌, ◌^◌};

use std::alloc::Global;
use std::env;
use std::fs;
use std::io;
use tabled::builder::Builder;
use tabled::grid::config::ColoredConfig;
use tabled::grid::dimension::CompleteDimension;
use tabled::grid::records::{Text, VecRecords};
use tabled::settings::peaker::Priority;
use tabled::settings::{Height, Margin, Padding, TableOption, Width};
use tabled::{Table, TableError};

const ROUNDS: usize = 3;

/// The processor time of the thread so far, in nanoseconds. Reading the first file brings the second up to date.
fn processor_time(rt: &HostRuntime) -> Result<u64, anyhow::Error> {
    let _stat = fs::read_to_string(rt, "/proc/self/stat")?;
    let times = fs::read_to_string(rt, "/proc/self/schedstat")?;
    let time = times.split(' ').next().unwrap_or("0");
    Ok(time.parse().unwrap_or(0))
}

fn table_of(alloc: Global, text: &str) -> Result<Table, TableError> {
    let mut builder = Builder::new(alloc);
    for line in text.lines() {
        builder.add_record(line.split('\\t'))?;
    }
    Ok(Table::from(builder))
}

fn measure<O>(
    rt: &HostRuntime,
    name: &str,
    table: &Table,
    option: O,
) -> Result<(), anyhow::Error>
where
    O: TableOption<VecRecords<Text<String>>, ColoredConfig, CompleteDimension> + Drop,
{
    let mut copy = table.clone()?;
    let start = processor_time(rt)?;
    copy.apply(option)?;
    let time = processor_time(rt)?.saturating_sub(start);
    println!(rt; "{name} {time}")?;
    Ok(())
}

fn narrow(rt: &HostRuntime, table: &Table, width: usize) -> Result<(), anyhow::Error> {
    let greatest = Priority::max(true);
    measure(rt, "wrap", table, Width::wrap(width).priority(greatest))?;
    let words = Width::wrap(width).keep_words(true);
    measure(rt, "wrap,words", table, words.priority(greatest))?;
    measure(rt, "truncate", table, Width::truncate(width).priority(greatest))?;
    let ended = Width::truncate(width).suffix(".");
    measure(rt, "truncate,ended", table, ended.priority(greatest))
}

fn widen(rt: &HostRuntime, table: &Table, width: usize) -> Result<(), anyhow::Error> {
    let least = Priority::min(true);
    measure(rt, "increase", table, Width::increase(width).priority(least))?;
    measure(rt, "justify", table, Width::justify(8))
}

fn raise(rt: &HostRuntime, table: &Table, height: usize) -> Result<(), anyhow::Error>
    requires { height * 2 < 2 ^ 64 }
{
    measure(rt, "higher", table, Height::increase(height * 2))?;
    measure(rt, "lower", table, Height::limit(height / 2))
}

fn level(rt: &HostRuntime, table: &Table, height: usize) -> Result<(), anyhow::Error>
    requires { height * 2 < 2 ^ 64 }
{
    let higher = Height::increase(height * 2);
    measure(rt, "higher,least", table, higher.priority(Priority::min(true)))?;
    let lower = Height::limit(height / 2);
    measure(rt, "lower,greatest", table, lower.priority(Priority::max(true)))
}

fn store(rt: &HostRuntime, alloc: Global, table: &Table) -> Result<(), anyhow::Error> {
    let widths = Width::list(alloc, (0..table.count_columns()).map(|_| 8))?;
    measure(rt, "widths", table, widths)?;
    let heights = Height::list(alloc, (0..table.count_rows()).map(|_| 2))?;
    measure(rt, "heights", table, heights)
}

fn surround(rt: &HostRuntime, table: &Table) -> Result<(), anyhow::Error> {
    measure(rt, "padding", table, Padding::new(2, 2, 1, 1))?;
    measure(rt, "margin", table, Margin::new(2, 2, 1, 1))
}

fn main(rt: HostRuntime) -> Result<(), anyhow::Error> {
    let alloc = rt.alloc();
    let text = io::read_to_string(alloc, &mut rt.stdin())?;
    let table = table_of(alloc, text.as_str())?;
    let width = table.total_width()?;
    let height = table.total_height()?;
    if width > usize::MAX / 2 || height > usize::MAX / 2 {
        return Ok(());
    }
    let alone = env::args(&rt)?.count() > 1;
    for _round in 0..ROUNDS {
        narrow(&rt, &table, width / 2)?;
        if alone {
            continue;
        }
        widen(&rt, &table, width * 2)?;
        raise(&rt, &table, height)?;
        level(&rt, &table, height)?;
        store(&rt, alloc, &table)?;
        surround(&rt, &table)?;
    }
    Ok(())
}
"""


def part(data, divisor):
    """The first rows of a file, one of so many parts of them."""
    rows = data.splitlines(keepends=True)
    return b"".join(rows[: len(rows) // divisor])


def times_of(program, data, words):
    """The times of each call in one run, in nanoseconds."""
    run = subprocess.run([program, *words], input=data, capture_output=True, check=True)
    found = collections.defaultdict(list)
    for row in run.stdout.decode().splitlines():
        name, time = row.split()
        found[name].append(int(time))
    return found


def measure(program, data, words, rounds):
    """The bytes of each part, and the times of each call over it, for each round."""
    parts = {divisor: part(data, divisor) for divisor in PARTS}
    calls = {it: lambda it=it: times_of(program, parts[it], words) for it in PARTS}
    found = measuring.interleaved(rounds, calls)
    return {divisor: (len(parts[divisor]), found[divisor]) for divisor in PARTS}


def show(file, parts):
    for size, found in parts.values():
        for name in found[0]:
            times = [time for of_round in found for time in of_round[name]]
            least, median = min(times), statistics.median(times)
            print(
                f"{file:6} {size:10,} {name:14} {least / 1e6:8.2f} ms"
                f" {least / size:8.2f} ns a byte, median {median / size:8.2f}",
                flush=True,
            )


def judge(bars, parts):
    """Whether all rows of short cells are narrowed in hardly more time a byte than some of them."""
    few_bytes, few = parts[PARTS[0]]
    all_bytes, everything = parts[PARTS[-1]]
    for call in NARROWING:
        shares = [min(many[call]) / min(some[call]) for some, many in zip(few, everything)]
        bars.at_most(f"{call}, a byte of all", statistics.median(shares) * few_bytes / all_bytes, GROWTH)


def measure_options(bars, program, paths, alone, rounds):
    for path in paths:
        if alone and path.stem != SHORT:
            continue
        parts = measure(program, path.read_bytes(), ["narrowing"] if alone else [], rounds)
        show(path.stem, parts)
        if path.stem == SHORT:
            judge(bars, parts)


def plan_calls(launch, program, tabprint, path):
    """One run of the small program, and one of `tabprint` for each plan, which returns its nanoseconds."""
    data = path.read_bytes()
    width = str(measuring.output([tabprint], path).index(b"\n") // 2)

    def plan(words):
        return launch.run([tabprint, *words, width, "--priority", "max"], path)[0] * 1e9

    calls = {name: lambda words=words: plan(words) for name, words in PLANS.items()}
    return {"calls": lambda: times_of(program, data, ["narrowing"]), **calls}


def compare_plans(bars, launch, program, tabprint, paths, rounds):
    shares = []
    for path in paths:
        found = measuring.interleaved(rounds, plan_calls(launch, program, tabprint, path))
        for name in PLANS:
            call = min(time for times in found["calls"] for time in times[name])
            plan = min(found[name])
            shares.append(call / plan)
            times = f"{call / 1e6:7.1f} ms of {plan / 1e6:7.1f} ms"
            print(f"{path.stem:6} {name:11} {times}, x{shares[-1]:.2f}", flush=True)
    bars.at_most("the greatest share of the program's time", max(shares), PLAN_SHARE)


def main():
    arguments = building.parser(__doc__)
    arguments.add_argument("--rounds", type=int, help="else 15, 25 or 5, as above")
    way = arguments.add_mutually_exclusive_group()
    way.add_argument("--narrowing", action="store_true")
    way.add_argument("--plans", action="store_true")
    asked = arguments.parse_args()
    usual = PLAN_ROUNDS if asked.plans else NARROWING_ROUNDS if asked.narrowing else ROUNDS
    rounds = asked.rounds or usual
    bars = measuring.Bars()
    with building.builder(asked) as build, measuring.launcher() as launch:
        program = build.small("option_times", building.TABLED, {"src/main.rt": PROGRAM})
        paths = generate.write(build.folder / "inputs")
        if asked.plans:
            compare_plans(bars, launch, program, build.of_repository("tabprint"), paths, rounds)
        else:
            measure_options(bars, program, paths, asked.narrowing, rounds)
    bars.end()


main()
