#!/usr/bin/env python3
"""Times `tabview` over 1,000,000 rows, `tabprint` on the same cells, and a reader of comma-separated
values alone.

1,000,000 rows of six short cells, below a header, are written to a temporary folder, once with commas and
once with tabs, and a small program that reads the former and keeps nothing of it is built there. Each
program runs in interleaved rounds, its output to the null device. Printed are the shortest and the median
of the processor times (user and system) in milliseconds, and the peaks; then the bar, by the shortest: how
many times as long as `tabprint` `tabview` takes, without the time of the reader.

With --large, `tabview --stream 1000` alone runs once over a pipe of 5 GB of such rows, or as many as are
given, and the time and the peak are printed.
"""

import random
import subprocess
import sys

import building
import generate
import measuring

ROUNDS = 40
ROWS = 1_000_000
HEADER = ["id", "name", "place", "count", "share", "note"]
WORDS = generate.WORDS[:15]

# How many times as long as `tabprint`, without the reader.
SHARE = 1.25

# Of 5 GB: the most megabytes and seconds.
LARGE = 5_000_000_000
LARGE_PEAK = 4.2
LARGE_TIME = 210

READER = """\
//! Reads comma-separated values, and prints how many rows came.
#![tactic(auto)]

use anyhow::{Result, bail};
use csv::ReaderBuilder;

fn main(rt: HostRuntime) -> Result<()> {
    let mut count = 0u64;
    let mut reader = ReaderBuilder::new();
    reader.has_headers(false);
    for record in reader.from_reader(rt.alloc(), rt.stdin()).into_records() {
        match record {
            Ok(_) => count = count.saturating_add(1),
            Err(error) => bail!("{error}"),
        }
    }
    println!(rt; "{count}")?;
    Ok(())
}
"""

# Writes a file's first line, and then its other lines again and again, until so many bytes are out.
REPEAT = """
import sys
path, left = sys.argv[1], int(sys.argv[2])
with open(path, "rb") as file:
    header, rows = file.readline(), file.read()
sys.stdout.buffer.write(header)
while left > 0:
    sys.stdout.buffer.write(rows)
    left -= len(rows)
"""


def rows():
    """The header and the rows, the same each time."""
    rng = random.Random("fanlightnard uses")
    yield HEADER
    for number in range(ROWS):
        words = [rng.choice(WORDS) for _ in range(3)]
        count, share = str(rng.randrange(100_000)), f"{rng.random():.2f}"
        yield [str(number), words[0], words[1], count, share, words[2]]


def write(path, separator):
    path.write_text("".join(separator.join(row) + "\n" for row in rows()))
    return path


def compare(bars, build, launch, rounds):
    commas, tabs = write(build.folder / "rows.csv", ","), write(build.folder / "rows.tsv", "\t")
    commands = {
        "tabview": ([build.of_repository("tabview")], commas),
        "tabprint": ([build.of_repository("tabprint")], tabs),
        "reader": ([build.small("reader", (), {"src/main.rt": READER}, ("csv",))], commas),
    }
    found = measuring.timed(launch, rounds, commands)
    for name, (shortest, median, peak) in found.items():
        print(f"{name:10} shortest {shortest * 1e3:7.1f} ms  median {median * 1e3:7.1f} ms  {peak / 1e6:6.1f} MB")
    for of, number in (("shortest", 0), ("medians", 1)):
        share = (found["tabview"][number] - found["reader"][number]) / found["tabprint"][number]
        print(f"without the reader, of tabprint's time, by the {of}: {share:.2f}")
        if number == 0:
            bars.at_most("by the shortest", share, SHARE)


def stream(bars, build, launch, size):
    commas = write(build.folder / "rows.csv", ",")
    command = [build.of_repository("tabview"), "--stream", "1000"]
    with subprocess.Popen([sys.executable, "-c", REPEAT, commas, str(size)], stdout=subprocess.PIPE) as writer:
        time, peak = launch.run_over(command, writer.stdout)
    print(f"{size / 1e9:.1f} GB: {time:.0f} s, {peak / 1e6:.1f} MB")
    bars.true("all of it is written", writer.returncode == 0)
    bars.at_most("peak, MB", peak / 1e6, LARGE_PEAK)
    bars.at_most("seconds", time, LARGE_TIME * size / LARGE)


def main():
    arguments = building.parser(__doc__, ROUNDS)
    arguments.add_argument("--large", type=int, nargs="?", const=LARGE, metavar="BYTES")
    asked = arguments.parse_args()
    bars = measuring.Bars()
    with building.builder(asked) as build, measuring.launcher() as launch:
        if asked.large:
            stream(bars, build, launch, asked.large)
        else:
            compare(bars, build, launch, asked.rounds)
    bars.end()


main()
