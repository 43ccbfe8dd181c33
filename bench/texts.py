#!/usr/bin/env python3
"""Times the calls of `tabled_text` over texts of 1, 10 and 100 MB, and a plain copy of the text.

A small program runs on each text. Printed are the medians of its rounds in milliseconds, as multiples of
the copy, and the time a byte; then the bars: the greatest time a byte of each call, and how much longer
a byte of the largest text may take than one of the smallest.

Texts are random words in lines of at most 70 columns: one of ASCII letters, one that mixes Latin,
Cyrillic and Chinese. Wrapping is to 40 columns; a cut at 80 goes over the whole text.
"""

import collections
import random
import statistics
import subprocess

import building
import measuring

ALPHABETS = {"ascii": "abcdefghijklmnopqrstuvwxyz", "mixed": "abcабвгде中文字"}
MEGABYTES = (1, 10, 100)

# The greatest nanoseconds a byte of each call.
TIMES = {
    "ascii": {"wrap_text": 3.5, "wrap_text,words": 7.6, "cut_str": 1.9, "is_fullest,words": 9.2},
    "mixed": {"wrap_text": 7.0, "wrap_text,words": 8.7, "cut_str": 5.3, "is_fullest,words": 9.2},
}

# A byte of the largest text, of one of the smallest.
GROWTH = 1.6

PROGRAM = """\
//! Times the calls of `tabled_text` over the text on standard input.
#![tactic(auto)]

use std::io;
use std::time::Instant;
use tabled_text::{cut_str, is_fullest, wrap_text};

const ROUNDS: usize = @ROUNDS@;

fn main(rt: HostRuntime) -> Result<(), anyhow::Error> {
    let alloc = rt.alloc();
    let text = io::read_to_string(alloc, &mut rt.stdin())?;
    let text = text.as_str();
    let wrapped = wrap_text(alloc, text, 40, true)?;
    for _round in 0..ROUNDS {
        let start = Instant::now(&rt)?;
        let length = String::from_str(alloc, text)?.len();
        let time = start.elapsed(&rt)?.as_nanos();
        println!(rt; "copy {time} {length}")?;

        let start = Instant::now(&rt)?;
        let length = wrap_text(alloc, text, 40, false)?.len();
        let time = start.elapsed(&rt)?.as_nanos();
        println!(rt; "wrap_text {time} {length}")?;

        let start = Instant::now(&rt)?;
        let length = wrap_text(alloc, text, 40, true)?.len();
        let time = start.elapsed(&rt)?.as_nanos();
        println!(rt; "wrap_text,words {time} {length}")?;

        let start = Instant::now(&rt)?;
        let length = cut_str(alloc, text, 80)?.len();
        let time = start.elapsed(&rt)?.as_nanos();
        println!(rt; "cut_str {time} {length}")?;

        let start = Instant::now(&rt)?;
        let length = usize::from(is_fullest(text, wrapped.as_str(), 40, true));
        let time = start.elapsed(&rt)?.as_nanos();
        println!(rt; "is_fullest,words {time} {length}")?;
    }
    Ok(())
}
"""

ROUNDS = 7


def columns(word):
    return sum(2 if c >= "一" else 1 for c in word)


def text(alphabet, size):
    """About a megabyte of random words, then that again and again."""
    choose = random.Random(1)
    lines, length = [], 0
    while length < 1_000_000:
        words, used = [], 0
        while used <= 60:
            words.append("".join(choose.choices(alphabet, k=choose.randint(1, 5))))
            used += columns(words[-1]) + 1
        lines.append(" ".join(words))
        length += len(lines[-1].encode()) + 1
    return ("\n".join(lines) + "\n").encode() * size


def show(kind, data, lines):
    """Prints the median of each call. Returns its nanoseconds a byte."""
    times = collections.defaultdict(list)
    for line in lines:
        name, time, _length = line.split()
        times[name].append(int(time))
    copy = statistics.median(times["copy"])
    print(f"{kind}, {len(data) / 1e6:.1f} MB")
    a_byte = {}
    for name, found in times.items():
        time = statistics.median(found)
        a_byte[name] = time / len(data)
        times = f"{time / 1e6:8.2f} ms  x{time / copy:6.1f}  {a_byte[name]:6.2f} ns a byte"
        print(f"  {name:18} {times}", flush=True)
    return a_byte


def judge(bars, kind, found):
    """The times a byte of each size are from the smallest text to the largest."""
    for name, most in TIMES[kind].items():
        bars.at_most(f"{kind}, {name}, ns a byte", max(times[name] for times in found), most)
        bars.at_most(f"{kind}, {name}, growth", found[-1][name] / found[0][name], GROWTH)


def main():
    asked = building.parser(__doc__, ROUNDS).parse_args()
    bars = measuring.Bars()
    files = {"src/main.rt": PROGRAM.replace("@ROUNDS@", str(asked.rounds))}
    with building.builder(asked) as build:
        program = build.small("text_times", ["tabled_text"], files)
        for kind, alphabet in ALPHABETS.items():
            found = []
            for size in MEGABYTES:
                data = text(alphabet, size)
                run = subprocess.run([program], input=data, capture_output=True, check=True)
                found.append(show(kind, data, run.stdout.decode().splitlines()))
            judge(bars, kind, found)
    bars.end()


main()
