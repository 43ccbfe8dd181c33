#!/usr/bin/env python3
"""Times `tabprint` over inputs that are large in one way, each in two sizes.

The inputs are rows of one cell, a row of short cells, one cell, and line feeds: 10,000,000 rows, 1,000,000
cells, 100 MB and 10,000,000 line feeds, or the share of these that is given. For each list of arguments
it prints the shortest processor time of the rounds and the peak of the process's memory, over a tenth of
the input and over all of it, and by how much both grew. The bars: ten times the input takes at most 13
times the time, or the memory, and for each input the greatest of all lists.
"""

import os

import building
import measuring

ROUNDS = 3

# What an input is made of, how many bytes of it count as one, and what ends it.
INPUTS = {
    "rows of one cell": (10_000_000, b"x\n", 1, b""),
    "cells in a row": (1_000_000, b"x\t", 1, b"x\n"),
    "bytes in a cell": (100_000_000, b"some words ", 11, b"\n"),
    "line feeds": (10_000_000, b"\n", 1, b""),
}

# So many pieces are written at a time.
BLOCK = 10_000

PLANS = [
    "",
    "--stream",
    "--wrap 40",
    "--wrap 40 --words",
    "--wrap 40 --priority max",
    "--cut 40",
    "--cut 40 --priority min",
]

# The most by which time and memory grow, with ten times the input.
GROWTH = 13

# What is too short to be timed, in seconds, counts as this.
SHORTEST = 0.01

# The most seconds and MiB of all plans.
MOST = {
    "rows of one cell": (1.49, 325),
    "cells in a row": (0.19, 63),
    "bytes in a cell": (0.35, 127),
    "line feeds": (1.43, 312),
}


def write(path, piece, count, end):
    """So many pieces, and an end."""
    with open(path, "wb") as given:
        for left in range(count, 0, -BLOCK):
            given.write(piece * min(left, BLOCK))
        given.write(end)


def compare(launch, tabprint, paths, rounds):
    """The shortest time and the greatest peak of each plan over a tenth and all of an input."""
    calls = {
        (plan, path): lambda plan=plan, path=path: launch.run([tabprint, *plan.split()], path)
        for plan in PLANS
        for path in paths
    }
    found = {}
    for name, runs in measuring.interleaved(rounds, calls).items():
        times, peaks = zip(*runs)
        found[name] = min(times), max(peaks)
    return {plan: [found[plan, path] for path in paths] for plan in PLANS}


def show(bars, name, count, found, is_all):
    growths = {}
    for plan, ((little, low), (much, high)) in found.items():
        growths[plan] = much / max(little, SHORTEST), high / low
        print(
            f"{count:>11,} {name:17} {plan:26} {much:7.2f} s {high / 2**20:8.1f} MiB,"
            f" {growths[plan][0]:5.1f} times the time, {growths[plan][1]:5.1f} times the memory",
            flush=True,
        )
    for of, number in (("time", 0), ("memory", 1)):
        bars.at_most(f"{name}, growth of {of}", max(growth[number] for growth in growths.values()), GROWTH)
    if is_all:
        seconds, mebibytes = MOST[name]
        bars.at_most(f"{name}, seconds", max(of_all[0] for _, of_all in found.values()), seconds)
        bars.at_most(f"{name}, MiB", max(of_all[1] for _, of_all in found.values()) / 2**20, mebibytes)


def main():
    arguments = building.parser(__doc__, ROUNDS)
    arguments.add_argument("--share", type=float, default=1.0, help="of the inputs, 1 if it isn't given")
    asked = arguments.parse_args()
    bars = measuring.Bars()
    with building.builder(asked) as build, measuring.launcher() as launch:
        tabprint = build.of_repository("tabprint")
        paths = [build.folder / "tenth", build.folder / "all"]
        for name, (count, piece, counted, end) in INPUTS.items():
            count = int(count * asked.share)
            for path, number in zip(paths, (count // 10, count)):
                write(path, piece, number // counted, end)
            found = compare(launch, tabprint, paths, asked.rounds)
            show(bars, name, count, found, asked.share == 1)
            for path in paths:
                os.remove(path)
    bars.end()


main()
