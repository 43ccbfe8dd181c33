#!/usr/bin/env python3
"""Times `tabprint`, `column -t` and the baseline over tab-separated files, in interleaved rounds.

The files are those of generate.py. Each program reads a file on standard input; its output goes to the
null device. Printed are, for each file, the shortest and the median of the processor time (user and
system) and the median of the peak memory, each as a share of the baseline's. The baseline is
bench/baseline, a program by hand for this one job. Then the bars, by the medians.

With --plans, `tabprint` and the baseline also run under the same arguments: `--wrap W`, `--cut W` and
`--wrap W --words`, where W is a third and half of the table's width, each with `--priority none` and
`max`. `--stream` is compared with the baseline's plain printing. Printed are the medians and their
shares. The bars are for the greatest share of each way.

The outputs of the two are compared once for each file and plan. The exit status is 1 if two of them
differ or a bar is missed.
"""

import collections

import building
import generate
import measuring

ROUNDS = 15

COLUMN = ["column", "-t", "-s", "\t"]

# How many times as long `column` takes at least.
COLUMN_TIMES = {"short": 20, "long": 27, "mixed": 12, "wide": 20}

# The shares of the baseline's processor time and peak memory that `tabprint` may take.
TIMES = {"short": 0.60, "long": 0.59, "mixed": 0.54, "wide": 0.60}
PEAKS = {"short": 0.46, "long": 0.48, "mixed": 0.46, "wide": 0.44}

# Its peak: the bytes of the input, so many bytes a cell, and these.
CELL_BYTES = 12
OWN_BYTES = 2_200_000

# The same shares under the plans, of time and then of memory, for the greatest share of each way.
PLAN_SHARES = {
    "--wrap": {"long": (0.32, 0.59), "short": (0.66, 0.61), "mixed": (0.70, 0.66), "wide": (0.55, 0.58)},
    "--words": {"long": (0.53, 0.90), "short": (0.70, 0.89), "mixed": (0.70, 0.66), "wide": (0.65, 0.84)},
    "--cut": {"long": (0.52, 0.81), "short": (0.60, 0.61), "mixed": (0.60, 0.90), "wide": (0.58, 0.58)},
    "--stream": {"long": (0.67, 0.48), "short": (0.74, 0.46), "mixed": (0.57, 0.48), "wide": (0.66, 0.44)},
}


def cells(path):
    data = path.read_bytes()
    return data.count(b"\n") + data.count(b"\t")


def table_width(program, path):
    """The columns of a file's table: its first line has a character in each column."""
    return measuring.output([program], path).index(b"\n")


def plans(width):
    """The ways to narrow a table, and the arguments of each plan for `tabprint` and the baseline."""
    for way, more in (("--wrap", []), ("--words", ["--words"]), ("--cut", [])):
        narrowing = "--cut" if way == "--cut" else "--wrap"
        for narrowed in (width // 3, width // 2):
            for priority in ("none", "max"):
                arguments = [narrowing, str(narrowed), *more, "--priority", priority]
                yield way, arguments, arguments
    yield "--stream", ["--stream"], []


def same(bars, what, first, second, path):
    bars.true(f"{what}: the same bytes", measuring.output(first, path) == measuring.output(second, path))


def compare(bars, launch, path, programs, rounds):
    """All programs over a file, without arguments."""
    print(f"{path.name}: {path.stat().st_size} bytes, {cells(path)} cells")
    commands = {name: (command, path) for name, command in programs.items()}
    found = measuring.timed(launch, rounds, commands)
    unit = found["baseline"]
    for name, (shortest, median, peak) in found.items():
        print(
            f"  {name:9} {shortest * 1e3:8.1f} ms x{shortest / unit[0]:6.2f}"
            f"  median {median * 1e3:8.1f} ms x{median / unit[1]:6.2f}"
            f"  {peak / 1e6:6.1f} MB x{peak / unit[2]:5.2f}"
        )
    same(bars, path.name, programs["tabprint"], programs["baseline"], path)
    judge(bars, path, found)


def judge(bars, path, found):
    _, time, peak = found["tabprint"]
    _, base_time, base_peak = found["baseline"]
    bars.at_most("time, of the baseline's", time / base_time, TIMES[path.stem])
    bars.at_most("peak, of the baseline's", peak / base_peak, PEAKS[path.stem])
    most = path.stat().st_size + CELL_BYTES * cells(path) + OWN_BYTES
    bars.at_most("peak, MB", peak / 1e6, most / 1e6)
    bars.at_least("the time of column, of its own", found["column"][1] / time, COLUMN_TIMES[path.stem])


def compare_plans(bars, launch, path, tabprint, baseline, rounds):
    greatest = collections.defaultdict(lambda: (0, 0))
    for way, arguments, base_arguments in plans(table_width(baseline, path)):
        commands = {"tabprint": [tabprint, *arguments], "baseline": [baseline, *base_arguments]}
        same(bars, " ".join(arguments), *commands.values(), path)
        shares = plan_shares(launch, path, commands, rounds)
        greatest[way] = tuple(map(max, zip(greatest[way], shares)))
    for way, (time, peak) in greatest.items():
        most_time, most_peak = PLAN_SHARES[way][path.stem]
        bars.at_most(f"{way}, time, of the baseline's", time, most_time)
        bars.at_most(f"{way}, peak, of the baseline's", peak, most_peak)


def plan_shares(launch, path, commands, rounds):
    """Prints what both programs take under a plan. Returns the shares of time and memory."""
    found = measuring.timed(launch, rounds, {name: (command, path) for name, command in commands.items()})
    _, time, peak = found["tabprint"]
    _, base_time, base_peak = found["baseline"]
    print(
        f"    {time * 1e3:7.1f} ms of {base_time * 1e3:7.1f} ms, x{time / base_time:5.2f}"
        f"  {peak / 1e6:6.1f} MB of {base_peak / 1e6:6.1f} MB, x{peak / base_peak:5.2f}",
        flush=True,
    )
    return time / base_time, peak / base_peak


def main():
    arguments = building.parser(__doc__, ROUNDS)
    arguments.add_argument("--plans", action="store_true", help="all plans too")
    asked = arguments.parse_args()
    bars = measuring.Bars()
    with building.builder(asked) as build, measuring.launcher() as launch:
        tabprint, baseline = build.of_repository("tabprint"), build.baseline()
        programs = {"tabprint": [tabprint], "column": COLUMN, "baseline": [baseline]}
        for path in generate.write(build.folder / "inputs"):
            compare(bars, launch, path, programs, asked.rounds)
            if asked.plans:
                compare_plans(bars, launch, path, tabprint, baseline, asked.rounds)
    bars.end()


main()
