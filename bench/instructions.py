#!/usr/bin/env python3
"""Counts the instructions of `tabprint` and of the baseline, by valgrind.

The inputs are the first 3,000 rows of the files of generate.py, 30 of that of 2,000 columns. The plans are
the whole table, and `--wrap W` and `--cut W`, where W is half and a third of the table's width, all with
`--priority none`. Printed are the shares of the baseline's instructions, which are the same in each run;
then the bars.
"""

import building
import generate
import measuring

ROWS = {"long": 3_000, "short": 3_000, "mixed": 3_000, "wide": 30}

# The greatest shares: of the whole table, wrapped to half and a third, and cut likewise.
SHARES = {
    "long": (0.99, 0.16, 0.18, 0.19, 0.26),
    "short": (1.00, 0.63, 0.90, 0.52, 0.84),
    "mixed": (1.00, 1.00, 1.00, 0.80, 0.77),
    "wide": (1.00, 0.53, 0.93, 0.49, 0.87),
}


def shortened(path, rows):
    """The first rows of a file, in a file of their own."""
    short = path.with_suffix(".first")
    short.write_bytes(b"".join(path.read_bytes().splitlines(keepends=True)[:rows]))
    return short


def plans(width):
    return [[], *([way, str(width // part)] for way in ("--wrap", "--cut") for part in (2, 3))]


def compare(bars, tabprint, baseline, path, bars_of):
    width = measuring.output([baseline], path).index(b"\n")
    for plan, most in zip(plans(width), bars_of):
        own, base = (measuring.instructions([program, *plan], path) for program in (tabprint, baseline))
        print(f"{path.stem:6} {' '.join(plan) or 'whole':14} {own:13,} instructions of {base:13,}")
        bars.at_most("of the baseline's instructions", own / base, most)


def main():
    asked = building.parser(__doc__).parse_args()
    bars = measuring.Bars()
    with building.builder(asked) as build:
        tabprint, baseline = build.of_repository("tabprint"), build.baseline()
        for path in generate.write(build.folder / "inputs"):
            compare(bars, tabprint, baseline, shortened(path, ROWS[path.stem]), SHARES[path.stem])
    bars.end()


main()
