"""Prints tables by fanlightnard and by other packages, with the time of many rows.

usage: compare.py [ROWS]

Packages that aren't installed are left out.
"""

import importlib
import sys
import time

import fanlightnard

HEADERS = ["City", "Note", "People"]
CASES = {
    "Chinese": [["北京", "capital of China", 21893095], ["Vaduz", "Liechtenstein", 5774]],
    "emoji": [["👨‍👩‍👧", "a family", 3], ["🇱🇮", "a flag", 1], ["❤️", "a heart", 1]],
    "line feeds": [["two\nlines", "one", 1]],
    "wrapped to 30": [["北京", "the capital of China since 1949", 21893095]],
}


def by_tabulate(rows, width=None):
    tabulate = importlib.import_module("tabulate").tabulate
    options = {"maxcolwidths": [None, 10, None]} if width else {}
    return tabulate(rows, headers=HEADERS, tablefmt="grid", **options)


def by_prettytable(rows, width=None):
    table = importlib.import_module("prettytable").PrettyTable(HEADERS)
    if width:
        table._max_table_width = width
    table.add_rows(rows)
    return table.get_string()


def by_rich(rows, width=None):
    console = importlib.import_module("rich.console").Console(width=width or 80, highlight=False)
    table = importlib.import_module("rich.table").Table(*HEADERS)
    for row in rows:
        table.add_row(*map(str, row))
    with console.capture() as printed:
        console.print(table)
    return printed.get().rstrip("\n")


def by_fanlightnard(rows, width=None):
    return fanlightnard.table(rows, headers=HEADERS, style="ascii", width=width)


PACKAGES = {
    "fanlightnard": by_fanlightnard,
    "tabulate": by_tabulate,
    "prettytable": by_prettytable,
    "rich": by_rich,
}


def installed(name):
    try:
        importlib.import_module(name)
    except ImportError:
        print(f"{name}: not installed")
        return False
    return True


def edges(text):
    """Returns the widths of the lines, which are one number if the edges line up."""
    return sorted({fanlightnard.width(line) for line in text.split("\n")})


def main():
    count = int(sys.argv[1]) if len(sys.argv) > 1 else 100_000
    packages = {name: call for name, call in PACKAGES.items() if installed(name)}
    for case, rows in CASES.items():
        width = 30 if case.startswith("wrapped") else None
        for name, call in packages.items():
            try:
                text = call(rows, width)
            except Exception as error:
                print(f"\n{case}, {name}: {type(error).__name__}: {error}")
                continue
            print(f"\n{case}, {name}: lines of {edges(text)} columns\n{text}")
    rows = [[f"city {i}", f"note on city {i}", i * 37] for i in range(count)]
    print()
    for name, call in packages.items():
        best = float("inf")
        for _ in range(3 if name == "fanlightnard" else 1):
            begun = time.process_time()
            call(rows)
            best = min(best, time.process_time() - begun)
        print(f"{count} rows of 3 cells, {name}: {best:.3f} s of the processor", flush=True)


main()
