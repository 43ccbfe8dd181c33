#!/usr/bin/env python3
"""Runs a script of this folder over two copies of the project, one of which lacks one of its fast paths.

usage: without.py PATH SCRIPT [ARGUMENT..]

PATH is one of the names below. The copies are clones of what is committed, in a temporary folder. The
script runs in both with the arguments, and builds what it needs from the copy. A path is taken away by one
edit that leaves the rest proved: it changes a number that decides which way is taken, and no byte of what
is printed.

Printed is each line of the script that has instructions or milliseconds, with their multiple without the
path. The exit status is 1 if there is none, or if the lines of the two runs differ in more than numbers.
Missed bars of the script don't count.
"""

import pathlib
import re
import subprocess
import sys
import tempfile

TOP = pathlib.Path(__file__).resolve().parent.parent

# A measured number of a line.
MEASURED = re.compile(r"([\d,]*\d(?:\.\d+)?) (?:instructions|ms)\b")

# For each path the file, and the edits: the old text and the new one.
PATHS = {
    # A blank row is made once, and texts are copied into it.
    "template": ("tabled_line/src/row_template.rt", ("MOST_COLUMNS: usize = 65_536;", "MOST_COLUMNS: usize = 0;")),
    # A horizontal line is made once.
    "lines": ("tabled_line/src/text_sink.rt", ("MOST_BYTES: usize = 1_048_576;", "MOST_BYTES: usize = 0;")),
    # The styles of columns are looked up once.
    "styles": ("tabled_grid/src/column_styles.rt", ("FEWEST_ROWS: usize = 4;", "FEWEST_ROWS: usize = usize::MAX;")),
    # The placements of up to 128 columns are kept without an allocator.
    "placements": ("tabled_grid/src/print.rt", ("FEW_PLACEMENTS: usize = 128;", "FEW_PLACEMENTS: usize = 1;")),
    # Tables of few columns have few cursors.
    "cursors": ("tabled_grid/src/print.rt", ("FEW_CURSORS: usize = 8;", "FEW_CURSORS: usize = 1_024;")),
    # Texts of several lines in boxes have cursors. For `boxes.py`.
    "tall": ("tabled_pool/src/tall_texts.rt", (".columns == NOT_KNOWN {", ".columns == NOT_KNOWN && y == usize::MAX {")),
    # The bar between two texts is kept with spaces around it.
    "separator": (
        "tabled_line/src/column_separator.rt",
        ("ColumnSeparator { bar, buffer, whole }", "ColumnSeparator { bar, buffer, whole: whole && false }"),
    ),
    # Spaces and dashes are written 64 at a time.
    "spaces": ("tabled_line/src/padding.rt", ("        let part = left.min(64);", "        let part = left.min(1);")),
    # The program writes 64 KiB at once. For `compare.py`.
    "blocks": (
        "tabled/src/block_buffer.rt",
        ("BLOCK: usize = 1 << 16;", "BLOCK: usize = 1 << 10;"),
        ("vec_len bytes ≡ 2 ^ 16", "vec_len bytes ≡ 2 ^ 10"),
        ("used ≤ 2 ^ 16", "used ≤ 2 ^ 10"),
    ),
}


def edit(copy, name, edits):
    file = copy / "crates" / name
    text = file.read_text()
    for old, new in edits:
        if text.count(old) != 1:
            sys.exit(f"`{old}` is in {name} {text.count(old)} times")
        text = text.replace(old, new)
    file.write_text(text)


def measured(copy, script, arguments):
    """The lines with a measured number, and these numbers."""
    subprocess.run(["git", "clone", "--quiet", str(TOP), str(copy)], check=True)
    if copy.name in PATHS:
        name, *edits = PATHS[copy.name]
        edit(copy, name, edits)
    command = [sys.executable, copy / "bench" / script, *arguments]
    run = subprocess.run(command, capture_output=True, text=True)
    if run.stderr:
        sys.exit(run.stderr)
    found = [(line, MEASURED.search(line)) for line in run.stdout.splitlines()]
    return [(line, float(number[1].replace(",", ""))) for line, number in found if number]


def words(line):
    """A line without its numbers."""
    return re.sub(r"[\d.,]+", "", line).split()


def main():
    if len(sys.argv) < 3 or sys.argv[1] not in PATHS:
        sys.exit(f"{__doc__}\npaths: {' '.join(PATHS)}")
    path, script, *arguments = sys.argv[1:]
    with tempfile.TemporaryDirectory() as folder:
        with_it = measured(pathlib.Path(folder) / "whole", script, arguments)
        without = measured(pathlib.Path(folder) / path, script, arguments)
    if not with_it or [words(line) for line, _ in with_it] != [words(line) for line, _ in without]:
        sys.exit("the two runs print other lines")
    for (line, number), (_, more) in zip(with_it, without):
        print(f"{more / number:8.2f} {line.strip()}")


main()
