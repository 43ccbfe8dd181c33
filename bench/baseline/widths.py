#!/usr/bin/env python3
"""Writes `src/widths.rs`: the characters that don't take one column, as ranges.

usage: widths.py

A character takes two columns if its East Asian Width is wide or fullwidth, and none if it is a
combining mark or a format character other than the soft hyphen. The data is that of Python's
`unicodedata`. Characters that it doesn't know take one column.
"""

import pathlib
import sys
import unicodedata

FILE = pathlib.Path(__file__).resolve().parent / "src" / "widths.rs"

HEAD = """\
//! The characters that don't take one column: the first and the last of a range, and its columns.
//! Written by `widths.py` from Unicode {version}.

pub const RANGES: [(u32, u32, u8); {count}] = [
"""


SOFT_HYPHEN = 0xAD


def columns(code):
    """The columns of a character."""
    category = unicodedata.category(chr(code))
    if category == "Cn" or code == SOFT_HYPHEN:
        return 1
    if category in ("Mn", "Me", "Cf"):
        return 0
    return 2 if unicodedata.east_asian_width(chr(code)) in "WF" else 1


def ranges():
    """The longest ranges of characters that take the same number of columns, which isn't one."""
    first, of_range = 0, 1
    for code in range(sys.maxunicode + 2):
        now = columns(code) if code <= sys.maxunicode else 1
        if now != of_range:
            if of_range != 1:
                yield first, code - 1, of_range
            first, of_range = code, now


def main():
    found = list(ranges())
    head = HEAD.format(version=unicodedata.unidata_version, count=len(found))
    rows = "".join(f"    (0x{first:04X}, 0x{last:04X}, {width}),\n" for first, last, width in found)
    FILE.write_text(f"{head}{rows}];\n")


main()
