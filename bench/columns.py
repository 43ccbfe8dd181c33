#!/usr/bin/env python3
"""Writes the columns of the characters in the cases of `test_cases`: a table by which it measures lines.

usage: columns.py >crates/test_cases/data/columns

Each line has a character's code in hexadecimal digits, its columns, and `never`, `base` or `active`. The columns are those that
two sources outside of this repository agree on: Python's `unicodedata` (wide and fullwidth characters take two, marks and format
characters none, others one) and the package `wcwidth`. Where they differ, or one doesn't know the character, it isn't listed.

Some texts take other columns than their characters together, such as a digit with U+FE0F and U+20E3. An `active` character is one
that may bring that about beside a `base` or another active one. A line is measured by the table where none stands so.
"""

import pathlib
import tomllib
import unicodedata

import wcwidth

CASES = pathlib.Path(__file__).parent.parent / "crates/test_cases/stdin"
# Marks that are counted as one column, since they are drawn so: the consonant joiner of Tifinagh.
DRAWN_ALONE = {"\u2D7F"}
# Scripts that have ligatures.
JOINING = ("ARABIC", "BUGINESE", "HEBREW", "KHMER", "KIRAT RAI", "LISU", "OLD TURKIC", "TIFINAGH")
# Digits and signs on keycaps, and quotation marks, whose columns a variation selector may change.
KEYCAPS_AND_QUOTES = "#*0123456789\u2018\u2019\u201C\u201D\u203C\u2049\u00A9\u00AE"


def columns(character):
    """The columns by `unicodedata`, or None if it doesn't know the character."""
    category = unicodedata.category(character)
    if category in ("Cn", "Cc", "Cs"):
        return None
    if category in ("Mn", "Me", "Cf"):
        return 0
    return 2 if unicodedata.east_asian_width(character) in "WF" else 1


def joining(character):
    name = unicodedata.name(character, "")
    if columns(character) == 0 or name.startswith(JOINING) or name.startswith("EMOJI MODIFIER"):
        return "active"
    if character in KEYCAPS_AND_QUOTES or unicodedata.category(character) == "So":
        return "base"
    return "never"


def texts(value):
    """Each text of a value of TOML."""
    if isinstance(value, str):
        yield value
    elif isinstance(value, list):
        for item in value:
            yield from texts(item)
    elif isinstance(value, dict):
        for item in value.values():
            yield from texts(item)


def main():
    characters = set(map(chr, range(0x20, 0x7F))) | set(map(chr, range(0x2500, 0x2580)))
    for text in texts(tomllib.loads(CASES.read_text(encoding="utf-8"))):
        characters |= set(text)
    for character in sorted(characters - DRAWN_ALONE):
        if columns(character) == wcwidth.wcwidth(character):
            print(f"{ord(character):x} {columns(character)} {joining(character)}")


if __name__ == "__main__":
    main()
