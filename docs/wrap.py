#!/usr/bin/env python3
"""Wraps the paragraphs and list items of pages that are wider than 100 columns: docs/wrap.py PAGE..

Headings, tables and fenced blocks stay as they are, and no link is broken. Not for docs/API.md and
docs/GALLERY.md, which scripts write.
"""

import pathlib
import re
import sys
import textwrap

COLUMNS = 100


def wrapped(block):
    """The lines of a paragraph or an item, wrapped if one of them is too wide."""
    if all(len(line) <= COLUMNS for line in block):
        return block
    mark = re.match(r"\s*(?:(?:[-*]|\d+\.) )?", block[0])[0]
    text = " ".join(line.strip() for line in block)[len(mark.lstrip()):]
    text = re.sub(r"\[[^]]*\]\([^)]*\)", lambda link: link[0].replace(" ", "\0"), text)
    lines = textwrap.wrap(
        text,
        COLUMNS,
        initial_indent=mark,
        subsequent_indent=" " * len(mark),
        break_long_words=False,
        break_on_hyphens=False,
    )
    return [line.replace("\0", " ") for line in lines]


def page(lines):
    """The lines of a page, wrapped."""
    done, block, fenced = [], [], False
    for line in lines:
        short = line.lstrip()
        is_fence = short.startswith("```")
        if is_fence or fenced or not short or short.startswith(("|", "#")):
            done += [*wrapped(block), line] if block else [line]
            block = []
            fenced ^= is_fence
        elif block and re.match(r"(?:[-*]|\d+\.) ", short):
            done += wrapped(block)
            block = [line]
        else:
            block.append(line)
    return done + (wrapped(block) if block else [])


WRITTEN = ("API.md", "GALLERY.md")

for path in map(pathlib.Path, sys.argv[1:]):
    if path.name in WRITTEN:
        sys.exit(f"wrap.py: a script writes {path}")
    path.write_text("\n".join(page(path.read_text().splitlines())) + "\n")
